"""The checks of the Rust crate, also on other processors and in wasm, and of the programs for cargo."""

import os
import random
import re
import shutil
import subprocess
from collections.abc import Callable
from functools import cache
from pathlib import Path

from needs import CRATES, is_there
from tree import TOP, read

from .table import CACHE, CLIENTS, Check, Failed, Need, Options, Place

RUST = CLIENTS / "rust"
# The oldest compiler that the crate may have.
OLDEST = re.findall(r'^rust-version = "(.*)"$', read(RUST / "Cargo.toml"), re.M)[0]
BROWSER = CACHE / "chromium/browser"
I686, WASM32, AARCH64 = "i686-unknown-linux-gnu", "wasm32-unknown-unknown", "aarch64-unknown-linux-gnu"
HOST = "x86_64-unknown-linux-gnu"
EVERY_CHECK = "--config profile.release.overflow-checks=true --config profile.release.debug-assertions=true"
# The build for targets without vectors, with every check.
CHECKED = "RUSTFLAGS='--cfg string_interner_words --cfg string_interner_checks'"
RUSTC_OF_ARM = f"/usr/bin/rustc --edition 2021 --target {AARCH64} -O -C linker=aarch64-linux-gnu-gcc"
FOR_WASM = f"--offline --release --target {WASM32} {EVERY_CHECK}"
# Over libraries that are built before. Each warning is an error.
BUILD_FOR_WASM = ("RUSTC=/usr/bin/rustc RUSTFLAGS='--sysroot $work/root -D warnings' CARGO_TARGET_WASM32_UNKNOWN_UNKNOWN_LINKER=wasm-ld "
                  f"CARGO_TARGET_DIR=$work/wasm /usr/bin/cargo build {FOR_WASM}")
SERDE = "crates serde serde_derive serde_json bincode"
OF_BENCH = "crates ahash dashmap hashbrown indexmap libc string_cache"
# Cargo takes other crates from Debian's sources.
FROM_DEBIAN = f"""--config "source.crates-io.replace-with='debian'" --config "source.debian.directory='{CRATES}'" """
WITH_SERDE = "$work/crate/tests/with_serde"
TEST = "cargo test --offline"
# Calls that libFuzzer chooses, under the address sanitizer.
FUZZ = """
    mkdir -p $work/fuzzed/inputs
    $clients/rust/tests/fuzz/build $work/fuzzed
    in $work/fuzzed ASAN_OPTIONS=detect_leaks=0 ./calls -max_len=2000 -rss_limit_mb=0 -detect_leaks=0"""
SOME_TESTS = "--lib --test interner --test misbehaving --test random_calls"


@cache
def ask(*words: str) -> str:
    """What a command prints, if it is there and ends well."""
    try:
        return subprocess.run(words, stdin=subprocess.DEVNULL, capture_output=True, check=True, encoding="utf-8").stdout.strip()
    except (OSError, subprocess.CalledProcessError):
        return ""


def oldest_compiler() -> str:
    """The oldest compiler that the crate may have: that of rustup, or that of Debian where .ci/run puts it."""
    if toolchain := next((it.split()[0] for it in ask("rustup", "toolchain", "list").splitlines() if it.startswith(OLDEST)), ""):
        return ask("rustup", "which", "--toolchain", toolchain, "rustc")
    compiler = CACHE / f"rust-{OLDEST}/rustc"
    return str(compiler) if compiler.exists() else ""


def place_of_crate(work: Path, options: Options) -> Place:
    """Has a copy of the crate, too. Cargo does as in a crate that says nothing of how it optimizes: the workspace has what makes the
    programs fast, and each test a minute's work."""
    place = Place(work, options)
    place.run("cp -rL $clients/rust $work/crate")
    place.run("rm -rf $work/crate/target")
    place.environment |= {"CARGO_PROFILE_RELEASE_LTO": "false", "CARGO_PROFILE_RELEASE_CODEGEN_UNITS": "16"}
    return place


def package(name: str, *lines: str) -> list[str]:
    """The manifest of a package of its own."""
    return ["[package]", f'name = "{name}"', 'edition = "2021"', "[workspace]", *lines]


def features(place: Place) -> None:
    """Builds crates without std that ask for string-interner 0.19, also for what it has not without a registry, and not for others."""
    parts = "pub use string_interner::__parts::erased;"
    for words, line, why in [
        ('features = ["std"]', "", ""), ("default-features = false", "", ""),
        ('default-features = false, features = ["backends", "inline-more"]', "", ""),
        ('features = ["serde"]', "", "no matching package named `serde` found"),
        ('features = ["parts"]', parts, ""), ('features = ["std"]', parts, "could not find `__parts`"),
    ]:
        place.write("features/Cargo.toml", *package("features", "[patch.crates-io]", f'string-interner = {{ path = "{RUST}" }}'),
                    "[dependencies]", f'string-interner = {{ version = "0.19", {words} }}')
        place.write("features/src/lib.rs", "#![no_std]", "pub type Names = string_interner::DefaultStringInterner;", line)
        build = "in $work/features cargo build --offline"
        place.refused(why, build) if why else place.run(build)


def packed(place: Place) -> None:
    """Makes the crate that a registry would take, with addresses for pages, and its pages, as a crate with serde has them. Each warning is
    an error."""
    place.run(f"in $work/crate cargo package --offline {FROM_DEBIAN}")
    place.run(f"in {WITH_SERDE} RUSTDOCFLAGS='-D warnings' cargo doc --offline {FROM_DEBIAN} --no-deps -p string-interner")
    pages = re.findall("^(?:documentation|homepage|repository) = (.*)$", read(RUST / "Cargo.toml"), re.M)
    if re.search("^warning", place.log, re.M) or not all(re.fullmatch('"https?://.*"', it) for it in pages):
        raise Failed(f"there are warnings, or these are no addresses: {pages}")


def change(path: Path, old: str, new: str) -> None:
    """Writes other words into a file for those of a pattern, which must be there."""
    text, count = re.subn(old, new, read(path), flags=re.M)
    if not count:
        raise Failed(f"{path} has not {old}")
    path.write_text(text, encoding="utf-8")


def copy_crate(place: Place, into: str) -> Path:
    """Copies the crate into a folder of its own, without its tests and examples."""
    place.run(f"mkdir -p $work/{into}/examples $work/{into}/tests")
    place.run(f"cp -rL $clients/rust/Cargo.toml $clients/rust/README.md $clients/rust/src $work/{into}")
    place.run(f"cp -r $clients/rust/tests/no_serde $work/{into}/tests")
    change(place.work / into / "Cargo.toml", r"\Z", read(RUST / "tests/no_serde/alone.toml"))
    return place.work / into


def lint(place: Place, step: str) -> None:
    """Runs clippy. Each warning is an error."""
    place.run(f"{step.replace('clippy', f'cargo clippy --offline {FROM_DEBIAN if CRATES.is_dir() else str()}', 1)} -- -D warnings")


def lints(place: Place) -> None:
    """What rustfmt, rustdoc and clippy say of all Rust that is written by hand: tools/erase writes `src/erased`. Programs that no
    package has are examples of a copy of the crate."""
    left = "( -path '*/src/erased' -o -name out -o -name target ) -prune"
    place.run(f"find $top {left} -o -name '*.rs' -exec rustfmt --edition 2021 --check {{}} +")
    for it in "--all-features", "--no-default-features":
        place.run(f"in $clients/rust RUSTDOCFLAGS='-D warnings' cargo doc --offline {it}")
    lint(place, "in $clients clippy --all-targets --all-features")
    lint(place, "in $clients/c clippy")
    copy = copy_crate(place, "lints/original")
    # Cargo tells two packages of one name by their versions.
    change(copy / "Cargo.toml", '^version = "0.19.*', 'version = "0.19.0"')
    for name in "clients/rust/tests/fuzz/calls", "clients/rust/tests/races/program", "tools/tests/attacks":
        change(copy / "Cargo.toml", r"\Z", f'[[example]]\nname = "{Path(name).name}"\npath = "{TOP}/{name}.rs"\n')
    modules = [f'#[path = "{RUST}/tests/{name}.rs"]\nmod {Path(name).name};' for name in ("races/lock", "original/allocator")]
    place.write("lints/original/examples/modules.rs", "#![allow(dead_code)]", *modules, "fn main() {}")
    lint(place, "in $work/lints/original RUSTFLAGS='--cfg fuzzing' clippy --examples")
    if is_there(SERDE):
        lint(place, f"in {WITH_SERDE} clippy --tests")


def lints_of_bench(place: Place) -> None:
    """Lints what measures. A copy of the crate stands for the original."""
    ours = f'ours = {{ package = "string-interner", path = "{RUST}", features = ["parts"] }}'
    copy = f'{{ package = "string-interner", path = "{place.work}/lints/original" }}'
    # Of the last a name for one type would be a change of what was measured.
    for name, dependencies in {
        "rust/main.rs": [ours, f"original = {copy}"],
        "threads/main.rs": [ours, f"original = {copy}", 'ahash = "0.7"', 'dashmap = { version = "5", features = ["raw-api"] }',
                            'hashbrown = "0.12"', 'libc = "0.2"', 'string_cache = "0.8"'],
        "peer/main.rs": ['hashbrown = "0.12"'],
        "beside/src/main.rs": [f"string-interner = {copy}", 'indexmap = "1"', 'libc = "0.2"',
                               "[lints.clippy]", 'type_complexity = "allow"'],
    }.items():
        program = package("bench", "[[bin]]", 'name = "bench"', f'path = "{TOP}/bench/{name}"', "[dependencies]")
        folder = f"lints/{name.partition('/')[0]}"
        place.write(f"{folder}/Cargo.toml", *program, *dependencies)
        lint(place, f"in $work/{folder} clippy")


def layouts(place: Place) -> str:
    """Tests under layouts of types that the compiler chooses at random. What sizes they have without is left out."""
    seed = random.randrange(1 << 15)
    place.run(f"in $clients/rust RUSTFLAGS='-Zrandomize-layout -Zlayout-seed={seed}' RUSTC_BOOTSTRAP=1 CARGO_TARGET_DIR=$work/layouts "
              f"{TEST} {SOME_TESTS} -- --skip holds_at_line")
    return place.tell(f"{{}} tests passed under the seed {seed}")


def by_oldest(step: str, tells: str) -> Callable[[Place], str]:
    """A step by the oldest compiler."""
    def run(place: Place) -> str:
        place.run(step, rustc=oldest_compiler())
        return f"{ask(oldest_compiler(), '--version')}: {place.tell(tells)}"

    return run


def reports_a_race(place: Place, setting: str, what: str) -> None:
    """The thread sanitizer must report a race in one of fifty runs of the program. It ends it, because behind a race it may hang. Where
    processors are busy, threads may run one behind the other, and nothing is seen."""
    step = f"TSAN_OPTIONS=halt_on_error=1 {setting} sh -c '\"$$0\"; exit 0' $work/races/target/{HOST}/release/examples/program"
    if not any("ThreadSanitizer: data race" in place.run(step) for _ in range(50)):
        raise Failed(f"the thread sanitizer does not report {what}")


def races(place: Place) -> None:
    """Shares an interner among threads under the thread sanitizer. That does not see the locks and cells of Rust's std, which is compiled
    without it, so a copy of the crate has some of atomics. It must report nothing, and must report threads that lock nothing, and
    orders of memory that order nothing."""
    copy = copy_crate(place, "races")
    place.run("cp $clients/rust/tests/races/lock.rs $work/races/src")
    place.run("cp $clients/rust/tests/races/program.rs $work/races/examples")
    change(copy / "src/lib.rs", r"\Z", "mod lock;\n")
    for path in [copy / "src/sync.rs", *(copy / "src/sync").glob("*.rs")]:
        place.run(r"sed -i 's/^use std::sync::{\(.*Mutex\)/use crate::lock::{\1/' $path", path=path)
    build = (f"in $work/races RUSTC_BOOTSTRAP=1 RUSTFLAGS='-Zsanitizer=thread -Cunsafe-allow-abi-mismatch=sanitizer' "
             f"CARGO_TARGET_DIR=$work/races/target cargo build --offline --release --target {HOST} --example program")
    place.run(build)
    place.run(f"$work/races/target/{HOST}/release/examples/program")
    reports_a_race(place, "NO_LOCK=1", "threads that lock nothing")
    change(copy / "src/sync/orders.rs", "= Ordering::.*;", "= Ordering::Relaxed;")
    place.run(build)
    reports_a_race(place, "", "orders that order nothing")


def first(place: Place) -> None:
    """That of docs/use/rust.md in a crate of its own, which names this one as the crate's page says."""
    place.write("first/Cargo.toml", *package("first", "[dependencies]", f'string-interner = {{ path = "{RUST}" }}'))
    place.write("first/src/main.rs", read(RUST / "examples/first.rs"))
    place.run("in $work/first cargo run --offline")
    for it in "first", "merge":
        place.run(f"in $clients/rust cargo run --offline --example {it}")


def for_target(target: str) -> str:
    """The settings by which cargo builds for a target, and runs what it built."""
    name = f"CARGO_TARGET_{target.upper().replace('-', '_')}"
    return (f"RUSTC=$cache/rust-{OLDEST}/rustc CARGO_TARGET_DIR=$work/{target} {name}_LINKER=$cache/targets/{target}/linker "
            f"{name}_RUNNER=$cache/targets/{target}/runner")


def can_target(target: str, left_out: str) -> Need:
    """Whether there is what builds and runs programs for a target, where .ci/run puts it. The compiler is the oldest one."""
    library = CACHE / f"rust-{OLDEST}/usr/lib/rustlib" / target
    return Need(lambda _: os.access(CACHE / "targets" / target / "linker", os.X_OK) and library.is_dir(), left_out)


def narrow_scenarios(place: Place) -> None:
    """The scenarios over the suite of erased source where a `usize` has 32 bits."""
    place.run(f"{for_target(I686)} $clients/rust/tests/erased/build $work/narrow {I686}")
    suite = place.script("suite", CACHE / "targets" / I686 / "runner", place.work / f"narrow/target/{I686}/release/suite")
    place.run("$top/tools/run-scenarios --narrow $suite", suite=suite)


def sources_of_rust() -> Path:
    """Where the sources of Rust's libraries for the system's compiler are, where .ci/run puts them."""
    return CACHE / f"rust-sources/usr/src/rustc-{'/'.join(ask('/usr/bin/rustc', '--version').split()[1:2])}/library"


# What the example in wasm reads, and prints.
TEXT = "the tiger and the  Löwe\nand\tthe 語 𝄞 tiger"
WORDS = ("10 words, 6 distinct", "0 the: 3", "1 tiger: 2", "2 and: 2", "3 Löwe: 1", "4 語: 1", "5 𝄞: 1")


def wasm_example(place: Place) -> str:
    """Runs the example in node."""
    example = "$clients/rust/examples/wasm"
    place.run(f"in $work/crate/examples/wasm {BUILD_FOR_WASM}")
    place.run("mkdir -p $work/site")
    place.run(f"cp {example}/index.html {example}/interner.mjs {example}/words.mjs $work/wasm/{WASM32}/release/interner.wasm $work/site")
    place.printed("node $work/site/words.mjs", *WORDS, given=f"{TEXT}\n")
    return "the words of a text are numbered in node"


def wasm_in_browser(place: Place) -> str:
    """Runs the example in a browser."""
    place.printed("$clients/rust/tests/wasm/browse $browser $work/site index.html $text", *WORDS, browser=BROWSER, text=TEXT)
    return "the words of a text are numbered in Chromium"


CAN_CROSS = Need(lambda _: all(map(shutil.which, ("aarch64-linux-gnu-gcc", "qemu-aarch64"))) and Path(
    ask("/usr/bin/rustc", "--print", "sysroot"), "lib/rustlib", AARCH64).is_dir(),
    "aarch64 (Debian's rustc-web libstd-rust-web-dev:arm64 gcc-aarch64-linux-gnu libc6-dev-arm64-cross qemu-user)")
CAN_NARROW = can_target(I686, "tests with 32 bits (.ci/run unpacks what they need)")
CAN_WASM = Need(lambda _: all(map(shutil.which, ("wasm-ld", "node"))) and sources_of_rust().is_dir(),
                "wasm (Debian's rustc-web, lld and nodejs, and the sources that .ci/run unpacks)")
CAN_BROWSE = Need(lambda _: os.access(BROWSER, os.X_OK), "the example in wasm in a browser (.ci/run unpacks one)")
SANITIZERS = Need(lambda _: any(Path(ask("rustc", "--print", "target-libdir")).glob("librustc*_rt.asan.a")),
                  "the address and the thread sanitizer, and libFuzzer under the first (a compiler of rustup has their runtimes)")
FUZZER = Need(lambda _: any(Path("/usr/lib").glob("llvm-*/lib/clang/*/lib/linux/libclang_rt.fuzzer-x86_64.a")),
              "libFuzzer (Debian has its runtime in libclang-rt-14-dev)")
# Where rustup is, so are the commands, and what they run may be missing.
LINTERS = Need(lambda _: ask("cargo", "clippy", "--version") and ask("rustfmt", "--version"),
               "clippy and rustfmt (rustup component add clippy rustfmt, or Debian has rust-web-clippy and rustfmt-web)")
HAS_OLDEST = Need(lambda _: oldest_compiler(), f"the oldest compiler (rustup toolchain install {OLDEST}, or .ci/run)")
ORIGINAL = Need(lambda place: place.options.original, "the tests of the original Rust crate (./check all --original FOLDER)")
TESTS, LINTED, NO_WARNING = "{} tests passed", "Rust, its form and lints", "no warning"
SUITE, LIBRARIES, WASM_EXAMPLE = "Rust, a proved program by rustc", "Rust, libraries for wasm", "Rust, the example in wasm"
CHECKS = [
    # The plain Rust that the crate has of the proved source is what the eraser writes today.
    Check("Rust, the proved source", "$top/tools/erase --check"),
    # RUSTC_BOOTSTRAP makes rustdoc compare the errors of programs that must not compile with those that they name.
    Check("Rust, its tests", f"""
        in $clients/rust {TEST} --release --lib --tests
        in $clients/rust RUSTC_BOOTSTRAP=1 {TEST} --release --doc""", TESTS),
    Check(LINTED, lints, NO_WARNING, ("cargo-clippy", "rustfmt"), (LINTERS,)),
    Check("Rust, lints of what measures", lints_of_bench, NO_WARNING, (OF_BENCH,), after=LINTED),
    Check("Rust, features of the original", features,
          "std, inline-more and backends compile without a registry, and so does the crate without std; its parts are closed"),
    Check("Rust, without vectors and with every check", f"in $clients/rust {CHECKED} CARGO_TARGET_DIR=$work/checks {TEST} {SOME_TESTS}",
          TESTS, once=False),
    Check("Rust, under random layouts", layouts, once=False),
    # The program `intern` over the crate answers as the model of the proved one.
    Check("Rust, beside the model of a proved program", """
        in $clients/rust cargo build --offline --release --example intern
        $clients/rust/beside 60 $work/target/release/examples/intern"""),
    # The program `suite` of its erased source over the crate. It answers as the proved one must, and asks for the same memory, also
    # where each request is refused.
    Check(SUITE, "$clients/rust/tests/erased/build $work/erased", "built"),
    Check("Rust, the scenarios by rustc", "$top/tools/run-scenarios $work/erased/target/release/suite", after=SUITE),
    Check("Rust, serde", f"in {WITH_SERDE} {TEST} {FROM_DEBIAN} --lib", TESTS, (SERDE,)),
    Check("Rust, its package", packed, " *Packaged-", (SERDE,), after="Rust, serde"),
    # Programs that do what no caller should, and those that intern many texts at once.
    Check("Rust, hostile programs", f"""
        in $clients/rust CARGO_TARGET_X86_64_UNKNOWN_LINUX_GNU_RUNNER='valgrind --error-exitcode=9 -q' {TEST} --release \
            --test batches --test hostile --test misbehaving""", "memcheck reports nothing in {} tests", ("valgrind",), once=False),
    Check("Rust, under the address sanitizer", f"""
        in $clients/rust RUSTFLAGS=-Zsanitizer=address CARGO_TARGET_DIR=$work/sanitized ASAN_OPTIONS=detect_leaks=0 RUSTC_BOOTSTRAP=1 \
            {TEST} --target {HOST} --test misbehaving --test hostile --test random_calls --test sync --test sync_refusals""",
          "the address sanitizer reports nothing in {} tests", also=(SANITIZERS,), once=False),
    Check("Rust, threads that share an interner", races,
          "the thread sanitizer reports nothing, threads that lock nothing, and orders that order nothing",
          also=(SANITIZERS,), once=False),
    # By 30,000 inputs.
    Check("Rust, by libFuzzer", f"{FUZZ} -seed={random.randrange(1 << 15)} -runs=30000 inputs", also=(SANITIZERS, FUZZER),
          once=False),
    Check("Rust, the oldest compiler", by_oldest(
        f"in $clients/rust RUSTC=$rustc CARGO_TARGET_DIR=$work/oldest {TEST} --lib --tests", TESTS), also=(HAS_OLDEST,), once=False),
    # Programs that start threads hang in this emulator.
    Check("Rust, on aarch64", f"""
        mkdir $work/arm
        in $work/arm {RUSTC_OF_ARM} --crate-type rlib --crate-name string_interner --cfg 'feature="std"' $clients/rust/src/lib.rs
        in $work/arm {RUSTC_OF_ARM} --extern string_interner=libstring_interner.rlib $clients/rust/examples/intern.rs
        $clients/rust/beside 60 qemu-aarch64 -L /usr/aarch64-linux-gnu $work/arm/intern""", also=(CAN_CROSS,), once=False),
    Check("Rust, with 32 bits", f"""
        in $clients/rust {for_target(I686)} {TEST} --target {I686} --config profile.test.opt-level=1 --lib --tests""",
          TESTS, also=(CAN_NARROW,), once=False),
    Check("Rust, the scenarios with 32 bits", narrow_scenarios, also=(CAN_NARROW,), once=False),
    # Without a warning, and the program `intern` beside the same model there, with every check.
    *(Check(f"Rust, on {it.partition('-')[0]}", f"""
        in $clients/rust RUSTFLAGS='-D warnings' {for_target(it)} cargo build --offline --target {it}
        in $clients/rust RUSTFLAGS='-D warnings' {for_target(it)} cargo build --offline --target {it} \
            --release --example intern {EVERY_CHECK}
        $clients/rust/beside 20 $cache/targets/{it}/runner $work/{it}/{it}/release/examples/intern""", also=(
        can_target(it, f"{it.partition('-')[0]} (.ci/run unpacks what builds and runs programs there)"),), once=False)
      for it in (I686, "armv7-unknown-linux-gnueabihf", "s390x-unknown-linux-gnu")),
    # `core` and `alloc`, where a compiler looks for them.
    Check(LIBRARIES, f"""
        in $work/crate/tests/wasm/libraries RUSTC=/usr/bin/rustc RUSTC_BOOTSTRAP=1 __CARGO_TESTS_ONLY_SRC_ROOT={sources_of_rust()} \
            CARGO_TARGET_DIR=$work/libraries /usr/bin/cargo build {FOR_WASM} -Zbuild-std=core,alloc \
            --config "source.crates-io.replace-with='vendored'" --config "source.vendored.directory='{sources_of_rust()}/vendor'"
        mkdir -p $work/root/lib/rustlib/{WASM32}/lib
        find $work/libraries/{WASM32}/release/deps -name lib[ac]*.rlib -exec cp -t $work/root/lib/rustlib/{WASM32}/lib {{}} +""",
          "built", also=(CAN_WASM,), once=False),
    # The crate without std, and the program `intern` in node beside the same model.
    Check("Rust, in wasm", f"""
        in $clients/rust {BUILD_FOR_WASM} --no-default-features
        in $work/crate/tests/wasm {BUILD_FOR_WASM}
        $clients/rust/beside 2 node $clients/rust/tests/wasm/run.mjs $work/wasm/{WASM32}/release/module.wasm""",
          after=LIBRARIES, once=False),
    Check(WASM_EXAMPLE, wasm_example, after=LIBRARIES, once=False),
    Check("Rust, the example in a browser", wasm_in_browser, also=(CAN_BROWSE,), after=WASM_EXAMPLE, once=False),
    Check("Rust, the original's tests", "$clients/rust/original $original", also=(ORIGINAL,)),
    Check("Rust, the first program", first, "run"),
]
BY_CARGO, BY_CARGO_CHECKED = "the programs by cargo", "the programs by cargo, with every check"
RUN_PROGRAM = "$top/tools/run-program --by-cargo $work/programs"
PROGRAMS = [
    # As a user of cargo installs them.
    Check(BY_CARGO, "cargo install --offline --path $clients/programs --root $work/programs", "built"),
    Check("the programs by cargo, what stands for libraries", f"in $clients/programs {TEST} --tests", TESTS, after=BY_CARGO),
    Check("intern by cargo", f"{RUN_PROGRAM}/bin/intern", after=BY_CARGO),
    Check("dictcol by cargo", f"{RUN_PROGRAM}/bin/dictcol", after=BY_CARGO),
    Check("the programs by cargo, the oldest compiler", by_oldest(
        "in $clients/programs RUSTC=$rustc cargo build --offline --target-dir $work/oldest", "built"), also=(HAS_OLDEST,)),
    Check(BY_CARGO_CHECKED, f"in $clients/programs {CHECKED} cargo build --offline --target-dir $work/programs/target", "built"),
    Check("intern by cargo, with every check", f"{RUN_PROGRAM}/target/debug/intern cases tables random", after=BY_CARGO_CHECKED),
    Check("dictcol by cargo, with every check", f"{RUN_PROGRAM}/target/debug/dictcol cases tables columns random", after=BY_CARGO_CHECKED),
]
