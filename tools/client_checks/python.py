"""The checks of the Python package."""

import os
import re
from pathlib import Path

from needs import is_there

from .rust import AARCH64, CAN_CROSS
from .table import CACHE, PYTHONS, Check, Failed, Need, Place

HYPOTHESIS, WHEEL, DASK = (f"python {' '.join(it)}" for it in PYTHONS.values())
STORED = "HYPOTHESIS_STORAGE_DIRECTORY=$work/hypothesis"
TESTS = f"in $package PYTHONPATH=. {STORED} $hypothesis -m unittest discover -s tests"
IN_TESTS = "in $clients/python/tests PYTHONPATH="
OF_CALLS = "test_calls test_protocols test_selection test_arrow test_lines test_distinct"
PIP = "$wheel -m pip --quiet --disable-pip-version-check --no-cache-dir --no-input"
MAKE_WHEEL = f"{PIP} wheel --no-index --no-build-isolation --no-deps -w"
EXAMPLES = "$clients/python/examples"
OF_AARCH64 = CACHE / "python-aarch64"


def module_apart(name: str, python: str, flags: str) -> str:
    """The steps that build the module by a Python, with flags for the compiler, in a folder of its own."""
    return f"""
        mkdir -p $work/{name}
        sh -c 'cd "$$0" && cp --parents string_interner/*.py "$$1"' $clients/python $work/{name}
        in $clients/python CFLAGS="{flags}" {python} setup.py --quiet build_ext --force \
            --build-lib $work/{name} --build-temp $work/{name}.o"""


def versions(place: Place) -> str:
    """The same module in each CPython from 3.11 on that is here, of 3.12 and so on in one each, and not again in that of the tests."""
    def tell(python: Path | str, what: str) -> str:
        return place.run(f"$python -c 'import platform; print({what})'", python=python).strip()

    minor, passed = '".".join(platform.python_version_tuple()[:2])', []
    tried = {tell(str(place.names["hypothesis"]), minor)} if is_there(HYPOTHESIS) else set()
    pyenv = Path(os.environ.get("PYENV_ROOT") or Path.home() / ".pyenv", "versions")
    for python in [*sorted(pyenv.glob("3.1[1-9]*/bin/python3")), *sorted(Path("/usr/bin").glob("python3.1[1-9]"))]:
        if os.access(python, os.X_OK) and (version := tell(python, minor)) not in tried:
            tried.add(version)
            place.run(f"{IN_TESTS}.. $python -m unittest {OF_CALLS} test_safety test_signals", python=python)
            passed.append(tell(python, "platform.python_version()"))
    return f"passed in {' '.join(passed)}" if passed else "there is no other one"


def columns(place: Place) -> None:
    """The programs of docs/use/columns.md and docs/use/pandas.md: in one process, and over what several processes of dictcol wrote."""
    place.write("columns/logs/1.log.json", '{"dictionary":["red","green"],"final_newline":true,"lines":[0,1,0]}')
    place.write("columns/logs/2.log.json", '{"dictionary":["blue","green"],"final_newline":false,"lines":[0,1]}')
    step = f"in $work/columns PYTHONPATH=$clients/python python3 {EXAMPLES}"
    for name in "columns", "beside_pandas", "one_field":
        place.run(f"{step}/{name}.py")
    place.printed(f"{step}/merge_columns.py", "red", "green", "red", "blue", "green")


def must_be_portable(place: Place, module: Path) -> None:
    """What a module in C shows and needs: only its own start, and a C library of 2.17 or older, as its tag says. On aarch64 a part of
    that library is the file that starts programs."""
    shown = [line.split()[2] for line in place.run("nm -D --defined-only $module", module=module).splitlines()]
    needed = {*re.findall(r"NEEDED.*\[(.*)\]", place.run("readelf -d $module", module=module))} - {"ld-linux-aarch64.so.1"}
    of_library = re.findall(r"GLIBC_([\d.]+)", place.run("objdump -T $module", module=module))
    newest = max([tuple(map(int, it.split("."))) for it in of_library], default=())
    if shown != ["PyInit__native"] or needed != {"libc.so.6"} or newest > (2, 17):
        raise Failed(f"the module shows {shown}, and needs {needed} and the C library {newest}")


def install(place: Place, folder: str) -> Path:
    """Installs the wheel of a folder in an empty environment, which has nothing else, and tries it. Returns the wheel."""
    wheel = place.only(f"{folder}/*.whl")
    place.run(f"python3 -m venv --without-pip $work/{folder}.venv")
    place.run(f"{PIP} --python $work/{folder}.venv/bin/python install --no-index $made", made=wheel)
    must_be_portable(place, place.only(f"{folder}.venv/lib/python*/site-packages/string_interner/_native*.so"))
    place.run(f"in / STRING_INTERNER_LIB= PYTHONPATH= $work/{folder}.venv/bin/python {EXAMPLES}/first.py")
    return wheel


def copy_package(place: Place, into: str) -> None:
    """Copies the package without the module."""
    place.run(f"mkdir -p $work/{into}")
    place.run(f"cp -rL $clients/python $work/{into}")
    place.run(f"find $work/{into}/python/string_interner -name '*.so' -delete")


def wheel(place: Place) -> str:
    copy_package(place, "packed")
    place.run(f"{MAKE_WHEEL} $work/wheels $work/packed/python")
    made = install(place, "wheels")
    if is_there("mypy"):
        mypy = "mypy --strict --cache-dir=/dev/null --python-executable $work/wheels.venv/bin/python"
        place.run(f"in $work {mypy} $work/packed/python/tests/typed.py")
    return f"{made.name} runs"


def on_aarch64(place: Place) -> str:
    """A wheel for aarch64 over the library that cargo makes, and programs with it. Those that start threads hang in this emulator."""
    copy_package(place, "arm")
    place.run(f"in $clients/c RUSTC=/usr/bin/rustc cargo build --release --offline --target {AARCH64} --target-dir $work/arm/target")
    place.run(f"cp $clients/c/string_interner.h $work/arm/target/{AARCH64}/release")
    headers = f"-I{OF_AARCH64}/usr/include/python3.11 -I{OF_AARCH64}/usr/include"
    place.run(f"STRING_INTERNER_LIB=$work/arm/target/{AARCH64}/release _PYTHON_HOST_PLATFORM=linux-aarch64 CC=aarch64-linux-gnu-gcc "
              f"LDSHARED='aarch64-linux-gnu-gcc -shared' CFLAGS='{headers}' {MAKE_WHEEL} $work/arm $work/arm/python")
    made = place.only("arm/*-manylinux_2_17_aarch64.whl")
    place.run("python3 -m zipfile -e $made $work/arm/site", made=made)
    must_be_portable(place, place.work / "arm/site/string_interner/_native.abi3.so")
    libraries = ":".join(f"{OF_AARCH64}/{it}/aarch64-linux-gnu" for it in ("lib", "usr/lib"))
    for name in "first", "from_a_dict", "columns":
        place.run(f"qemu-aarch64 -L /usr/aarch64-linux-gnu -E LD_LIBRARY_PATH={libraries} -E PYTHONPATH=$work/arm/site "
                  f"{OF_AARCH64}/usr/bin/python3.11 $work/arm/python/examples/{name}.py")
    return f"{made.name} runs on aarch64"


def sources(place: Place) -> None:
    """Installs from the archive of the package's sources: with the library, and without it, which says what is missing."""
    copy_package(place, "sources/clients")
    place.run("cp $top/Cargo.toml $work/sources")
    place.run("cp -rL $clients/c $clients/programs $clients/rust $work/sources/clients")
    place.run("in $work/sources/clients/python $wheel setup.py --quiet sdist -d $work/sdist")
    archive = place.only("sdist/*.tar.gz")
    place.run(f"{MAKE_WHEEL} $work/wheels-of-sources $sdist", sdist=archive)
    # Over the library as it is installed, and as the archive for C of a release has it.
    place.run("$clients/build --install $work/sdist/prefix $archive")
    place.run(f"STRING_INTERNER_LIB=$work/sdist/prefix {MAKE_WHEEL} $work/sdist/installed $sdist", sdist=archive)
    place.refused("run clients/build, or name its folder in STRING_INTERNER_LIB.*The archive for C of each release has it",
                  f"STRING_INTERNER_LIB=$work {MAKE_WHEEL} $work/sdist/none $sdist", sdist=archive)


def sources_by_cargo(place: Place) -> str:
    """Installs from the same archive where there is no library: cargo compiles it, of what is in the archive."""
    place.run(f"STRING_INTERNER_LIB= {MAKE_WHEEL} $work/by-cargo $sdist", sdist=place.only("sdist/*.tar.gz"))
    install(place, "by-cargo")
    said = "proved source, compiled by rustc"
    place.printed("in / PYTHONPATH= $work/by-cargo.venv/bin/python -c 'import string_interner; print(string_interner.__build__)'", said)
    return f"the module says: {said}"


# Python then gets each object from malloc.
UNDER_MEMCHECK = f"{IN_TESTS}.. PYTHONMALLOC=malloc valgrind --quiet --error-exitcode=9 $hypothesis"
HAS_MODULE = Need(lambda place: (place.package / "string_interner/_native.abi3.so").exists(),
                  "what imports the module for Python (clients/build says what it lacks)")
CAN_CROSS_PYTHON = Need(lambda place: CAN_CROSS.is_there(place) and os.access(OF_AARCH64 / "usr/bin/python3.11", os.X_OK),
                        "a wheel for aarch64 (cargo, and what .ci/run unpacks and installs for that processor)")
RAN = "Ran [1-9]-"
CHECKS = [
    Check("Python, its tests", TESTS, RAN, (HYPOTHESIS,)),
    # Codes that take 8 bytes from 3 texts on, and iterators that are read 3 values at a time.
    Check("Python, columns with wide codes", module_apart("wide", "$wheel", "-DMOST_NARROW=2 -DVALUES_AT_ONCE=3") + f"""
        {IN_TESTS}$work/wide {STORED} $hypothesis -m unittest test_column test_selection test_arrow test_lines test_distinct""",
          RAN, (HYPOTHESIS, WHEEL), once=False),
    # It checks what a module in C hands it, and counts all references.
    Check("Python, a debug build", module_apart("debug", "python3d", "") + f"""
        {IN_TESTS}$work/debug python3d -W ignore -m unittest references {OF_CALLS}""", RAN, ("python3d",), once=False),
    Check("Python, each version", versions, once=False),
    # Against pandas, also with a worker that is killed.
    Check("Python, columns on dask", f"{IN_TESTS}.. $dask -m unittest on_dask", RAN, (DASK,)),
    Check("Python, the first programs", "\n".join(f"PYTHONPATH=$clients/python python3 {EXAMPLES}/{name}.py"
                                                  for name in ("first", "from_a_dict", "in_parts")), "run"),
    Check("Python, columns", columns, "run"),
    Check("Python, its types", "in $clients/python mypy --cache-dir=/dev/null", "", ("mypy",)),
    Check("Python, a wheel", wheel, "", (WHEEL,)),
    Check("Python, a wheel for aarch64", on_aarch64, "", (WHEEL, "cargo"), (CAN_CROSS_PYTHON,), once=False),
    Check("Python, its sources", sources, "built with the library, and says what is missing without it", (WHEEL,)),
    Check("Python, its sources and cargo", sources_by_cargo, "", ("cargo",), after="Python, its sources"),
]
# Random calls and tests of each call: it sees each read and write of the module and the library.
MEMCHECK = [Check("Python, under memcheck", f"""
    {UNDER_MEMCHECK} random_calls.py 3000
    {UNDER_MEMCHECK} -m unittest test_calls test_selection test_arrow test_distinct""", "memcheck reports nothing",
                  ("valgrind", HYPOTHESIS), once=False)]
