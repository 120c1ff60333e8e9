"""Builds the module in C with the library for C linked in, and packs the sources of both. One file serves CPython from 3.11 on.

The library is the one that STRING_INTERNER_LIB names, or else in the repository the one that clients/build made. Where there is none,
cargo compiles it, of the sources that are here, too.
"""

import logging
import os
import shutil
import subprocess
import sysconfig
import time
import tomllib
from pathlib import Path

from setuptools import Extension, setup
from setuptools.command.build_ext import build_ext
from setuptools.command.sdist import sdist

try:
    from setuptools.command.bdist_wheel import bdist_wheel
except ImportError:  # setuptools before 70.1
    try:
        from wheel.bdist_wheel import bdist_wheel
    except ImportError:
        raise SystemExit("setup.py: this Python has no wheel: install that (Debian's python3-wheel), or setuptools 70.1 or later") from None

ARCHIVE = "libstring_interner.a"
# How often a long step says that it is at work.
SECONDS = 5
HERE = Path(__file__).resolve().parent
# The sources of the library: in the archive of this package's sources, and in the repository. No other package is used.
PACKED = HERE / "library"
SOURCES = PACKED if PACKED.exists() else HERE.parent.parent
FLAGS = ["-O2", "-std=c11", "-Wall", "-Wextra", "-Wno-cast-function-type", "-Wno-missing-field-initializers", "-fvisibility=hidden", "-g0"]


class BuildWithLibrary(build_ext):
    def build_extensions(self) -> None:
        if sysconfig.get_config_var("Py_GIL_DISABLED"):
            raise SystemExit("setup.py: the module needs the global lock, which this Python is built without")
        headers, archive = find_library() or self.compile_library(Path(self.build_temp).resolve() / "library")
        for extension in self.extensions:
            extension.include_dirs.append(str(headers))
            extension.extra_objects.append(str(archive))
            extension.depends.append(str(archive))
        super().build_extensions()

    def compile_library(self, folder: Path) -> tuple[Path, Path]:
        """Returns the folder of the header and the archive that cargo makes in a folder, without a network. It is for this machine,
        whatever target a setting of cargo names."""
        command = ["cargo", "build", "--quiet", "--release", "--offline", "-p", "string-interner-c", "--target-dir", str(folder)]
        try:
            about = subprocess.run(["cargo", "-vV"], check=True, stdout=subprocess.PIPE, encoding="utf-8", cwd=SOURCES).stdout
            host = next(line.removeprefix("host: ") for line in about.splitlines() if line.startswith("host: "))
            logging.info("setup.py: compiling the library by cargo, in a minute")
            status = self.run_and_tell([*command, "--target", host], SOURCES)
        except FileNotFoundError:
            raise SystemExit(
                "setup.py: no cargo, which compiles the library: install Rust 1.85 or later, or name the folder of a library in "
                "STRING_INTERNER_LIB"
            ) from None
        except subprocess.CalledProcessError as error:
            status = error.returncode
        if status:
            raise SystemExit("setup.py: cargo did not compile the library")
        return SOURCES / "clients/c", folder / host / "release" / ARCHIVE

    def run_and_tell(self, command: list[str], folder: Path) -> int:
        """Runs a command, and says each few seconds that it is at work. Returns how it ended."""
        start = time.monotonic()
        with subprocess.Popen(command, cwd=folder) as running:
            while True:
                try:
                    return running.wait(SECONDS)
                except subprocess.TimeoutExpired:
                    logging.info("setup.py: still compiling, %.0f s", time.monotonic() - start)


class ManyLinuxWheel(bdist_wheel):
    def get_tag(self) -> tuple[str, str, str]:
        python, abi, platform = super().get_tag()
        # It needs nothing but the C library, of 2.17 or older; clients/check looks, on both processors.
        is_known = platform in ("linux_x86_64", "linux_aarch64")
        return python, abi, platform.replace("linux", "manylinux_2_17") if is_known else platform


class SourcesOfAll(sdist):
    def make_release_tree(self, base_dir: str, files: list[str]) -> None:
        super().make_release_tree(base_dir, files)
        # Cargo asks for all packages of a workspace, and builds one.
        workspace = tomllib.loads((SOURCES / "Cargo.toml").read_text(encoding="utf-8"))["workspace"]
        for package in workspace["members"]:
            shutil.copytree(SOURCES / package, Path(base_dir, "library", package), ignore=shutil.ignore_patterns("out", "target"))
        shutil.copy(SOURCES / "Cargo.toml", Path(base_dir, "library"))


def find_library() -> tuple[Path, Path] | None:
    """Returns the folder of the header and the archive: of what STRING_INTERNER_LIB names, or else of what clients/build made, if it
    did."""
    named = os.environ.get("STRING_INTERNER_LIB")
    folder = Path(named or HERE.parent / "out")
    for headers, archive in ((folder, folder / ARCHIVE), (folder / "include", folder / "lib" / ARCHIVE)):
        if archive.exists():
            return headers, archive
    if named:
        raise SystemExit(
            f"setup.py: no {folder / ARCHIVE}: run clients/build, or name its folder in STRING_INTERNER_LIB. The archive for C of each "
            "release has it, too: unpack that, and name its folder. Without STRING_INTERNER_LIB cargo compiles the library"
        )
    return None


setup(
    ext_modules=[
        Extension(
            "string_interner._native",
            sorted(str(path.relative_to(HERE)) for path in HERE.glob("native/*.c")),
            depends=["native/arrow.h", "native/native.h"],
            py_limited_api=True,
            extra_compile_args=FLAGS,
            extra_link_args=["-Wl,--exclude-libs,ALL"],
        )
    ],
    cmdclass={"build_ext": BuildWithLibrary, "bdist_wheel": ManyLinuxWheel, "sdist": SourcesOfAll},
    options={"bdist_wheel": {"py_limited_api": "cp311"}},
)
