"""Tests of the import: what it needs, what it shows, and what is said of a library with another interface."""

import email
import inspect
import os
import pydoc
import re
import shutil
import subprocess
import sys
import sysconfig
import tempfile
import time
import typing
import unittest
from pathlib import Path

from test_safety import HANGS

import string_interner
from string_interner import Column, Interner, _native

PACKAGE = Path(string_interner.__file__).resolve().parent
SOURCES = PACKAGE.parent / "native"
HEADERS = Path(sysconfig.get_path("include"))


class Metadata(unittest.TestCase):
    """What a wheel and the archive of the sources say of the package."""

    def setUp(self):
        if not (PACKAGE.parent / "setup.py").exists():
            self.skipTest("no sources")
        try:
            import setuptools  # noqa: F401
            import wheel  # noqa: F401
        except ImportError:
            self.skipTest("no setuptools or wheel")

    def run_setup(self, *words, **environment):
        return subprocess.run([sys.executable, "-B", "-W", "ignore", "setup.py", "--quiet", *words], cwd=PACKAGE.parent, env=os.environ | environment,
                              capture_output=True, text=True, timeout=HANGS)

    def test_the_page_stands_by_itself(self):
        with tempfile.TemporaryDirectory() as folder:
            self.assertEqual(self.run_setup("egg_info", "--egg-base", folder).returncode, 0)
            (written,) = Path(folder).glob("*/PKG-INFO")
            metadata = email.message_from_string(written.read_text(encoding="utf-8"))
        page = metadata.get_payload()
        self.assertEqual((metadata["Name"], metadata["Version"]), ("string-interner", string_interner.__version__))
        self.assertEqual((metadata["Requires-Python"], metadata["Description-Content-Type"]), (">=3.11", "text/markdown"))
        self.assertIn("License :: OSI Approved :: MIT License", metadata.get_all("Classifier"))
        # It is read where nothing else of the repository is.
        self.assertTrue(page.lstrip().startswith("# string_interner for Python"))
        for target in re.findall(r"\]\(([^)]*)\)", page):
            self.assertRegex(target, "^(https://|#)")
        self.assertNotRegex(page, r"\.\./|no download|PYTHONPATH")
        for words in ("pip install", "pip install --no-build-isolation string?interner-*.tar.gz", "STRING_INTERNER_LIB", "archive for C of the same release"):
            self.assertIn(words, page)
        programs = re.findall(r"^```python\n(.*?)^```$", page, re.M | re.S)
        self.assertTrue(programs)
        for program in programs:
            exec(program, {})

    def test_a_build_without_the_library_says_where_it_is(self):
        with tempfile.TemporaryDirectory() as folder:
            ended = self.run_setup("build_ext", "--build-lib", folder, "--build-temp", folder, STRING_INTERNER_LIB=folder)
        self.assertNotEqual(ended.returncode, 0)
        self.assertIn(f"no {folder}/libstring_interner.a: run clients/build, or name its folder in STRING_INTERNER_LIB", ended.stderr)
        self.assertIn("The archive for C of each release has it", ended.stderr)

    def build_sources(self, folder, *words):
        """Builds what the archive of the sources has, where no library is found, with commands of a folder alone."""
        self.assertEqual(self.run_setup("sdist", "--formats=tar", "-d", folder).returncode, 0)
        (packed,) = Path(folder).glob("*.tar")
        shutil.unpack_archive(packed, folder)
        kept = {name: value for name, value in os.environ.items() if name != "STRING_INTERNER_LIB"}
        ended = subprocess.run([sys.executable, "-B", "-W", "ignore", "setup.py", *words, "build_ext"], cwd=packed.with_suffix(""),
                               env=kept | {"PATH": folder}, capture_output=True, text=True, timeout=HANGS)
        self.assertNotEqual(ended.returncode, 0)
        return ended

    def test_a_build_without_cargo_says_what_is_missing(self):
        with tempfile.TemporaryDirectory() as folder:
            ended = self.build_sources(folder, "--quiet")
        self.assertIn("no cargo, which compiles the library: install Rust 1.85 or later, or name the folder", ended.stderr)

    def said_by_build(self, seconds, *words):
        """What setup.py says of a build by a cargo that takes so long, and fails."""
        with tempfile.TemporaryDirectory() as folder:
            cargo = Path(folder, "cargo")
            cargo.write_text(f'#!/bin/sh\n[ "$1" = -vV ] && echo "host: this-machine" && exit\n/bin/sleep {seconds}\nexit 1\n')
            cargo.chmod(0o755)
            ended = self.build_sources(folder, *words)
        self.assertIn("setup.py: cargo did not compile the library", ended.stderr)
        return [line for line in ended.stdout.splitlines() if line.startswith("setup.py: ")]

    def test_a_build_says_what_it_does(self):
        for words in ((), ("--quiet",)):
            # On a busy machine setup.py may come to its turn only after cargo has ended.
            for seconds in (6, 20, 60):
                begun = time.monotonic()
                said = self.said_by_build(seconds, *words)
                most = time.monotonic() - begun
                if len(said) != 1:
                    break
            if words:
                self.assertEqual(said, [])
                continue
            self.assertEqual(said[0], "setup.py: compiling the library by cargo, in a minute")
            told = [int(re.fullmatch(r"setup\.py: still compiling, (\d+) s", line)[1]) for line in said[1:]]
            self.assertEqual(told, sorted({*told}))
            self.assertTrue(5 <= told[0] and told[-1] <= most + 1, told)

    def test_a_python_without_wheel(self):
        try:
            import setuptools.command.bdist_wheel  # noqa: F401
        except ImportError:
            pass
        else:
            self.skipTest("setuptools makes wheels by itself")
        with tempfile.TemporaryDirectory() as folder:
            Path(folder, "wheel.py").write_text("raise ImportError\n")
            paths = os.pathsep.join(filter(None, [folder, os.environ.get("PYTHONPATH")]))
            ended = self.run_setup("egg_info", "--egg-base", folder, PYTHONPATH=paths)
        self.assertEqual((ended.returncode, ended.stdout), (1, ""))
        self.assertRegex(ended.stderr, r"^setup\.py: this Python has no wheel: install that \(Debian's python3-wheel\), or setuptools 70\.1 or later\n$")


class Imports(unittest.TestCase):
    def run_lines(self, lines, package=PACKAGE):
        """What lines print in a Python of its own, which has this package and no library of its environment."""
        kept = {name: value for name, value in os.environ.items() if name != "STRING_INTERNER_LIB"}
        ended = subprocess.run([sys.executable, "-B", "-c", lines], env=kept | {"PYTHONPATH": str(package.parent)}, cwd="/",
                               capture_output=True, text=True, timeout=HANGS)
        self.assertEqual(ended.stderr, "")
        return ended.stdout.strip()

    def test_it_needs_no_other_file(self):
        with tempfile.TemporaryDirectory() as folder:
            package = Path(folder) / "string_interner"
            shutil.copytree(PACKAGE, package)
            self.assertEqual(self.run_lines("import string_interner as s; print(s.Interner(['a']).resolve(0))", package), "a")

    def test_it_imports_no_slow_module(self):
        slow = "{'ctypes', 'json', 'threading', 'typing', 'copy', 'pickle', 'numpy', 'pandas', 'struct', 'pathlib'}"
        self.assertEqual(self.run_lines(f"import sys; before = set(sys.modules); import string_interner; print({slow} & set(sys.modules) - before)"),
                         "set()")

    def test_types_of_options(self):
        self.assertEqual(str(string_interner.Backend), "typing.Literal['string', 'bucket', 'buffer']")
        for name in string_interner.__all__:
            self.assertIsNotNone(getattr(string_interner, name))
        with self.assertRaisesRegex(AttributeError, "^module 'string_interner' has no attribute 'Backends'$"):
            string_interner.Backends

    def test_types_of_calls(self):
        named = []
        for kind in (Interner, Column):
            for name, call in inspect.getmembers(kind, callable):
                if name == "__class__":
                    continue
                hints = typing.get_type_hints(call)
                # A call of the module in C has its types in the stub alone.
                if inspect.isfunction(inspect.unwrap(getattr(call, "__func__", call))):
                    self.assertIn("return", hints, f"{kind.__name__}.{name}")
                    named.append(name)
        self.assertTrue({"copy", "from_values", "from_pandas", "to_buffers", "isin", "value_counts", "__sizeof__"} <= {*named})
        hints = typing.get_type_hints(Column.from_values)
        self.assertEqual((hints["hasher"], hints["return"]), (string_interner.Hasher, typing.Self))

    def test_it_shows_its_names(self):
        self.assertLessEqual({*string_interner.__all__, "__version__", "__build__"}, {*dir(string_interner)})

    def test_the_version(self):
        self.assertRegex(string_interner.__version__, r"^\d+\.\d+\.\d+$")

    def test_the_build(self):
        library = Path(os.environ.get("STRING_INTERNER_LIB") or PACKAGE.parent.parent / "out", "libstring_interner.a")
        builds = ["proved by rt", "proved source, compiled by rustc"]
        self.assertIn(string_interner.__build__, builds)
        if library.exists():
            self.assertEqual([it for it in builds if it.encode() in library.read_bytes()], [string_interner.__build__])

    def test_each_call_has_words(self):
        for kind in (Interner, Column):
            self.assertTrue(inspect.signature(kind).parameters)
            for name, call in inspect.getmembers(kind):
                if name.startswith("_"):
                    continue
                self.assertTrue(inspect.getdoc(call), f"{kind.__name__}.{name}")
                if callable(call):
                    inspect.signature(call)
            self.assertIn("intern_all" if kind is Interner else "from_file", pydoc.render_doc(kind, renderer=pydoc.plaintext))

    def test_classes(self):
        self.assertEqual([it.__module__ for it in (Interner, Column)], ["string_interner", "string_interner._column"])
        for kind in (_native.Interner, _native.Column, _native._Parts):
            self.assertEqual(kind.__module__, "string_interner._native")
        for walk in (iter(Interner()), iter(Column()), Column().codes.obj):
            with self.assertRaises(TypeError):
                type(walk)()
        self.assertRaises(TypeError, object.__new__, Interner)
        self.assertRaises(TypeError, object.__new__, Column)

    @unittest.skipUnless(shutil.which("cc") and SOURCES.exists() and (HEADERS / "Python.h").exists(), "no C compiler, headers or sources")
    def test_a_library_of_another_interface(self):
        header = os.environ.get("STRING_INTERNER_LIB") or SOURCES.parent.parent / "c"
        with tempfile.TemporaryDirectory() as folder:
            package = Path(folder) / "string_interner"
            shutil.copytree(PACKAGE, package, ignore=shutil.ignore_patterns("*.so"))
            (package / "version.c").write_text("unsigned interner_version(void) { return 7; }\n")
            # Nothing else of the library is called, and so nothing else is found.
            subprocess.run(["cc", "-shared", "-fPIC", "-O0", f"-I{header}", f"-I{HEADERS}", *SOURCES.glob("*.c"), package / "version.c",
                            "-Wl,-z,lazy", "-o", package / "_native.abi3.so"], check=True)
            lines = "import os, sys\nsys.setdlopenflags(os.RTLD_LAZY)\ntry:\n import string_interner\nexcept ImportError as error:\n print(error)"
            self.assertEqual(self.run_lines(lines, package), "the library has another interface")


if __name__ == "__main__":
    unittest.main()
