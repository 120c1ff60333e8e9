"""Tests of the folders that `dictcol encode --plain` writes."""

import fcntl
import os
import pathlib
import shutil
import subprocess
import tempfile
import threading
import unittest
from unittest import mock

from string_interner import Column

try:
    import numpy
except ImportError:
    numpy = None

DICTCOL = shutil.which("dictcol")


def format_pair(lines, codes, cut=False):
    """Without its last line where `cut` is None."""
    checksum = 14695981039346656037
    for code in codes:
        checksum = (checksum ^ code) * 1099511628211 % 2**64
    end = "" if cut is None else f"no_final_newline {int(cut)}\n"
    return f"lines {len(lines)}\nnumbers {len(codes)}\nchecksum {checksum}\n{end}"


def write_folder(folder, lines, codes, cut=False, pair=True):
    """What the man page of dictcol says of a folder."""
    folder.mkdir(parents=True, exist_ok=True)
    (folder / "dict.txt").write_text("".join(f"{line}\n" for line in lines), encoding="utf-8", newline="\n")
    words = "{'descr': '<u4', 'fortran_order': False, 'shape': (%d,), }" % len(codes)
    header = b"\x93NUMPY\x01\x00" + (118).to_bytes(2, "little") + words.ljust(117).encode() + b"\n"
    (folder / "codes.npy").write_bytes(header + b"".join(code.to_bytes(4, "little") for code in codes))
    if pair:
        (folder / "pair.txt").write_text(format_pair(lines, codes, cut))
    if cut:
        (folder / "no_final_newline").touch()


class Plain(unittest.TestCase):
    def setUp(self):
        folder = tempfile.TemporaryDirectory()
        self.addCleanup(folder.cleanup)
        self.top = pathlib.Path(folder.name)
        self.folder = self.top / "ß columns"

    def files(self):
        return {path.name: path.read_bytes() for path in self.folder.iterdir()}

    def modes(self):
        return {path.name: path.stat().st_mode & 0o7777 for path in self.folder.iterdir()}

    def test_keeps_who_may_read(self):
        self.addCleanup(os.umask, os.umask(0o022))
        for mode in (0o600, 0o640, 0o444, 0o666):
            shutil.rmtree(self.folder, ignore_errors=True)
            Column(["old"]).to_plain(self.folder)
            self.assertEqual({*self.modes().values()}, {0o644})
            for path in self.folder.iterdir():
                path.chmod(mode)
            (self.folder / "dict.txt").chmod(0o604)
            (self.folder / "pair.txt").unlink()
            Column(["new"]).to_plain(self.folder)
            # A file that was not there is as open as the codes.
            self.assertEqual(self.modes(), {"codes.npy": mode, "dict.txt": 0o604, "pair.txt": mode})

    def test_another_group_may_what_all_may(self):
        self.addCleanup(os.umask, os.umask(0o022))
        for mode, wanted in ((0o640, 0o600), (0o664, 0o644), (0o600, 0o600)):
            Column(["old"]).to_plain(self.folder)
            for path in self.folder.iterdir():
                path.chmod(mode)
            with mock.patch("os.fchown", side_effect=PermissionError):
                Column(["new"]).to_plain(self.folder)
            self.assertEqual({*self.modes().values()}, {wanted})

    def test_reads_what_the_page_says(self):
        for lines, codes in (([], []), (["red", "", "ß\r"], [0, 2, 1, 0]), (["a"] + [str(number) for number in range(1000)], [7, 999] * 500)):
            for cut in (False, True):
                shutil.rmtree(self.folder, ignore_errors=True)
                # Earlier versions wrote no pair.txt.
                write_folder(self.folder, lines, codes, cut, pair=cut)
                for given in (self.folder, str(self.folder), os.fsencode(self.folder)):
                    column = Column.from_plain(given, hasher="fixed")
                    self.assertEqual((column.dictionary, column.codes.tolist(), column.hasher), (lines, codes, "fixed"))

    def test_reads_what_earlier_versions_wrote(self):
        for cut in (False, True):
            write_folder(self.folder, ["red", "green"], [0, 1, 0], cut)
            (self.folder / "pair.txt").write_text(format_pair(["red", "green"], [0, 1, 0], None))
            self.assertEqual(list(Column.from_plain(self.folder)), ["red", "green", "red"])

    def test_the_end_of_another_text(self):
        write_folder(self.folder, ["red"], [0], cut=True)
        (self.folder / "no_final_newline").unlink()
        with self.assertRaisesRegex(ValueError, "^no_final_newline is missing$"):
            Column.from_plain(self.folder)
        write_folder(self.folder, ["red"], [0])
        (self.folder / "no_final_newline").touch()
        with self.assertRaisesRegex(ValueError, "^no_final_newline is of another run$"):
            Column.from_plain(self.folder)

    def test_writes_what_the_page_says(self):
        other = self.top / "wanted"
        for column in (Column(), Column(["red", "", "red", "ß\r"]), Column.from_parts(["not used", "a"], [1]), Column(map(str, range(1000)))[7:9]):
            write_folder(other, column.dictionary, column.codes.tolist())
            for given in (self.folder, str(self.folder), os.fsencode(self.folder)):
                column.to_plain(given)
                self.assertEqual(self.files(), {path.name: path.read_bytes() for path in other.iterdir()})
                read = Column.from_plain(given)
                self.assertEqual((read, read.dictionary), (column, column.dictionary))

    @unittest.skipUnless(numpy, "no numpy")
    def test_numpy_reads_the_codes(self):
        Column(["red", "green", "red"]).to_plain(self.folder)
        codes = numpy.load(self.folder / "codes.npy", mmap_mode="r")
        self.assertEqual((codes.dtype, codes.tolist()), (numpy.dtype("<u4"), [0, 1, 0]))

    def test_a_subclass(self):
        class Named(Column):
            def __init__(self, name):
                super().__init__()

        write_folder(self.folder, ["a"], [0, 0])
        column = Named.from_plain(self.folder)
        self.assertEqual((type(column), list(column)), (Named, ["a", "a"]))

    def test_lines_that_were_changed(self):
        write_folder(self.folder, ["a", "b", "a", "c"], [3, 2, 1, 0])
        column = Column.from_plain(self.folder)
        self.assertEqual((list(column), column.dictionary), (["c", "a", "b", "a"], ["a", "b", "c"]))
        # Others in their place are still those of the codes.
        (self.folder / "dict.txt").write_text("A\nB\nA\nC\n")
        self.assertEqual(list(Column.from_plain(self.folder)), ["C", "A", "B", "A"])
        write_folder(self.folder, ["a", "a"], [0, 2])
        with self.assertRaisesRegex(ValueError, "no line of dict.txt: there is no row 2$"):
            Column.from_plain(self.folder)

    def test_damaged_files(self):
        write_folder(self.folder, ["red", "green"], [0, 1])
        codes, lines = (self.folder / "codes.npy").read_bytes(), b"red\ngreen\n"
        for name, content, said in (
            ("codes.npy", b"", "^codes.npy is no array"), ("codes.npy", codes[:-1], "^codes.npy is no array"), ("codes.npy", codes + b"\0" * 4, "^codes.npy is no array"),
            ("codes.npy", codes.replace(b"<u4", b"<i4"), "^codes.npy is no array"), ("codes.npy", codes[:100], "^codes.npy is no array"),
            ("codes.npy", codes[:-4] + b"\2\0\0\0", "^row 1 has code 2, and the dictionary has 2 texts$"),
            ("codes.npy", codes[:-4] + b"\xff" * 4, f"^row 1 has code {2**32 - 1}, and the dictionary has 2 texts$"),
            ("dict.txt", lines[:-1], "^dict.txt does not end in a newline$"), ("dict.txt", b"red\n\xff\n", "^line 2 is not UTF-8$"),
            ("dict.txt", b"red\n", "^row 1 has code 1, and the dictionary has 1 texts$"), ("dict.txt", lines + b"blue\n", "are of two runs$"),
            ("codes.npy", codes[:-8] + codes[-4:] + codes[-8:-4], "are of two runs$"), ("codes.npy", codes[:-4] + b"\0" * 4, "are of two runs$"),
            ("pair.txt", b"", "are of two runs$"), ("pair.txt", format_pair(["a", "b"], [1, 0]).encode(), "are of two runs$"),
            ("pair.txt", format_pair(["a", "b"], [0, 1]).encode() + b"\n", "are of two runs$"),
            ("pair.txt", format_pair(["a", "b"], [0, 1], None).encode() + b"no_final_newline 2\n", "are of two runs$"),
        ):
            write_folder(self.folder, ["red", "green"], [0, 1])
            (self.folder / name).write_bytes(content)
            with self.assertRaisesRegex(ValueError, said):
                Column.from_plain(self.folder)
        for name in ("dict.txt", "codes.npy"):
            write_folder(self.folder, ["red"], [0])
            (self.folder / name).unlink()
            with self.assertRaisesRegex(FileNotFoundError, name):
                Column.from_plain(self.folder)
        self.assertRaises(TypeError, Column.from_plain, 1)

    def test_what_no_lines_are(self):
        Column(["old"]).to_plain(self.folder)
        before = self.files()
        for column, said in ((Column(["a", None]), "^row 1 is None"), (Column(["a", "b\nc"]), "^text 1 has a newline$")):
            with self.assertRaisesRegex(ValueError, said):
                column.to_plain(self.folder)
            self.assertEqual(self.files(), before)

    def test_it_replaces_the_files_of_another_run(self):
        write_folder(self.folder, ["old"], [0], cut=True)
        (self.folder / "notes").write_text("stays")
        # What a killed run left has no lock.
        (self.folder / "dictcol-unfinished").mkdir()
        for name in ("dict.txt", "codes.npy.old"):
            (self.folder / "dictcol-unfinished" / name).touch()
        Column(["new"]).to_plain(self.folder)
        self.assertEqual((list(Column.from_plain(self.folder)), (self.folder / "notes").read_text()), (["new"], "stays"))
        self.assertFalse({"dictcol-unfinished", "no_final_newline"} & {*self.files()})

    def test_what_no_run_left_stays(self):
        Column(["old"]).to_plain(self.folder)
        left = self.folder / "dictcol-unfinished"
        before, descriptors = self.files(), os.listdir("/proc/self/fd")
        for name in ("notes", "dict.txt.new", "0", os.fsdecode(b"\xff")):
            left.mkdir()
            (left / "dict.txt").write_text("stays")
            (left / name).write_text("stays")
            with self.assertRaisesRegex(FileExistsError, "not what a killed run leaves"):
                Column(["new"]).to_plain(self.folder)
            self.assertEqual({path.read_text() for path in left.iterdir()}, {"stays"})
            shutil.rmtree(left)
        for make in (lambda path: path.mkdir(), lambda path: path.symlink_to("nowhere")):
            left.mkdir()
            make(left / "dict.txt")
            with self.assertRaisesRegex(FileExistsError, "not what a killed run leaves"):
                Column(["new"]).to_plain(self.folder)
            self.assertEqual([path.name for path in left.iterdir()], ["dict.txt"])
            shutil.rmtree(left)
        os.mkfifo(left)
        with self.assertRaises(NotADirectoryError):
            Column(["new"]).to_plain(self.folder)
        left.unlink()
        self.assertEqual((self.files(), os.listdir("/proc/self/fd")), (before, descriptors))

    def test_folders_are_stored_in_turn(self):
        Column(["old"]).to_plain(self.folder)
        done = []
        for name in ("remove", "rename", "fsync"):
            def note(*given, call=getattr(os, name), name=name):
                is_folder = name != "fsync" or os.path.isdir(f"/proc/self/fd/{given[0]}")
                done.extend([name] if is_folder else [])
                return call(*given)
            patch = mock.patch(f"os.{name}", note)
            patch.start()
            self.addCleanup(patch.stop)
        Column(["new"]).to_plain(self.folder)
        self.assertEqual(done, ["remove", "fsync"] * 2 + ["rename", "fsync"] * 3)

    def test_one_run_writes_at_a_time(self):
        Column(["old"]).to_plain(self.folder)
        (self.folder / "dictcol-unfinished").mkdir()
        descriptor = os.open(self.folder / "dictcol-unfinished", os.O_RDONLY)
        fcntl.flock(descriptor, fcntl.LOCK_EX)
        with self.assertRaises(BlockingIOError):
            Column(["new"]).to_plain(self.folder)
        os.close(descriptor)
        self.assertEqual(list(Column.from_plain(self.folder)), ["old"])

        # Each folder that a reader finds whole is of one run.
        found, done = [], threading.Event()

        def write(name):
            rows = [f"{name} {number}" for number in range(len(name))]
            while not done.is_set():
                try:
                    Column(rows).to_plain(self.folder)
                except BlockingIOError:
                    pass

        def read():
            while len(found) < 300:
                try:
                    found.append({row.partition(" ")[0] for row in Column.from_plain(self.folder)})
                except (BlockingIOError, FileNotFoundError):
                    continue

        threads = [threading.Thread(target=write, args=("one" * 7,)), threading.Thread(target=write, args=("other" * 9,)), threading.Thread(target=read)]
        for thread in threads:
            thread.start()
        threads[-1].join()
        done.set()
        for thread in threads:
            thread.join()
        self.assertTrue(all(len(names) == 1 for names in found))

    def test_a_run_that_fails_leaves_nothing(self):
        Column(["old"]).to_plain(self.folder)
        before = self.files()
        (self.folder / "dict.txt").unlink()
        (self.folder / "dict.txt" / "a folder").mkdir(parents=True)
        with self.assertRaises(OSError):
            Column(["new"]).to_plain(self.folder)
        self.assertEqual({path.name for path in self.folder.iterdir()} & {"codes.npy", "dictcol-unfinished"}, set())
        shutil.rmtree(self.folder / "dict.txt")
        Column(["old"]).to_plain(self.folder)
        self.assertEqual(self.files(), before)
        self.assertRaises(TypeError, Column._checksum, "a")
        # A link of a name that was used once leads nowhere.
        (self.top / "target").write_text("stays")
        (self.folder / "dictcol-unfinished").symlink_to(self.top / "target")
        with self.assertRaises(OSError):
            Column(["new"]).to_plain(self.folder)
        self.assertEqual((self.top / "target").read_text(), "stays")

    def test_a_folder_that_cannot_be_removed_is_not_kept_open(self):
        before = os.listdir("/proc/self/fd")
        with mock.patch("shutil.rmtree", side_effect=PermissionError), self.assertRaises(PermissionError):
            Column(["a"]).to_plain(self.folder)
        self.assertEqual(os.listdir("/proc/self/fd"), before)

    @unittest.skipUnless(DICTCOL, "no dictcol")
    def test_dictcol_reads_and_writes_the_same(self):
        text = "red\ngreen\n\nred\nß\n"
        Column(text.split("\n")[:-1]).to_plain(self.folder)
        self.assertEqual(subprocess.run([DICTCOL, "decode", self.folder], capture_output=True, check=True).stdout, text.encode())
        before = self.files()
        subprocess.run([DICTCOL, "encode", "--plain", self.folder], input=text.encode(), check=True)
        self.assertEqual((self.files(), list(Column.from_plain(self.folder))), (before, text.split("\n")[:-1]))
        # Each finds the other's files when they are of two runs.
        (self.folder / "codes.npy").write_bytes(before["codes.npy"][:-4] + b"\0" * 4)
        self.assertNotEqual(subprocess.run([DICTCOL, "decode", self.folder], capture_output=True).returncode, 0)
        self.assertRaises(ValueError, Column.from_plain, self.folder)


if __name__ == "__main__":
    unittest.main()
