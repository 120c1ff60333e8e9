"""Whether the steps of pages are taken as they are printed."""

import contextlib
import io
import os
from unittest import mock

from small import SmallRepository
import documents
import try_guide

PAGE = """\
# From C

At the top of a clone:

```sh
cd crates
echo made >made
```

Write this into `yours/src/main.c`:

```c
int it's;
```

```sh
cat made yours/src/main.c
```

It prints:

```text
made
int it's;
```

Nothing is run of this:

    exit 1
"""


class TryGuideTest(SmallRepository):
    def setUp(self):
        super().setUp()
        for module in (documents, try_guide):
            patch = mock.patch.object(module, "TOP", self.top)
            patch.start()
            self.addCleanup(patch.stop)
        self.write("bin/lib/prove.sh", "sources_of() { echo \"$1\"; }\n")
        self.write("crates/yours/src/main.c", "")

    def outcome(self, page, name="docs/use/c.md", *words):
        self.write(name, page)
        printed = io.StringIO()
        with contextlib.redirect_stdout(printed):
            status = try_guide.main(*words)
        return status, printed.getvalue().splitlines()

    def test_steps_that_do_what_they_say(self):
        self.assertEqual(self.outcome(PAGE), (0, ["1 passed, 0 failed"]))
        self.assertEqual((self.top / "crates/yours/src/main.c").read_text(), "")

    def test_another_output(self):
        status, lines = self.outcome(PAGE.replace("echo made", "echo new"))
        self.assertEqual((status, lines[:2], lines[-1]), (1, ["docs/use/c.md: block 2 of the commands prints", "new"], "0 passed, 1 failed"))

    def test_a_step_that_fails(self):
        status, lines = self.outcome(PAGE.replace("cat made", "echo so far; cat no"))
        self.assertEqual((status, lines[:2], lines[-1]), (1, ["docs/use/c.md: block 2 of the commands ends with status 1", "so far"], "0 passed, 1 failed"))

    def test_a_program_still_runs_when_the_page_has_another(self):
        page = "```sh\nmkdir mains && touch mains/one\n```\n\n```sh\ncargo run {}\n```\n\n```text\none\n```\n\nInto `mains/two`:\n\n```rust\n2\n```\n"
        self.write("tools/cargo", '#!/bin/sh\nls mains | grep "${2:-}" >found && [ "$(wc -l <found)" = 1 ] && cat found\n')
        (self.top / "tools/cargo").chmod(0o755)
        with mock.patch.dict("os.environ", PATH=f"{self.top}/tools:{os.environ['PATH']}"):
            self.assertEqual(self.outcome(page.format("one")), (0, ["1 passed, 0 failed"]))
            status, lines = self.outcome(page.format(""))
        self.assertEqual((status, lines[0], lines[-1]), (1, "docs/use/c.md: block 3 of the commands ends with status 1", "0 passed, 1 failed"))

    def test_pages_do_not_see_each_other(self):
        self.write("docs/use/rust.md", "```sh\ncat crates/made\n```\n")
        self.assertEqual(self.outcome(PAGE)[1][-1], "1 passed, 1 failed")

    def test_pages_that_are_named(self):
        self.write("docs/use/rust.md", "```sh\nfalse\n```\n")
        self.assertEqual(self.outcome(PAGE, "docs/use/c.md", "", "docs/use/c.md"), (0, ["1 passed, 0 failed"]))
        self.assertEqual(try_guide.pages(), ["docs/use/c.md", "docs/use/rust.md"])

    def test_other_pages_have_no_steps(self):
        self.write("clients/README.md", "```sh\nfalse\n```\n")
        self.assertEqual(self.outcome("```text\n1\n```\n", "docs/MORE.md"), (1, ["0 passed, 0 failed"]))

    def test_what_the_machine_lacks(self):
        with mock.patch.object(try_guide, "missing", lambda needs: [f"no {it} on this machine: it" for it in needs]):
            self.write("README.md", "```sh\ntrue\n```\n")
            lines = self.outcome(PAGE)[1]
        self.assertEqual(lines, ["no cc on this machine: it", "no pkg-config on this machine: it", "1 passed, 0 failed"])

    def test_the_toolchain_is_hidden(self):
        self.write("bin/intern", "rt version || echo no rt >made\n")
        for name, script in ("bin/dictcol", "echo dictcol >>made\n"), ("clients/build", "echo library >>made\n"):
            self.write(name, script)
        for name in ("bin/intern", "bin/dictcol", "clients/build"):
            (self.top / name).chmod(0o755)
        self.write("docs/use/rattle.md", "```sh\nfalse\n```\n")
        page = "```sh\ncat made\nrt version || echo none\n```\n\n```text\nno rt\ndictcol\nlibrary\nnone\n```\n"
        with mock.patch.dict("os.environ", PATH=f"{self.top}/toolchain:{os.environ['PATH']}"):
            self.write("toolchain/rt", "#!/bin/sh\necho kit-1 logic 1f\n")
            (self.top / "toolchain/rt").chmod(0o755)
            elsewhere = mock.patch.object(try_guide, "python_with", lambda *modules: f"{self.top}/toolchain/python3")
            with elsewhere, mock.patch.object(try_guide, "missing", lambda needs: []):
                self.write("docs/use/python.md", page)
                self.assertEqual(self.outcome(page, "docs/use/c.md", "--by-cargo"), (0, ["2 passed, 0 failed"]))
            self.assertEqual(self.outcome(page, "docs/use/c.md", "", "docs/use/c.md")[0], 1)

    def test_what_is_built_elsewhere(self):
        for name in ("high", "intern"):
            self.write(f"crates/{name}/src/main.rt", "")
            self.write(f"built/crates/{name}/out/{name}", "#!/bin/sh\necho built\n")
            self.write(f"built/crates/{name}/out/rlib/it", "the library\n")
            (self.top / f"built/crates/{name}/out/{name}").chmod(0o755)
        self.write(".gitignore", "built\n")
        page = "```sh\ncrates/intern/out/intern\ncat crates/high/out/rlib/it crates/intern/out/bin-intern.stamp\nls crates/high/out\n```\n"
        printed = "\n```text\nbuilt\nthe library\nintern\nrlib\n```\n"
        self.assertEqual(self.outcome(page + printed, "docs/use/c.md", str(self.top / "built")), (0, ["1 passed, 0 failed"]))
