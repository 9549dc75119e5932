"""Tests of docs_check.py over a small repository, sound at first, in which one fault is planted at a time."""

from __future__ import annotations

import sys
import tempfile
import unittest
from pathlib import Path

from docs_check import Checker

# Answers each line of its input but the bodies, and says at the end how it ended.
PROGRAM = f"""#!{sys.executable}
import sys, time
text = sys.stdin.read()
if "sleep" in text:
    time.sleep(60)
print("ok begin 1 1" if text == "begin 1\\n" else "error 1 NoSession 1")
"""
SAY = """
import sys
print("a banner")
print(sum(1 for line in sys.stdin), "lines were typed")
print("the end")
"""
README = """# Small

See [what is proved](docs/PROVED.md#dg_one), [below](#a-script) and `dg_one/src/lib.rt`.

## A script

```script
begin 1
```

```replies
ok begin 1 1
```

```terminal
$ python3 tools/say.py
...
dgraph> begin 1
   ...> a body
   ...>
3 lines were typed
...
```
"""
PROVED = """# What is proved

### dg_one

| Call | What its contract says |
|---|---|
| `find`, `Table::new` | what `IsRow` says |

## Who owns which definition

| Definition | File |
|---|---|
| rows (`IsRow`) | `dg_one/specs/Lib.antt`, `Rows.antt` |
"""
FILES = {
    "README.md": README,
    "docs/PROVED.md": PROVED,
    "tools/say.py": SAY,
    "crates/dg_one/src/lib.rt": "pub struct Table;\nimpl Table {\n    pub fn new() {}\n}\npub fn find() {}\n",
    "crates/dg_one/specs/Lib.antt": "pub mod Rows\n",
    "crates/dg_one/specs/Rows.antt": "pub record IsRow : Type 0 where\n",
}


class DocsCheck(unittest.TestCase):
    def setUp(self) -> None:
        folder = tempfile.TemporaryDirectory()
        self.addCleanup(folder.cleanup)
        self.top = Path(folder.name)
        for name, text in FILES.items():
            (self.top / name).parent.mkdir(parents=True, exist_ok=True)
            (self.top / name).write_text(text, encoding="utf-8")
        self.program = self.top / "program"
        self.program.write_text(PROGRAM, encoding="utf-8")
        self.program.chmod(0o755)

    def plant(self, name: str, sound: str, fault: str, seconds: float = 20) -> list[str]:
        """What is found where a text takes the place of a sound one."""
        path = self.top / name
        self.assertIn(sound, path.read_text(encoding="utf-8"))
        path.write_text(path.read_text(encoding="utf-8").replace(sound, fault), encoding="utf-8")
        return Checker(self.top, self.program, seconds).check()

    def test_a_sound_repository_has_no_finding(self) -> None:
        self.assertEqual(Checker(self.top, self.program).check(), [])

    def test_a_link_to_no_file(self) -> None:
        found = self.plant("README.md", "docs/PROVED.md#dg_one", "docs/PROOFS.md#dg_one")
        self.assertEqual(found, ["README.md:3: a link to docs/PROOFS.md, which isn't there"])

    def test_a_link_to_no_heading(self) -> None:
        found = self.plant("README.md", "PROVED.md#dg_one", "PROVED.md#dg_two")
        self.assertEqual(found, ["README.md:3: a link to the heading #dg_two, which isn't there"])

    def test_replies_that_the_program_does_not_write(self) -> None:
        (found,) = self.plant("README.md", "ok begin 1 1", "ok begin 1 2")
        self.assertRegex(found, "^README.md:8: .* writes something else where the transcript has 'ok begin 1 2'$")

    def test_replies_that_go_on(self) -> None:
        (found,) = self.plant("README.md", "ok begin 1 1\n", "")
        self.assertRegex(found, "has the end of the transcript$")

    def test_a_script_without_replies(self) -> None:
        (found,) = self.plant("README.md", "```replies", "```text")
        self.assertIn("no replies stand behind the script", found)

    def test_a_terminal_that_shows_something_else(self) -> None:
        (found,) = self.plant("README.md", "3 lines", "2 lines")
        self.assertRegex(found, "^README.md:16: .* where the transcript has '2 lines were typed'$")
        self.assertEqual(len(self.plant("README.md", "say.py", "no_such_tool.py")), 2)

    def test_a_command_that_ends_badly(self) -> None:
        (found,) = self.plant("tools/say.py", 'print("the end")', "sys.exit(3)")
        self.assertIn("ended with status 3", found)

    def test_a_program_that_does_not_end(self) -> None:
        # Only the script is there, since on a busy machine the terminal's command may take a second as well.
        self.plant("README.md", README[README.index("```terminal"):], "")
        (found,) = self.plant("README.md", "```script\nbegin 1", "```script\nsleep", 1)
        self.assertIn("timed out after 1 seconds", found)

    def test_a_program_that_is_not_built(self) -> None:
        self.program.unlink()
        (found,) = Checker(self.top, self.program).check()
        self.assertRegex(found, "program isn't built .*: no transcript was checked")

    def test_a_path_to_nothing(self) -> None:
        found = self.plant("README.md", "`dg_one/src/lib.rt`", "`dg_one/src/table.rt` and `table.rt`")
        self.assertEqual(
            found, ["README.md:3: `dg_one/src/table.rt` is no file or folder", "README.md:3: no file is named `table.rt`"]
        )

    def test_a_function_that_the_crate_does_not_have(self) -> None:
        found = self.plant("docs/PROVED.md", "`find`", "`look`")
        self.assertEqual(found, ["docs/PROVED.md:7: `look` isn't in the src/ of dg_one"])

    def test_a_definition_that_no_crate_has(self) -> None:
        found = self.plant("docs/PROVED.md", "what `IsRow`", "what `IsColumn`")
        self.assertEqual(found, ["docs/PROVED.md:7: `IsColumn` is in no crate"])

    def test_a_definition_in_another_file(self) -> None:
        (found,) = self.plant("docs/PROVED.md", ", `Rows.antt`", "")
        self.assertRegex(found, "^docs/PROVED.md:13: `IsRow` is in none of")

    def test_a_line_that_is_too_long(self) -> None:
        found = self.plant("README.md", "# Small", "# Small\n" + "x" * 601)
        self.assertEqual(found, ["README.md:2: a line of 601 characters; 600 are the most"])


if __name__ == "__main__":
    unittest.main()
