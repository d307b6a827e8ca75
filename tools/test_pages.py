#!/usr/bin/env python3
"""Tries tools/pages on small pages, right and spoilt, in a folder of their own.

usage: tools/test_pages.py"""
import shutil
import subprocess
import tempfile
import unittest
from pathlib import Path

from kept_files import run_main

SCRIPT = Path(__file__).resolve().parent / "pages"
RIGHT = """# A page

[The other](other.md), [a heading](other.md#two-words), [this one](#a-page), [elsewhere](https://example.org/x).

<!-- file a.txt -->

```
one
two
```

```
$ cat a.txt
one
two
$ echo three; echo four; echo five >&2
three
...
five
```

```
$ true
```

<!-- not run: it never ends -->

```
$ sleep 1000
```
"""
OTHER = "# Other\n\n## Two words\n\n```\n# no heading\n```\n"


class Pages(unittest.TestCase):
    def setUp(self):
        folder = tempfile.TemporaryDirectory()
        self.addCleanup(folder.cleanup)
        self.top = Path(folder.name)
        (self.top / "tools").mkdir()
        (self.top / "docs").mkdir()
        for name in (SCRIPT, SCRIPT.parent / "built.py", SCRIPT.parent / "kept_files.py"):
            shutil.copy(name, self.top / "tools")
        (self.top / "docs" / "other.md").write_text(OTHER)
        self.page = self.top / "docs" / "page.md"

    def tried(self, text, *words):
        """The status of the script on a page, and what it prints."""
        self.page.write_text(text)
        script = [self.top / "tools" / "pages", "--program", "/bin/true", "--show", "/bin/true"]
        ran = subprocess.run([*script, *words, self.page], stdout=subprocess.PIPE, text=True, check=False)
        return ran.returncode, ran.stdout

    def spoilt(self, before, after, said):
        """The right page with one change is refused, and the script says this."""
        self.assertEqual(RIGHT.count(before), 1)
        status, text = self.tried(RIGHT.replace(before, after))
        self.assertEqual(status, 1, text)
        self.assertIn(said, text)

    def test_right(self):
        counts = "1 pages: 3 links, 0 wrong; 3 commands, 0 print something else; 1 blocks with commands aren't run\n"
        self.assertEqual(self.tried(RIGHT), (0, counts))

    def test_links_alone(self):
        self.assertEqual(self.tried(RIGHT.replace("three", "four"), "--links"), (0, "1 pages: 3 links, 0 wrong\n"))

    def test_dead_link(self):
        self.spoilt("(other.md)", "(none.md)", "docs/page.md: none.md leads nowhere")

    def test_link_out_of_the_repository(self):
        self.spoilt("(other.md)", "(../../../etc)", "../../../etc leads nowhere")

    def test_dead_anchor(self):
        self.spoilt("#two-words", "#no-heading", "docs/page.md: other.md#no-heading names no heading")

    def test_other_output(self):
        self.spoilt("\none\ntwo\n$ echo", "\none\n$ echo", "+two")

    def test_what_varies(self):
        """The part of a line that the pattern matches may be another, and no more."""
        varying = RIGHT.replace("```\n$ cat", "<!-- varies: [0-9]+ s, -->\n\n```\n$ cat").replace("$ cat a.txt\none\ntwo\n", "$ echo 12 s, two\n3 s, two\n")
        self.assertEqual(self.tried(varying)[0], 0)
        status, text = self.tried(varying.replace("3 s, two", "3 s, one"))
        self.assertEqual(status, 1, text)
        self.assertIn("-one\n+two", text.replace("- ", "-").replace("+ ", "+"))

    def test_pattern_that_is_none(self):
        """It is said in a line, and all other blocks are tried."""
        status, text = self.tried(RIGHT.replace("```\n$ cat", "<!-- varies: [0-9 -->\n\n```\n$ cat").replace("$ true", "$ false"))
        lines = text.split("\n")
        self.assertEqual((status, lines[0]), (1, "docs/page.md:12: the pattern [0-9 is no regular expression: unterminated character set at "
                                                 "position 0"), text)
        self.assertIn("docs/page.md:24: $ false\nends with status 1\n1 pages: 3 links, 1 wrong; 1 commands, 1 print something else; 2 blocks", text)

    def test_varies_without_commands(self):
        self.spoilt("<!-- file a.txt -->", "<!-- varies: x -->", "docs/page.md:7: this comment has no block, or none with commands")

    def test_missing_output(self):
        self.spoilt("\nfive\n", "\nsix\n", "-six")

    def test_failing_command(self):
        self.spoilt("$ true", "$ false", "$ false\nends with status 1")

    def test_no_command(self):
        self.spoilt("$ cat a.txt", "$ ./nothing", "ends with status 127")

    def test_comment_without_commands(self):
        self.spoilt("$ sleep 1000", "sleep 1000", "docs/page.md:")

    def test_missing_program(self):
        status, text = self.tried(RIGHT.replace("$ true", "$ no_such_program"))
        self.assertEqual((status, text.split("\n")[0]), (0, "docs/page.md:22: not run, there is no no_such_program"))

    def test_rewrite(self):
        status, _ = self.tried(RIGHT.replace("\none\ntwo\n$ echo", "\nnine\n$ echo"), "--rewrite")
        self.assertEqual((status, self.page.read_text()), (1, RIGHT))


if __name__ == "__main__":
    run_main("test_pages.py", lambda _: unittest.main())
