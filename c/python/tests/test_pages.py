"""The examples of the pages print what the pages show."""

import contextlib
import io
import os
import re
import unittest

DOCS = os.path.join(os.path.dirname(os.path.abspath(__file__)), "..", "..", "..", "docs")


class Pages(unittest.TestCase):
    def test_pages(self) -> None:
        for page in ("python.md", "bring-it-up.md"):
            with self.subTest(page), open(os.path.join(DOCS, page), encoding="utf-8") as file:
                example = r"```python\n(import pciex\n.*?)```\n\nIt prints:\n\n```\n(.*?)```"
                text = file.read()
                shown = re.findall(example, text, re.S)
                self.assertTrue(shown)
                self.assertEqual(len(shown), text.count("```python\nimport pciex\n"))
                for code, output in shown:
                    printed = io.StringIO()
                    with contextlib.redirect_stdout(printed):
                        exec(compile(code, page, "exec"), {})
                    self.assertEqual(printed.getvalue(), output)


if __name__ == "__main__":
    unittest.main()
