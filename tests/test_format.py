"""Tests of .ci/format on small pages: python3 -m unittest discover tests"""
import tempfile
import unittest
from pathlib import Path

from scripts import load_script

PAGE = """\
# A page

```js
const engine = await load();
```

```html
<p>Text</p>
<script type="module">
  const region = new Region(engine, element);
</script>
```

```sh
ls
```
"""


class Snippets(unittest.TestCase):
    def test_are_the_scripts_of_a_page(self) -> None:
        with tempfile.TemporaryDirectory() as folder:
            root, room = Path(folder) / "root", Path(folder) / "room"
            (root / "docs").mkdir(parents=True)
            room.mkdir()
            (root / "docs" / "WEB.md").write_text(PAGE)
            made = load_script(".ci/format", root).write_snippets(room)
            self.assertEqual(
                {path.name: path.read_text() for path in made},
                {
                    "docs_WEB.md_line_4.mjs": "const engine = await load();\n",
                    "docs_WEB.md_line_10.mjs": "const region = new Region(engine, element);\n",
                },
            )


if __name__ == "__main__":
    unittest.main()
