"""What the pages need of mkdocs beyond its settings."""
import html
import re
from collections import Counter
from typing import Any
from urllib.parse import urlencode

import pygments
from pygments.formatters import HtmlFormatter
from pygments.lexers import get_lexer_by_name
from pygments.util import ClassNotFound

BLOCK = re.compile(r'<pre><code(?: class="language-(\w*)")?>(.*?)</code></pre>', re.S)
TABLE = re.compile(r"<table>.*?</table>", re.S)


class Anchors:
    """The anchors of a page's headings as code hosts make them; the same heading again has a number."""

    def __init__(self) -> None:
        self.seen: Counter[str] = Counter()

    def __call__(self, heading: str, _: str) -> str:
        name = re.sub(r"[^\w\- ]", "", heading.lower()).replace(" ", "-")
        again = self.seen[name]
        self.seen[name] += 1
        return f"{name}-{again}" if again else name


ANCHORS = Anchors()


def on_config(config: Any) -> Any:
    config["mdx_configs"].setdefault("toc", {})["slugify"] = ANCHORS
    return config


def on_page_markdown(markdown: str, **_: Any) -> str:
    ANCHORS.seen.clear()
    return markdown


def coloured(language: str, code: str) -> str:
    """Code as HTML, with a class for each word whose kind is known."""
    try:
        lexer = get_lexer_by_name(language, stripnl=False)
    except ClassNotFound:
        return html.escape(code, quote=False)
    return str(pygments.highlight(code, lexer, HtmlFormatter(nowrap=True)))


def block(language: str, code: str, root: str) -> str:
    """A block of code; a session comes with a link to the playground, which holds it."""
    shown = f'<pre tabindex="0"><code>{coloured(language, code)}</code></pre>'
    head = ""
    if language == "session":
        address = f"{root}playground.html#{urlencode({'text': code})}"
        head = f'<p class="head">Session <a href="{html.escape(address)}">Open in the playground</a></p>'
    return f'<div class="code {language}">{head}{shown}</div>'


def on_page_context(context: Any, page: Any, **_: Any) -> Any:
    """Gives blocks of code and tables their form, after the search has taken their text."""
    root = "../" * page.url.count("/")
    content = BLOCK.sub(lambda found: block(found[1] or "", html.unescape(found[2]), root), page.content)
    page.content = TABLE.sub(lambda found: f'<div class="table" tabindex="0">{found[0]}</div>', content)
    return context
