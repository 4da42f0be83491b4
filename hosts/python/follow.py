"""A host that keeps a tree of its own and follows the editor by what changed alone.

    python3 follow.py < PAGE

It reads a page, executes some commands at the start of its first text, undoes and redoes them, and
prints the HTML that its own tree comes to, which is the editor's.
"""
import sys
from dataclasses import dataclass, field
from html import escape

from hedit import (
    AttributesSet,
    Change,
    Editor,
    Inserted,
    Moved,
    NodeKind,
    Point,
    Removed,
    Replaced,
    TreeNode,
)

VOID = {"area", "base", "br", "col", "embed", "hr", "img", "input", "link", "meta", "source", "track", "wbr"}


@dataclass
class Item:
    """A node of the tree."""

    label: int
    kind: NodeKind
    name: str = ""
    attributes: dict[str, str] = field(default_factory=dict)
    value: str = ""
    parent: "Item | None" = None
    children: list["Item"] = field(default_factory=list)


class Tree:
    """A tree that was a page once, and follows it. It holds what went, too, as long as undo or redo may
    bring it back."""

    def __init__(self, editor: Editor) -> None:
        self.items: dict[int, Item] = {}
        # What went, and how many of them there were when the tree last asked whether they are kept.
        self.gone: dict[int, Item] = {}
        self._asked = 0
        self.root = self._read(editor, 0)

    def _read(self, editor: Editor, label: int) -> Item:
        node = editor.node(label)
        name, value = editor.node_name(label), editor.node_value(label)
        item = Item(label, node.kind, name, editor.attributes(label), value)
        self.items[label] = item
        for child in editor.children(label):
            self._put(self._read(editor, child), item, None)
        return item

    def _put(self, item: Item, parent: Item, before: int | None) -> None:
        at = len(parent.children) if before is None else parent.children.index(self.items[before])
        parent.children.insert(at, item)
        item.parent = parent

    def _take(self, item: Item) -> None:
        if item.parent is not None:
            item.parent.children.remove(item)
            item.parent = None

    def _leave(self, item: Item) -> None:
        self.gone[item.label] = self.items.pop(item.label)
        for child in item.children:
            self._leave(child)
        item.children.clear()
        item.parent = None

    def _come(self, node: TreeNode) -> Item:
        """The item that the node had, or else a new one."""
        item = self.gone.pop(node.label, None) or Item(node.label, node.kind, node.name)
        item.attributes, item.value = dict(node.attributes), node.value
        self.items[node.label] = item
        return item

    def _grow(self, change: Inserted) -> None:
        above: list[Item] = []
        for node in change.tree:
            item = self._come(node)
            del above[node.level :]
            if above:
                self._put(item, above[-1], None)
            above.append(item)
        self._put(above[0], self.items[change.parent], change.before)

    def follow(self, changes: list[Change]) -> None:
        """Does what the changes say, one after another."""
        for change in changes:
            match change:
                case Removed(label):
                    self._take(self.items[label])
                    self._leave(self.items[label])
                case Inserted():
                    self._grow(change)
                case Moved(label, parent, before):
                    self._take(self.items[label])
                    self._put(self.items[label], self.items[parent], before)
                case Replaced(label, at, taken, put):
                    item = self.items[label]
                    item.value = item.value[:at] + put + item.value[at + taken :]
                case AttributesSet(label, attributes):
                    self.items[label].attributes = dict(attributes)

    def forget(self, editor: Editor) -> None:
        """Forgets what can't come back any more. It asks once there is twice as much as it kept the last
        time, so that it asks for each node that goes twice at most, on average."""
        if len(self.gone) > 2 * self._asked:
            self.gone = {label: item for label, item in self.gone.items() if editor.is_kept(label)}
            self._asked = len(self.gone)

    def html(self) -> str:
        """The HTML of the tree, as the editor prints it."""
        return "".join(map(html_of, self.root.children)) + "\n"


def text_html(text: str, quote: bool = False) -> str:
    """Characters as HTML has them in a text or in the value of an attribute."""
    plain = escape(text, quote=False).replace("\u00a0", "&nbsp;")
    return plain.replace('"', "&quot;") if quote else plain


def html_of(item: Item) -> str:
    """A node with its tree as HTML."""
    if item.kind is NodeKind.TEXT:
        return text_html(item.value)
    if item.kind is NodeKind.COMMENT:
        return f"<!--{item.value}-->"
    attributes = "".join(f' {name}="{text_html(value, True)}"' for name, value in item.attributes.items())
    end = "" if item.name in VOID else f"</{item.name}>"
    return f"<{item.name}{attributes}>{''.join(map(html_of, item.children))}{end}"


def first_text(editor: Editor, label: int = 0) -> int | None:
    """Returns the first text node from a node on that has characters other than whitespace."""
    node = editor.node(label)
    if node.kind is NodeKind.TEXT and editor.node_value(label).strip():
        return label
    found = (first_text(editor, child) for child in editor.children(label))
    return next((text for text in found if text is not None), None)


def main() -> None:
    """Follows some commands, and says whether the tree is the page."""
    with Editor(sys.stdin.read()) as editor:
        tree, seen = Tree(editor), editor.revision()
        text = first_text(editor)
        if text is not None:
            editor.select(Point(text, 0), Point(text, 1))
        calls = [
            lambda: editor.exec("bold"),
            lambda: editor.exec("insertText", "Hello"),
            lambda: editor.exec("insertParagraph"),
            editor.undo,
            editor.undo,
            editor.redo,
        ]
        for call in calls:
            call()
            if editor.revision() != seen:
                seen = editor.revision()
                tree.follow(editor.changes())
                tree.forget(editor)
        print(tree.html(), end="")
        sys.exit(tree.html() != editor.html())


if __name__ == "__main__":
    main()
