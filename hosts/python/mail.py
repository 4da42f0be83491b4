"""The smallest host of the editor in Python. It opens a mail, formats a part of it, asks what a
toolbar would show, undoes, and prints the mail as HTML whenever it is another one, as mail_host
does. follow.py is a host that doesn't read the whole mail again."""
from hedit import Editor, HeditError

MAIL = '<div contenteditable="true"><h1>Plan</h1><p>Call Ann &amp; Bob.</p></div>'

BUTTONS = ("bold", "justifyCenter", "insertUnorderedList")


def told(editor: Editor, name: str, joined: bool) -> str:
    """Executes a command, as a step of its own or joined to the previous one, and writes what an
    application says to its user about it."""
    try:
        done = editor.exec_joined(name) if joined else editor.exec(name)
        return "done" if done else "not possible here"
    except HeditError as error:
        return str(error)


def show(editor: Editor) -> None:
    """Writes the mail and the toolbar, with the buttons that are on in brackets."""
    print(editor.html(), end="")
    print("toolbar:", *(f"[{button}]" if editor.state(button) else button for button in BUTTONS))


def execute(editor: Editor, name: str, joined: bool = False) -> None:
    """Executes a command, and shows the mail where that has changed it."""
    before = editor.revision()
    print(told(editor, name, joined))
    if editor.revision() != before:
        show(editor)


def main() -> None:
    with Editor(MAIL) as editor:
        show(editor)
        # the name: the characters 5 to 8 of the paragraph's text
        editor.select(((0, 1, 0), 5), ((0, 1, 0), 8))
        execute(editor, "bold")
        execute(editor, "insertUnorderedList", joined=True)
        execute(editor, "createLink")
        editor.undo()
        show(editor)


if __name__ == "__main__":
    main()
