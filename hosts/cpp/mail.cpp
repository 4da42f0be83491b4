/* The smallest host of the editor in C++. It opens a mail, formats a part of it, asks what a
 * toolbar would show, undoes, and prints the mail as HTML whenever it is another one, as
 * crates/mail_host does. */
#include <hedit.hpp>

#include <iostream>

static const char MAIL[] =
    "<div contenteditable=\"true\"><h1>Plan</h1><p>Call Ann &amp; Bob.</p></div>";

static const char *const BUTTONS[] = {"bold", "justifyCenter", "insertUnorderedList"};

/* Executes a command, as a step of its own or joined to the previous one, and writes what an
 * application says to its user about it. */
static std::string told(hedit::Editor &editor, std::string_view name, bool joined) {
    try {
        bool done = joined ? editor.exec_joined(name) : editor.exec(name);
        return done ? "done" : "not possible here";
    } catch (const hedit::Error &error) {
        return error.what();
    }
}

/* Writes the mail and the toolbar, with the buttons that are on in brackets. */
static void show(hedit::Editor &editor) {
    std::cout << editor.html() << "toolbar:";
    for (std::string button : BUTTONS) {
        std::cout << ' ' << (editor.state(button) ? '[' + button + ']' : button);
    }
    std::cout << '\n';
}

/* Executes a command, and shows the mail where that has changed it. */
static void exec(hedit::Editor &editor, std::string_view name, bool joined = false) {
    std::uint64_t before = editor.revision();
    std::cout << told(editor, name, joined) << '\n';
    if (editor.revision() != before) {
        show(editor);
    }
}

int main() {
    hedit::Editor editor(MAIL);
    show(editor);
    /* The name: the characters 5 to 8 of the paragraph's text. */
    editor.select({{0, 1, 0}, 5}, {{0, 1, 0}, 8});
    exec(editor, "bold");
    exec(editor, "insertUnorderedList", true);
    exec(editor, "createLink");
    editor.undo();
    show(editor);
}
