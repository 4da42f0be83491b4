/* The smallest host of the editor in C. It opens a mail, formats a part of it, asks what a
 * toolbar would show, undoes, and prints the mail as HTML whenever it is another one, as
 * crates/mail_host does. follow.c is a host that doesn't read the whole mail again. */
#include <hedit.h>

#include <stdio.h>
#include <stdlib.h>
#include <string.h>

static const char MAIL[] =
    "<div contenteditable=\"true\"><h1>Plan</h1><p>Call Ann &amp; Bob.</p></div>";

/* No node of the page gets a number from here on. */
#define LABEL_CAP 2000000

/* How many commands can be undone. */
#define UNDO_DEPTH 100

static const char *const BUTTONS[] = {"bold", "justifyCenter", "insertUnorderedList"};

static const uint8_t *bytes_of(const char *text) { return (const uint8_t *)text; }

/* The program ends where a call should have been done and was not. */
static void want(uint32_t status, const char *call) {
    if (status != HEDIT_DONE) {
        fprintf(stderr, "%s: %s\n", call, hedit_status_text(status));
        exit(1);
    }
}

/* Returns what an application says to its user about a command. */
static const char *told(uint32_t status) {
    switch (status) {
    case HEDIT_DONE: return "done";
    case HEDIT_NO: return "not possible here";
    case HEDIT_FULL: return "the page is full";
    case HEDIT_DEEP: return "the page is too deep";
    case HEDIT_MEMORY: return "out of memory";
    default: return "a mistake of this program";
    }
}

static int is_on(hedit_editor *editor, const char *button) {
    uint32_t flag;
    uint8_t none[1];
    size_t length;
    uint32_t status =
        hedit_query(editor, HEDIT_STATE, bytes_of(button), strlen(button), &flag, none, 0, &length);
    want(status, "query");
    return flag != 0;
}

/* The page as HTML, which the caller frees: the first call gives its length. */
static char *html(hedit_editor *editor, size_t *length) {
    uint8_t none[1];
    uint32_t status = hedit_view(editor, HEDIT_HTML, none, 0, length);
    if (status != HEDIT_TOO_SMALL) {
        want(status, "view");
    }
    uint8_t *text = (uint8_t *)malloc(*length + 1);
    if (text == NULL) {
        exit(1);
    }
    want(hedit_view(editor, HEDIT_HTML, text, *length + 1, length), "view");
    return (char *)text;
}

/* Writes the mail and the toolbar, with the buttons that are on in brackets. */
static void show(hedit_editor *editor) {
    size_t length;
    char *page = html(editor, &length);
    fwrite(page, 1, length, stdout);
    free(page);
    fputs("toolbar:", stdout);
    for (size_t i = 0; i < sizeof BUTTONS / sizeof BUTTONS[0]; i++) {
        printf(is_on(editor, BUTTONS[i]) ? " [%s]" : " %s", BUTTONS[i]);
    }
    putchar('\n');
}

static uint64_t revision_of(hedit_editor *editor) {
    uint64_t revision;
    want(hedit_revision(editor, &revision), "revision");
    return revision;
}

/* Executes a command without a value, as a step of its own or as one with the last, and shows the
 * mail where that has changed it. */
static void exec(hedit_editor *editor, const char *name, int joined) {
    uint64_t before = revision_of(editor);
    puts(told(joined ? hedit_exec_joined(editor, bytes_of(name), strlen(name), bytes_of(""), 0)
                     : hedit_exec(editor, bytes_of(name), strlen(name), bytes_of(""), 0)));
    if (revision_of(editor) != before) {
        show(editor);
    }
}

/* Selects the name: the characters 5 to 8 of the paragraph's text. */
static void select_name(hedit_editor *editor) {
    static const uint32_t text[] = {0, 1, 0};
    want(hedit_select(editor, text, 3, 5, text, 3, 8), "select");
}

int main(void) {
    hedit_editor editor = HEDIT_CLOSED_EDITOR;
    hedit_refusal refusal = {0, 0};
    uint32_t status =
        hedit_open(&editor, bytes_of(MAIL), strlen(MAIL), LABEL_CAP, UNDO_DEPTH, &refusal);
    want(status, "open");
    show(&editor);
    select_name(&editor);
    exec(&editor, "bold", 0);
    exec(&editor, "insertUnorderedList", 1);
    exec(&editor, "createLink", 0);
    want(hedit_undo(&editor), "undo");
    show(&editor);
    hedit_close(&editor);
    return 0;
}
