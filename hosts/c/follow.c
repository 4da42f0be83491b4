/* A host in C that keeps a tree of its own and follows the editor by what changed alone.
 *
 *     follow < PAGE
 *
 * It reads a page, executes some commands at the start of its first text, undoes and redoes them,
 * and prints the HTML that its own tree comes to, which is the editor's. */
#include "tree.h"

#include <stdio.h>
#include <stdlib.h>
#include <string.h>

static uint8_t page[1 << 22];

/* Returns the first text node from a node on that doesn't begin with whitespace, or NULL. */
static const struct node *first_text(const struct node *node) {
    const struct text *value = &node->value;
    if (node->kind == HEDIT_TEXT && value->length > 0 && !strchr(" \t\r\n", value->bytes[0]))
        return node;
    const struct node *found = NULL;
    for (const struct node *child = node->first_child; child && !found; child = child->next)
        found = first_text(child);
    return found;
}

static void exec(hedit_editor *editor, const char *name, const char *value) {
    hedit_exec(editor, (const uint8_t *)name, strlen(name), (const uint8_t *)value, strlen(value));
}

static void embolden(hedit_editor *editor) { exec(editor, "bold", ""); }
static void type(hedit_editor *editor) { exec(editor, "insertText", "Hello"); }
static void split(hedit_editor *editor) { exec(editor, "insertParagraph", ""); }
static void undo(hedit_editor *editor) { hedit_undo(editor); }
static void redo(hedit_editor *editor) { hedit_redo(editor); }

/* Makes calls, and lets the tree follow what each of them changed. */
static void act(hedit_editor *editor, struct tree *tree) {
    static void (*const calls[])(hedit_editor *) = {embolden, type, split, undo, undo, redo};
    uint64_t seen, revision;
    want(hedit_revision(editor, &seen));
    for (size_t i = 0; i < sizeof calls / sizeof calls[0]; i++) {
        calls[i](editor);
        want(hedit_revision(editor, &revision));
        if (revision != seen) {
            tree_follow(tree, editor);
            tree_forget(tree, editor);
        }
        seen = revision;
    }
}

/* Prints the HTML of the tree. Whether it is that of the editor. */
static int show(hedit_editor *editor, const struct tree *tree) {
    struct text html = tree_html(tree);
    uint8_t *own = (uint8_t *)malloc(html.length);
    size_t length = 0;
    want(own == NULL ? HEDIT_MEMORY : HEDIT_DONE);
    uint32_t status = hedit_view(editor, HEDIT_HTML, own, html.length, &length);
    int is_same =
        status == HEDIT_DONE && length == html.length && memcmp(own, html.bytes, length) == 0;
    fwrite(html.bytes, 1, html.length, stdout);
    free(own);
    free(html.bytes);
    return is_same;
}

int main(void) {
    hedit_editor editor = HEDIT_CLOSED_EDITOR;
    hedit_refusal refusal;
    size_t length = fread(page, 1, sizeof page, stdin);
    want(hedit_open(&editor, page, length, 2000000, 100, &refusal));
    struct tree tree = tree_of(&editor);
    const struct node *text = first_text(tree.nodes[0]);
    if (text)
        want(hedit_select_points(&editor, text->label, 0, text->label, 1));
    act(&editor, &tree);
    int is_same = show(&editor, &tree);
    tree_close(&tree);
    hedit_close(&editor);
    return !is_same;
}
