#include "tree.h"

#include <stdio.h>
#include <stdlib.h>
#include <string.h>

/* The buffer for what calls return. For larger pages an application needs a larger one if the status
 * is HEDIT_TOO_SMALL. */
static uint8_t buffer[1 << 23];

void want(uint32_t status) {
    if (status != HEDIT_DONE) {
        fprintf(stderr, "%s\n", hedit_status_text(status));
        exit(2);
    }
}

static void *resized(void *memory, size_t length) {
    void *found = realloc(memory, length + 1);
    want(found == NULL ? HEDIT_MEMORY : HEDIT_DONE);
    return found;
}

/* Replaces so many bytes of a text from an offset on. */
static void splice(struct text *text, size_t at, size_t taken, const void *put, size_t length) {
    size_t rest = text->length - at - taken;
    text->bytes = (uint8_t *)resized(text->bytes, text->length + length);
    memmove(text->bytes + at + length, text->bytes + at + taken, rest);
    if (length > 0)
        memcpy(text->bytes + at, put, length);
    text->length = at + length + rest;
}

static void append(struct text *text, const char *words) {
    splice(text, text->length, 0, words, strlen(words));
}

/* Appends characters as HTML has them in a text or in the value of an attribute. */
static void append_escaped(struct text *text, const uint8_t *bytes, size_t length, int is_value) {
    for (size_t i = 0; i < length; i++) {
        int is_no_break_space = bytes[i] == 0xc2 && i + 1 < length && bytes[i + 1] == 0xa0;
        if (is_no_break_space) {
            append(text, "&nbsp;");
            i++;
        } else if (bytes[i] == '&') {
            append(text, "&amp;");
        } else if (bytes[i] == '<') {
            append(text, "&lt;");
        } else if (bytes[i] == '>') {
            append(text, "&gt;");
        } else if (bytes[i] == '"' && is_value) {
            append(text, "&quot;");
        } else {
            splice(text, text->length, 0, bytes + i, 1);
        }
    }
}

static void append_attribute(struct text *text, const uint8_t *name, size_t name_length,
                             const uint8_t *value, size_t value_length) {
    append(text, " ");
    splice(text, text->length, 0, name, name_length);
    append(text, "=\"");
    append_escaped(text, value, value_length, 1);
    append(text, "\"");
}

static struct node *new_node(uint32_t label, uint32_t kind) {
    struct node *node = (struct node *)resized(NULL, sizeof *node);
    memset(node, 0, sizeof *node);
    node->label = label;
    node->kind = kind;
    return node;
}

/* Returns the node of a label, or a new one. It has no parent and no texts yet. */
static struct node *come(struct tree *tree, uint32_t label, uint32_t kind) {
    for (; label >= tree->room; tree->room++) {
        size_t length = (tree->room + 1) * sizeof tree->nodes[0];
        tree->nodes = (struct node **)resized(tree->nodes, length);
        tree->nodes[tree->room] = NULL;
    }
    struct node *node = tree->nodes[label] ? tree->nodes[label] : new_node(label, kind);
    node->has_gone = 0;
    node->name.length = node->attributes.length = node->value.length = 0;
    return tree->nodes[label] = node;
}

/* Puts a node into a parent, before one of its children, or at its end where that is NULL. */
static void put(struct node *node, struct node *parent, struct node *before) {
    node->parent = parent;
    node->next = before;
    node->previous = before ? before->previous : parent->last_child;
    *(node->previous ? &node->previous->next : &parent->first_child) = node;
    *(before ? &before->previous : &parent->last_child) = node;
}

/* Takes a node out of its parent, with its tree. */
static struct node *taken(struct node *node) {
    *(node->previous ? &node->previous->next : &node->parent->first_child) = node->next;
    *(node->next ? &node->next->previous : &node->parent->last_child) = node->previous;
    return node;
}

static void list_gone(struct tree *tree, struct node *node) {
    size_t length = (tree->gone_count + 1) * sizeof tree->gone[0];
    tree->gone = (uint32_t *)resized(tree->gone, length);
    tree->gone[tree->gone_count++] = node->label;
    node->is_listed = 1;
}

/* A node is removed, with its tree: no node of the tree has a parent any more. */
static void leave(struct tree *tree, struct node *node) {
    for (struct node *child = node->first_child, *next; child; child = next) {
        next = child->next;
        leave(tree, child);
    }
    node->parent = node->first_child = node->last_child = node->previous = node->next = NULL;
    node->has_gone = 1;
    if (!node->is_listed)
        list_gone(tree, node);
}

/* Forgets the node of a label, if one is held. */
static void forget(struct tree *tree, size_t label) {
    struct node *node = tree->nodes[label];
    if (node == NULL)
        return;
    tree->nodes[label] = NULL;
    free(node->name.bytes);
    free(node->attributes.bytes);
    free(node->value.bytes);
    free(node);
}

void tree_forget(struct tree *tree, hedit_editor *editor) {
    size_t kept = 0;
    if (tree->gone_count <= 2 * tree->asked_count)
        return;
    for (size_t i = 0; i < tree->gone_count; i++) {
        uint32_t label = tree->gone[i];
        struct node *node = tree->nodes[label];
        node->is_listed = node->has_gone && hedit_is_kept(editor, label) == HEDIT_DONE;
        if (node->is_listed)
            tree->gone[kept++] = label;
        else if (node->has_gone)
            forget(tree, label);
    }
    tree->gone_count = tree->asked_count = kept;
}

/* What the library packed and isn't read yet. */
typedef const uint8_t *packed;

static uint64_t number(packed *at) {
    uint64_t found = 0;
    for (int shift = 0; shift < 64; shift += 8)
        found |= (uint64_t) * (*at)++ << shift;
    return found;
}

/* The node of a label; NULL for HEDIT_NO_NODE. */
static struct node *node_of(const struct tree *tree, packed *at) {
    uint64_t label = number(at);
    return label == HEDIT_NO_NODE ? NULL : tree->nodes[label];
}

static const uint8_t *text_of(packed *at, size_t *length) {
    *length = (size_t)number(at);
    *at += *length;
    return *at - *length;
}

static void read_attributes(packed *at, struct node *node) {
    node->attributes.length = 0;
    for (uint64_t left = number(at); left > 0; left--) {
        size_t name_length, value_length;
        const uint8_t *name = text_of(at, &name_length), *value = text_of(at, &value_length);
        append_attribute(&node->attributes, name, name_length, value, value_length);
    }
}

/* Reads a text in place of so many bytes of another one. */
static void read_text(packed *at, struct text *text, size_t from, size_t width) {
    size_t length;
    const uint8_t *words = text_of(at, &length);
    splice(text, from, width, words, length);
}

static struct node *read_new(struct tree *tree, packed *at) {
    uint64_t label = number(at), kind = number(at);
    struct node *node = come(tree, (uint32_t)label, (uint32_t)kind);
    read_text(at, kind == HEDIT_ELEMENT ? &node->name : &node->value, 0, 0);
    if (kind == HEDIT_ELEMENT)
        read_attributes(at, node);
    return node;
}

/* A tree comes: its nodes in tree order, each with its level below the root. */
static void insert(struct tree *tree, packed *at) {
    struct node *parent = node_of(tree, at), *before = node_of(tree, at), *last = NULL;
    uint64_t depth = 0;
    for (uint64_t left = number(at); left > 0; left--) {
        uint64_t level = number(at);
        struct node *node = read_new(tree, at);
        for (; last && depth >= level; depth--)
            last = last->parent;
        put(node, last ? last : parent, last ? NULL : before);
        last = node;
        depth = level;
    }
}

static void move(struct tree *tree, packed *at) {
    struct node *node = taken(node_of(tree, at)), *parent = node_of(tree, at);
    put(node, parent, node_of(tree, at));
}

/* The bytes of so many characters of a text, from an offset on. */
static size_t width_of(const struct text *text, size_t from, uint64_t characters) {
    size_t at = from;
    for (; characters > 0; characters--)
        for (at++; at < text->length && (text->bytes[at] & 0xc0) == 0x80;)
            at++;
    return at - from;
}

static void replace(struct tree *tree, packed *at) {
    struct text *text = &node_of(tree, at)->value;
    size_t from = width_of(text, 0, number(at)), width = width_of(text, from, number(at));
    read_text(at, text, from, width);
}

static void follow_one(struct tree *tree, packed *at) {
    switch (number(at)) {
    case HEDIT_REMOVED: leave(tree, taken(node_of(tree, at))); break;
    case HEDIT_INSERTED: insert(tree, at); break;
    case HEDIT_MOVED: move(tree, at); break;
    case HEDIT_REPLACED: replace(tree, at); break;
    default: {
        struct node *node = node_of(tree, at);
        read_attributes(at, node);
    }
    }
}

void tree_follow(struct tree *tree, hedit_editor *editor) {
    size_t length;
    want(hedit_changes(editor, buffer, sizeof buffer, &length));
    for (packed at = buffer; at < buffer + length;)
        follow_one(tree, &at);
}

static void read_own_attributes(hedit_editor *editor, struct node *node) {
    size_t length, value_length, place = 0;
    while (hedit_attribute_name(editor, node->label, place, buffer, sizeof buffer, &length) ==
           HEDIT_DONE) {
        want(hedit_attribute_value(editor, node->label, place, buffer + length,
                                   sizeof buffer - length, &value_length));
        append_attribute(&node->attributes, buffer, length, buffer + length, value_length);
        place++;
    }
}

static struct node *read_node(struct tree *tree, hedit_editor *editor, uint32_t label) {
    hedit_node_facts facts, child;
    size_t length;
    want(hedit_node(editor, label, &facts));
    struct node *node = come(tree, label, facts.kind);
    want(hedit_node_name(editor, label, buffer, sizeof buffer, &length));
    splice(&node->name, 0, 0, buffer, length);
    want(hedit_node_value(editor, label, buffer, sizeof buffer, &length));
    splice(&node->value, 0, 0, buffer, length);
    read_own_attributes(editor, node);
    for (uint32_t at = facts.first_child; at != HEDIT_NO_NODE; at = child.next) {
        put(read_node(tree, editor, at), node, NULL);
        want(hedit_node(editor, at, &child));
    }
    return node;
}

struct tree tree_of(hedit_editor *editor) {
    struct tree tree = {NULL, 0, NULL, 0, 0};
    read_node(&tree, editor, 0);
    return tree;
}

static int is_void(const struct text *name) {
    static const char *const all[] = {"area",  "base", "br",   "col",    "embed", "hr", "img",
                                      "input", "link", "meta", "source", "track", "wbr"};
    int found = 0;
    for (size_t i = 0; i < sizeof all / sizeof all[0]; i++)
        found |= strlen(all[i]) == name->length && memcmp(all[i], name->bytes, name->length) == 0;
    return found;
}

static void append_text(struct text *html, const struct text *text) {
    splice(html, html->length, 0, text->bytes, text->length);
}

/* The HTML of the document is that of its children. */
static void append_html(struct text *html, const struct node *node) {
    int is_element = node->kind == HEDIT_ELEMENT;
    append(html, is_element ? "<" : node->kind == HEDIT_COMMENT ? "<!--" : "");
    append_text(html, &node->name);
    append_text(html, &node->attributes);
    append(html, is_element ? ">" : "");
    if (node->kind == HEDIT_TEXT)
        append_escaped(html, node->value.bytes, node->value.length, 0);
    else
        append_text(html, &node->value);
    for (const struct node *child = node->first_child; child; child = child->next)
        append_html(html, child);
    append(html, node->kind == HEDIT_COMMENT ? "-->" : "");
    if (is_element && !is_void(&node->name)) {
        append(html, "</");
        append_text(html, &node->name);
        append(html, ">");
    }
}

struct text tree_html(const struct tree *tree) {
    struct text html = {NULL, 0};
    append_html(&html, tree->nodes[0]);
    append(&html, "\n");
    return html;
}

void tree_close(struct tree *tree) {
    for (size_t label = 0; label < tree->room; label++)
        forget(tree, label);
    free(tree->nodes);
    free(tree->gone);
}
