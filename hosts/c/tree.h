/* A tree that a host in C keeps of a page, and that follows it by what changed alone. It holds what
 * went, too, as long as undo or redo may bring it back. */
#ifndef TREE_H
#define TREE_H

#include <hedit.h>

#include <stddef.h>
#include <stdint.h>

struct text {
    uint8_t *bytes;
    size_t length;
};

/* A node. It has its attributes as HTML. A removed node has no parent. */
struct node {
    uint32_t label, kind;
    int has_gone, is_listed;
    struct text name, attributes, value;
    struct node *parent, *first_child, *last_child, *previous, *next;
};

/* The nodes by their labels, or NULL, and the capacity for labels. The labels of removed nodes, of
 * which some may have been restored since, and how many there were when the tree last asked whether
 * they are kept. */
struct tree {
    struct node **nodes;
    size_t room;
    uint32_t *gone;
    size_t gone_count, asked_count;
};

/* The program ends where a call should have been done and was not. */
void want(uint32_t status);

/* The tree of an editor's page, read by the calls on nodes. */
struct tree tree_of(hedit_editor *editor);

/* Does what the last call changed that changed something. The tree was the page before it. */
void tree_follow(struct tree *tree, hedit_editor *editor);

/* Forgets what can't come back any more. It asks once there is twice as much as it kept the last time,
 * so that it asks for each node that goes twice at most, on average. */
void tree_forget(struct tree *tree, hedit_editor *editor);

/* The HTML of the tree as the editor prints it. The caller frees its bytes. */
struct text tree_html(const struct tree *tree);

void tree_close(struct tree *tree);

#endif
