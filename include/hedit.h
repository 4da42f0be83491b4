/* hedit.h: the engine behind a contenteditable region, for programs in C and in languages that
 * call C.
 *
 * Link with libhedit.so or libhedit.a, which bin/release makes, or on Windows with hedit.dll. They take
 * malloc, realloc and free from the C library.
 *
 *     cc host.c $(pkg-config --cflags --libs hedit)
 *
 * UNITS. A text is bytes in UTF-8 and their count, without a terminating zero. A path is an array
 * of numbers and their count: the index of a child in each node on the way from the document
 * down. An offset counts characters (code points) in a text, and children in an element. Lengths
 * and capacities are in bytes.
 *
 * POINTERS. No pointer may be NULL, not even if its count is 0. Memory that is written may not
 * overlap other memory that is passed. The library uses your pointers only during the call, and
 * keeps none of them. It returns no pointer of its own but the one in hedit_editor.
 *
 * BUFFERS. A call that returns a text takes a buffer with its capacity, and writes the text's
 * length to *length. If the text is longer than the buffer, the status is HEDIT_TOO_SMALL, the
 * buffer is unchanged and nothing is lost: call again with *length bytes. Bytes after the text in
 * a larger buffer are unchanged. A call that returns a path or points does the same, and counts
 * these instead of bytes.
 *
 * ALL OR NOTHING. After any status but HEDIT_DONE and HEDIT_NO the editor is unchanged
 * (hedit_open has closed it).
 *
 * WHAT THE CALLER OWES. Nothing checks these:
 * - A hedit_editor is {NULL}, or as the last call left it. The library can't recognize a pointer
 *   that is made up, that was copied and is used together with the copy, or that comes from
 *   another process: the behaviour is undefined, as with a freed FILE *. It recognizes a closed
 *   editor: HEDIT_CLOSED.
 * - One call at a time for an editor, and its calls come from one thread. Different editors don't
 *   share anything.
 * - malloc, realloc and free come from one allocator, and malloc and realloc align a block to
 *   each power of two up to 16 that divides its size.
 * - No call comes from a signal handler, or from the forked child of a process with threads.
 * - The thread of a call has 128 kB of stack. That was measured to be enough for each command on a
 *   page of 200 levels; how much a call takes grows with the levels of the document.
 */
#ifndef HEDIT_H
#define HEDIT_H

#include <stddef.h>
#include <stdint.h>

/* Marks the calls of the library. A program for Windows that links with libhedit.a and not with hedit.dll
 * defines HEDIT_STATIC before it includes this header. */
#if defined(_WIN32) && !defined(HEDIT_STATIC)
#define HEDIT_API __declspec(dllimport)
#else
#define HEDIT_API
#endif

#ifdef __cplusplus
extern "C" {
#endif

/* The version of this header and of the library that it came with. */
#define HEDIT_VERSION "0.9.0"
#define HEDIT_VERSION_MAJOR 0
#define HEDIT_VERSION_MINOR 9
#define HEDIT_VERSION_PATCH 0

/* The version of the library that is linked: a byte each for the major, the minor and the patch
 * number, as 0x000900 for 0.9.0. */
HEDIT_API
uint32_t hedit_version(void);

/* How a call ended. */
enum hedit_status {
    HEDIT_DONE = 0,            /* the call was done; its answer, if it has one, is true */
    HEDIT_NO = 1,              /* the answer is false */
    HEDIT_USAGE = 2,           /* the arguments aren't in the program's grammar; sessions only */
    HEDIT_MEMORY = 5,          /* malloc returned no memory */
    HEDIT_PAGE_REFUSED = 6,    /* the bytes aren't a page */
    HEDIT_TOO_LONG = 7,        /* the input has more than 8,388,608 bytes; sessions only */
    HEDIT_STEP_REFUSED = 8,    /* a line of a replayed log is refused; sessions only */
    HEDIT_TOO_SMALL = 9,       /* the buffer is too small; *length is what it needs */
    HEDIT_FULL = 10,           /* a node that the command makes would have the label label_cap */
    HEDIT_DEEP = 11,           /* the document has more than 250 levels */
    HEDIT_BAD_PLACE = 12,      /* a path or label names no node, or an offset is past its length */
    HEDIT_TOO_MANY_MARKS = 13, /* there are 16 markers of other names */
    HEDIT_BAD_ARGUMENT = 14,   /* a number is invalid, a text isn't UTF-8, or a limit is 0 */
    HEDIT_CLOSED = 15          /* the editor isn't open */
};

/* Returns what a status means, in a few words. */
static inline const char *hedit_status_text(uint32_t status) {
    switch (status) {
    case HEDIT_DONE: return "done";
    case HEDIT_NO: return "no";
    case HEDIT_USAGE: return "the arguments aren't in the program's grammar";
    case HEDIT_MEMORY: return "out of memory";
    case HEDIT_PAGE_REFUSED: return "the page is refused";
    case HEDIT_TOO_LONG: return "the input is too long";
    case HEDIT_STEP_REFUSED: return "a step of the log is refused";
    case HEDIT_TOO_SMALL: return "the buffer is too small";
    case HEDIT_FULL: return "no label is left below label_cap";
    case HEDIT_DEEP: return "the document is too deep";
    case HEDIT_BAD_PLACE: return "the document has no such place";
    case HEDIT_TOO_MANY_MARKS: return "there are 16 markers of other names already";
    case HEDIT_BAD_ARGUMENT: return "an argument is invalid";
    case HEDIT_CLOSED: return "the editor isn't open";
    default: return "unknown status";
    }
}

/* An editor, or none. The struct is yours: start it as HEDIT_CLOSED_EDITOR, and pass its address to
 * the calls. The memory of the editor is the library's, until hedit_close. */
typedef struct hedit_editor {
    void *state;
} hedit_editor;

/* clang-format off */
#define HEDIT_CLOSED_EDITOR {NULL}
/* clang-format on */

/* Why a page is refused. */
enum hedit_page_kind {
    HEDIT_PAGE_NOT_UTF8 = 1,
    HEDIT_PAGE_BAD_TAG = 2,
    HEDIT_PAGE_UNCLOSED = 3,
    HEDIT_PAGE_STRAY_END = 4,
    HEDIT_PAGE_BAD_ATTRIBUTE = 5,
    HEDIT_PAGE_REPEATED_ATTRIBUTE = 6,
    HEDIT_PAGE_UNKNOWN_REFERENCE = 7,
    HEDIT_PAGE_UNSUPPORTED_ELEMENT = 8,
    HEDIT_PAGE_TOO_DEEP = 9,
    HEDIT_PAGE_TOO_LONG = 10,
    HEDIT_PAGE_FULL = 11
};

/* Where a page is refused, in bytes from its start, and why. */
typedef struct hedit_refusal {
    size_t at;
    uint32_t kind;
} hedit_refusal;

/* Opens a page in *editor, and closes the editor that was open in it, even if the page is refused.
 * No node gets a label from label_cap on (usually 2,000,000), and undo_depth commands can be undone
 * (usually 100). Neither may be 0. HEDIT_DONE, HEDIT_PAGE_REFUSED, HEDIT_MEMORY,
 * HEDIT_BAD_ARGUMENT. *refusal has a meaning after HEDIT_PAGE_REFUSED only. */
HEDIT_API
uint32_t hedit_open(hedit_editor *editor, const uint8_t *page, size_t page_length,
                    uint32_t label_cap, size_t undo_depth, hedit_refusal *refusal);

/* Closes *editor and frees its memory. A closed editor stays closed. */
HEDIT_API
void hedit_close(hedit_editor *editor);

/* Executes a command by its name, in any case, such as "bold" or "fontName", with a value, which is
 * empty for most. HEDIT_DONE. HEDIT_NO if the command isn't supported, isn't enabled or refuses the
 * value. HEDIT_FULL, HEDIT_DEEP, HEDIT_MEMORY, HEDIT_BAD_ARGUMENT, HEDIT_CLOSED. */
HEDIT_API
uint32_t hedit_exec(hedit_editor *editor, const uint8_t *name, size_t name_length,
                    const uint8_t *value, size_t value_length);

/* Executes a command like hedit_exec, unless its name is denied: then HEDIT_NO. `denied` has 1 to 16
 * different names of commands in any case, separated by commas, as "bold,insertImage". Each has 1
 * to 64 ASCII letters, digits and '-'. If it has no bytes, no command is denied. Commands that a
 * command executes inside itself aren't checked. Also HEDIT_BAD_ARGUMENT if `denied` isn't such
 * a list. */
HEDIT_API
uint32_t hedit_exec_gated(hedit_editor *editor, const uint8_t *denied, size_t denied_length,
                          const uint8_t *name, size_t name_length, const uint8_t *value,
                          size_t value_length);

/* Executes a command like hedit_exec, but adds its edits to the previous undo step, so that one
 * hedit_undo reverts both. It starts a new step if no command made or extended the previous one, or
 * if anything has intervened: hedit_undo, hedit_redo, a call that selects or sets or removes a
 * marker, or a command by hedit_exec or hedit_exec_gated that was HEDIT_DONE without an edit. A
 * command that isn't HEDIT_DONE doesn't affect grouping. */
HEDIT_API
uint32_t hedit_exec_joined(hedit_editor *editor, const uint8_t *name, size_t name_length,
                           const uint8_t *value, size_t value_length);

/* Replaces the range between two points by a text: selects the range and executes "insertText", as
 * one command. A point is the label of a node and an offset in it. The command continues a run of
 * typing, and typing continues it, like "insertText" by hedit_exec. So one hedit_undo reverts what
 * was typed and replaced in a row. HEDIT_DONE. HEDIT_NO if the points aren't in an editing host.
 * HEDIT_BAD_PLACE, HEDIT_FULL, HEDIT_DEEP, HEDIT_MEMORY, HEDIT_BAD_ARGUMENT, HEDIT_CLOSED. After any
 * status but HEDIT_DONE the selection is unchanged too. */
HEDIT_API
uint32_t hedit_replace(hedit_editor *editor, uint32_t anchor, uint32_t anchor_offset,
                       uint32_t focus, uint32_t focus_offset, const uint8_t *text,
                       size_t text_length);

/* How hedit_exec_with executes a command. */
typedef struct hedit_exec_options {
    uint32_t joined; /* not 0: its edits are added to the previous step, as by hedit_exec_joined */
    uint32_t ranged; /* not 0: it works on the range between the two points */
    uint32_t anchor, anchor_offset;
    uint32_t focus, focus_offset;
} hedit_exec_options;

/* Executes a command like hedit_exec_gated, with options. The calls above are cases of this one. With a
 * range the command selects that first, and the selection is left where the command leaves it. So an
 * application formats a range within a step, which a call that selects would end. Also HEDIT_BAD_PLACE if
 * an end of the range isn't in the document. After any status but HEDIT_DONE the selection is as before,
 * too. */
HEDIT_API
uint32_t hedit_exec_with(hedit_editor *editor, const hedit_exec_options *options,
                         const uint8_t *denied, size_t denied_length, const uint8_t *name,
                         size_t name_length, const uint8_t *value, size_t value_length);

/* Undo or redo one step. HEDIT_DONE, HEDIT_NO if there is none, HEDIT_CLOSED. They take no
 * memory. */
HEDIT_API
uint32_t hedit_undo(hedit_editor *editor);
HEDIT_API
uint32_t hedit_redo(hedit_editor *editor);

/* Selects from an anchor to a focus. HEDIT_DONE, HEDIT_BAD_PLACE, HEDIT_MEMORY, HEDIT_CLOSED. */
HEDIT_API
uint32_t hedit_select(hedit_editor *editor, const uint32_t *anchor, size_t anchor_length,
                      uint32_t anchor_offset, const uint32_t *focus, size_t focus_length,
                      uint32_t focus_offset);

/* Selects from one point to another. A point is the label of a node and an offset in it. HEDIT_DONE.
 * HEDIT_BAD_PLACE if no node of the document has the label, or the offset is past its length.
 * HEDIT_CLOSED. It takes no memory. Its cost grows with the depth of the nodes, and in an element
 * with the children before the offset. */
HEDIT_API
uint32_t hedit_select_points(hedit_editor *editor, uint32_t anchor, uint32_t anchor_offset,
                             uint32_t focus, uint32_t focus_offset);

/* Removes the selection. HEDIT_DONE, HEDIT_CLOSED. */
HEDIT_API
uint32_t hedit_unselect(hedit_editor *editor);

/* Sets the marker of a name from an anchor to a focus. A marker is a named range that follows the
 * edits. If there is a marker of that name, it is moved. The name is any bytes; letters and digits
 * keep the lines of hedit_view readable. HEDIT_DONE, HEDIT_BAD_PLACE, HEDIT_TOO_MANY_MARKS, HEDIT_MEMORY,
 * HEDIT_CLOSED. */
HEDIT_API
uint32_t hedit_mark(hedit_editor *editor, const uint8_t *name, size_t name_length,
                    const uint32_t *anchor, size_t anchor_length, uint32_t anchor_offset,
                    const uint32_t *focus, size_t focus_length, uint32_t focus_offset);

/* Sets a marker like hedit_mark, from one point to another. */
HEDIT_API
uint32_t hedit_mark_points(hedit_editor *editor, const uint8_t *name, size_t name_length,
                           uint32_t anchor, uint32_t anchor_offset, uint32_t focus,
                           uint32_t focus_offset);

/* Removes the marker of a name. HEDIT_DONE, HEDIT_NO if there is none, HEDIT_MEMORY,
 * HEDIT_CLOSED. */
HEDIT_API
uint32_t hedit_unmark(hedit_editor *editor, const uint8_t *name, size_t name_length);

/* The queries about a command. */
enum hedit_question {
    HEDIT_SUPPORTED = 0, /* whether there is such a command */
    HEDIT_ENABLED = 1,   /* whether it has an editing host to work in */
    HEDIT_INDETERM = 2,  /* whether only a part of the selection has it */
    HEDIT_STATE = 3,     /* whether the selection has it */
    HEDIT_VALUE = 4      /* its value: a font, a colour, a block's name */
};

/* Answers a query about the command of a name. The first four queries set *flag to 0 or 1, and
 * return an empty text. HEDIT_VALUE returns the text, and sets *flag to 0. HEDIT_DONE, HEDIT_TOO_SMALL, HEDIT_MEMORY, HEDIT_BAD_ARGUMENT, HEDIT_CLOSED. */
HEDIT_API
uint32_t hedit_query(hedit_editor *editor, uint32_t question, const uint8_t *name,
                     size_t name_length, uint32_t *flag, uint8_t *buffer, size_t capacity,
                     size_t *length);

/* The views of an editor, which are complete lines. */
enum hedit_view_kind {
    HEDIT_HTML = 0,   /* the page as HTML, with a line feed at the end */
    HEDIT_TREE = 1,   /* a line for each node */
    HEDIT_POINTS = 2, /* the selection and the markers */
    HEDIT_NUMBERS = 3 /* nodes, characters, the next label, the edits of the step that undo would
                       * take, steps to undo and to redo */
};

/* Returns a view of the editor. HEDIT_DONE, HEDIT_TOO_SMALL, HEDIT_MEMORY,
 * HEDIT_BAD_ARGUMENT, HEDIT_CLOSED. */
HEDIT_API
uint32_t hedit_view(hedit_editor *editor, uint32_t kind, uint8_t *buffer, size_t capacity,
                    size_t *length);

/* LABELS. Each node has a number, its label, as long as the editor is open. A node keeps its label
 * when it moves, when it is removed, and when undo restores it. No other node gets that label. The
 * document has 0. An application visits the nodes from there, and keeps a map from each label to
 * what it displays. */

/* The label that means that there is none. */
#define HEDIT_NO_NODE UINT32_MAX

/* Kinds of nodes, with the numbers of DOM's nodeType. */
enum hedit_node_kind {
    HEDIT_ELEMENT = 1,
    HEDIT_TEXT = 3,
    HEDIT_COMMENT = 8,
    HEDIT_DOCUMENT = 9,
};

/* A node: its kind, its length, and the labels of the nodes next to it. */
typedef struct hedit_node_facts {
    uint32_t kind;   /* of enum hedit_node_kind */
    uint32_t length; /* characters of a text or a comment, else children */
    uint32_t parent; /* a label or HEDIT_NO_NODE, like the next four */
    uint32_t first_child;
    uint32_t last_child;
    uint32_t previous;
    uint32_t next;
} hedit_node_facts;

/* Returns the facts about the node of a label. HEDIT_DONE, HEDIT_BAD_PLACE if no node of the
 * document has the label, HEDIT_CLOSED. It takes no memory. */
HEDIT_API
uint32_t hedit_node(hedit_editor *editor, uint32_t label, hedit_node_facts *facts);

/* Returns the label of the node at a path. HEDIT_DONE, HEDIT_BAD_PLACE, HEDIT_MEMORY,
 * HEDIT_CLOSED. */
HEDIT_API
uint32_t hedit_label_at(hedit_editor *editor, const uint32_t *path, size_t path_length,
                        uint32_t *label);

/* Returns the path of the node of a label, in an array for `capacity` indexes, and their number in
 * *length. HEDIT_DONE, HEDIT_BAD_PLACE, HEDIT_TOO_SMALL, HEDIT_MEMORY, HEDIT_CLOSED. */
HEDIT_API
uint32_t hedit_path_of(hedit_editor *editor, uint32_t label, uint32_t *path, size_t capacity,
                       size_t *length);

/* Return the name of an element, and the characters of a text node or a comment. The text is empty
 * for a node of another kind. HEDIT_DONE, HEDIT_BAD_PLACE, HEDIT_TOO_SMALL, HEDIT_MEMORY (only
 * hedit_node_value), HEDIT_CLOSED. */
HEDIT_API
uint32_t hedit_node_name(hedit_editor *editor, uint32_t label, uint8_t *buffer, size_t capacity,
                         size_t *length);
HEDIT_API
uint32_t hedit_node_value(hedit_editor *editor, uint32_t label, uint8_t *buffer, size_t capacity,
                          size_t *length);

/* Return the name and the value of an attribute by its index in the node's list, from 0 on.
 * HEDIT_DONE, HEDIT_NO if the list has no such index, HEDIT_BAD_PLACE, HEDIT_TOO_SMALL,
 * HEDIT_MEMORY (only hedit_attribute_value), HEDIT_CLOSED. */
HEDIT_API
uint32_t hedit_attribute_name(hedit_editor *editor, uint32_t label, size_t place, uint8_t *buffer,
                              size_t capacity, size_t *length);
HEDIT_API
uint32_t hedit_attribute_value(hedit_editor *editor, uint32_t label, size_t place, uint8_t *buffer,
                               size_t capacity, size_t *length);

/* Return the HTML and the plain text of a node with its descendants. The HTML of the document is that
 * of its children. The plain text has the characters of the text nodes and a line feed for each br,
 * in tree order. If a block begins or ends between two of these, a line feed is inserted, unless the
 * first one is a line feed. HEDIT_DONE, HEDIT_BAD_PLACE, HEDIT_TOO_SMALL,
 * HEDIT_MEMORY, HEDIT_CLOSED. */
HEDIT_API
uint32_t hedit_node_html(hedit_editor *editor, uint32_t label, uint8_t *buffer, size_t capacity,
                         size_t *length);
HEDIT_API
uint32_t hedit_node_text(hedit_editor *editor, uint32_t label, uint8_t *buffer, size_t capacity,
                         size_t *length);

/* A point: the label of a node, and an offset in it. */
typedef struct hedit_point {
    uint32_t label;
    uint32_t offset;
} hedit_point;

/* Returns the points at which a text occurs in a node and its descendants, in an array for `capacity`
 * points, and their number in *count. They are in tree order, and the occurrences don't overlap. Each
 * occurrence is in one text node, and has exactly the characters of the text. The empty text doesn't
 * occur. HEDIT_DONE, HEDIT_BAD_PLACE,
 * HEDIT_TOO_SMALL, HEDIT_MEMORY, HEDIT_BAD_ARGUMENT, HEDIT_CLOSED. */
HEDIT_API
uint32_t hedit_find(hedit_editor *editor, uint32_t label, const uint8_t *text, size_t text_length,
                    hedit_point *points, size_t capacity, size_t *count);

/* The points of a selection or of a marker: labels, and offsets in these nodes. */
typedef struct hedit_selection_facts {
    uint32_t anchor;
    uint32_t anchor_offset;
    uint32_t focus;
    uint32_t focus_offset;
} hedit_selection_facts;

/* Returns the points of the selection. HEDIT_DONE, HEDIT_NO if nothing is selected,
 * HEDIT_CLOSED. */
HEDIT_API
uint32_t hedit_selection(hedit_editor *editor, hedit_selection_facts *facts);

/* Return the name and the points of a marker by its index in the list of markers, from 0 on. A new
 * marker is last, and one that is set again keeps its index. HEDIT_DONE, HEDIT_NO if the list has no
 * such index, HEDIT_TOO_SMALL (only hedit_mark_name), HEDIT_CLOSED. They take no memory. */
HEDIT_API
uint32_t hedit_mark_name(hedit_editor *editor, size_t place, uint8_t *buffer, size_t capacity,
                         size_t *length);
HEDIT_API
uint32_t hedit_mark_range(hedit_editor *editor, size_t place, hedit_selection_facts *facts);

/* Return the HTML and the plain text of the selection, for the clipboard. The HTML has the children of
 * the innermost node that contains both points, cut at the points like DOM's cloneContents. An element
 * that contains only one of the points has its tags. HEDIT_DONE, HEDIT_NO if nothing is selected,
 * HEDIT_TOO_SMALL, HEDIT_MEMORY, HEDIT_CLOSED. */
HEDIT_API
uint32_t hedit_selection_html(hedit_editor *editor, uint8_t *buffer, size_t capacity,
                              size_t *length);
HEDIT_API
uint32_t hedit_selection_text(hedit_editor *editor, uint8_t *buffer, size_t capacity,
                              size_t *length);

/* The counts of a document and of its history. */
typedef struct hedit_number_facts {
    uint32_t nodes;      /* of the document */
    uint32_t next_label; /* the next node's label */
    uint64_t chars;      /* of its texts */
    size_t edits;        /* of the step that undo would take */
    size_t undo;         /* steps that can be undone */
    size_t redo;         /* steps that can be redone */
} hedit_number_facts;

/* Returns the counts. HEDIT_DONE, HEDIT_CLOSED. */
HEDIT_API
uint32_t hedit_numbers(hedit_editor *editor, hedit_number_facts *facts);

/* Returns how many calls have changed the document since it was opened: commands, hedit_replace,
 * hedit_undo and hedit_redo. If the number is the same as before a call, the call changed nothing. If
 * it is more than one greater, you missed a change. HEDIT_DONE, HEDIT_CLOSED. */
HEDIT_API
uint32_t hedit_revision(hedit_editor *editor, uint64_t *revision);

/* Returns the changes of the last call that changed something, by the labels of nodes, from the first
 * to the last. If you apply them to a copy of the document before that call, it equals the document
 * after it. You can ask as often as you like.
 *
 * The changes are packed one after another. A number has eight bytes, the lowest first. A text is its
 * length in bytes, and then its bytes. HEDIT_NO_NODE is in the place of a missing node. A change is
 *     HEDIT_REMOVED, node                    the node is removed, with its tree
 *     HEDIT_INSERTED, parent, before, tree   the tree is inserted before that child of the parent, or
 *                                            at its end
 *     HEDIT_MOVED, node, parent, before      the node is moved there, with its tree
 *     HEDIT_REPLACED, node, at, taken, text  in the text node or comment, the text replaces `taken`
 *                                            characters from the offset `at` on
 *     HEDIT_ATTRIBUTES_SET, node, list       the element has this list of attributes now
 * A list is its count, and for each attribute two texts: its name and its value. A tree is the count
 * of its nodes, and for each of them, in tree order: its level below the root of the tree, its label,
 * and its kind. The name and the list of a HEDIT_ELEMENT follow, or the characters of a HEDIT_TEXT or
 * a HEDIT_COMMENT.
 * HEDIT_DONE, HEDIT_TOO_SMALL, HEDIT_MEMORY, HEDIT_CLOSED. */
enum hedit_change {
    HEDIT_REMOVED = 1,
    HEDIT_INSERTED = 2,
    HEDIT_MOVED = 3,
    HEDIT_REPLACED = 4,
    HEDIT_ATTRIBUTES_SET = 5
};

HEDIT_API
uint32_t hedit_changes(hedit_editor *editor, uint8_t *buffer, size_t capacity, size_t *length);

/* Answers whether the node of a label is in the document, or may be restored by hedit_undo or
 * hedit_redo. HEDIT_DONE, HEDIT_NO, HEDIT_CLOSED. A removed node with HEDIT_NO is never restored, so
 * you can forget what you displayed of it. A label that no node has had yet has HEDIT_NO too. Ask
 * after commands that changed something, since only these drop undo steps, not after hedit_undo and
 * hedit_redo. It takes no memory, and its cost doesn't grow with the document or the history. */
HEDIT_API
uint32_t hedit_is_kept(hedit_editor *editor, uint32_t label);

/* Runs a session, as `hedit run` does with its standard input, and returns the transcript. The status
 * is the exit status of the program: HEDIT_DONE, HEDIT_MEMORY, HEDIT_TOO_LONG, or HEDIT_PAGE_REFUSED
 * with a line that reports the error. Or it is HEDIT_TOO_SMALL. It needs no editor. */
HEDIT_API
uint32_t hedit_session(const uint8_t *input, size_t input_length, uint8_t *output, size_t capacity,
                       size_t *written);

/* Runs a session with the arguments of a command line, one per line, as "run\n--undo\n9\n". Also
 * HEDIT_USAGE and HEDIT_STEP_REFUSED. */
HEDIT_API
uint32_t hedit_session_with_words(const uint8_t *words, size_t words_length, const uint8_t *input,
                                  size_t input_length, uint8_t *output, size_t capacity,
                                  size_t *written);

#ifdef __cplusplus
}
#endif

#endif
