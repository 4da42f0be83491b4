/* Tests of hedit.h: each call once, on a page of one paragraph, with a buffer that is large
 * enough for its answer and with a smaller one, and with each status for a mistake of the caller. */
#include <hedit.h>

#include <stdio.h>
#include <stdlib.h>
#include <string.h>

/* A text without a terminating zero, and its length. */
#define TEXT(words) (const uint8_t *)(words), sizeof(words) - 1

static int failed = 0;

#define CHECK(holds)                                                                               \
    do {                                                                                           \
        if (!(holds)) {                                                                            \
            printf("hedit.h, line %d: %s: FAILED\n", __LINE__, #holds);                            \
            failed = 1;                                                                            \
        }                                                                                          \
    } while (0)

static const char PAGE[] = "<p contenteditable>ab</p>";
static const char BOLD[] = "<p contenteditable=\"\"><b>ab</b></p>\n";
static const char SESSION[] = "page <<END\n<p>x</p>\nEND\nhtml\nstat\n";
static const char ANSWER[] = "<p>x</p>\nnodes 3 chars 1 next 3 edits 0 undo 0 redo 0\n";
static const char NODES[] =
    "<!--n--><p contenteditable><i class=\"x&amp;y\" lang>\xc3\xa9</i>b</p>";
static const uint32_t TEXT_OF_PAGE[] = {0, 0};
static const uint32_t NOWHERE[] = {9};

/* Whether a buffer begins with a text, and then has dots, as it had before the call. */
static int holds(const uint8_t *buffer, size_t capacity, const char *text) {
    size_t length = strlen(text);
    int is_so = memcmp(buffer, text, length) == 0;
    while (length < capacity)
        is_so = is_so && buffer[length++] == '.';
    return is_so;
}

static void sessions(void) {
    uint8_t output[80], small[8];
    size_t written;
    memset(output, '.', sizeof output);
    memset(small, '.', sizeof small);
    CHECK(hedit_session(TEXT(SESSION), output, sizeof output, &written) == HEDIT_DONE);
    CHECK(written == strlen(ANSWER) && holds(output, sizeof output, ANSWER));
    CHECK(hedit_session(TEXT(SESSION), small, sizeof small, &written) == HEDIT_TOO_SMALL);
    CHECK(written == strlen(ANSWER) && holds(small, sizeof small, ""));
}

/* Runs a session with words of the program, one a line. */
static void words(const char *lines, const char *input, uint32_t status, const char *answer) {
    uint8_t output[80];
    size_t written;
    memset(output, '.', sizeof output);
    CHECK(hedit_session_with_words((const uint8_t *)lines, strlen(lines), (const uint8_t *)input,
                                   strlen(input), output, sizeof output, &written) == status);
    CHECK(written == strlen(answer) && holds(output, sizeof output, answer));
}

static void edits(void) {
    hedit_editor editor = HEDIT_CLOSED_EDITOR;
    hedit_refusal refusal;
    uint8_t buffer[40];
    uint32_t flag;
    size_t length;
    memset(buffer, '.', sizeof buffer);
    CHECK(hedit_undo(&editor) == HEDIT_CLOSED);
    CHECK(hedit_open(&editor, TEXT(PAGE), 99, 9, &refusal) == HEDIT_DONE);
    CHECK(hedit_select(&editor, TEXT_OF_PAGE, 2, 0, TEXT_OF_PAGE, 2, 2) == HEDIT_DONE);
    CHECK(hedit_exec(&editor, TEXT("bold"), TEXT("")) == HEDIT_DONE);
    CHECK(hedit_query(&editor, HEDIT_STATE, TEXT("bold"), &flag, buffer, sizeof buffer, &length) ==
          HEDIT_DONE);
    CHECK(flag == 1 && length == 0);
    CHECK(hedit_view(&editor, HEDIT_HTML, buffer, 9, &length) == HEDIT_TOO_SMALL);
    CHECK(length == strlen(BOLD) && holds(buffer, sizeof buffer, ""));
    CHECK(hedit_view(&editor, HEDIT_HTML, buffer, sizeof buffer, &length) == HEDIT_DONE);
    CHECK(length == strlen(BOLD) && holds(buffer, sizeof buffer, BOLD));
    CHECK(hedit_undo(&editor) == HEDIT_DONE);
    CHECK(hedit_undo(&editor) == HEDIT_NO);
    CHECK(hedit_redo(&editor) == HEDIT_DONE);
    hedit_close(&editor);
    CHECK(hedit_redo(&editor) == HEDIT_CLOSED);
}

static void mistakes(void) {
    hedit_editor editor = HEDIT_CLOSED_EDITOR;
    hedit_refusal refusal;
    CHECK(hedit_open(&editor, TEXT("<p>x</b>"), 99, 9, &refusal) == HEDIT_PAGE_REFUSED);
    CHECK(refusal.at == 6 && refusal.kind == HEDIT_PAGE_STRAY_END);
    CHECK(hedit_open(&editor, TEXT(PAGE), 0, 9, &refusal) == HEDIT_BAD_ARGUMENT);
    CHECK(hedit_open(&editor, TEXT(PAGE), 99, 9, &refusal) == HEDIT_DONE);
    CHECK(hedit_select(&editor, TEXT_OF_PAGE, 1, 0, NOWHERE, 1, 0) == HEDIT_BAD_PLACE);
    CHECK(hedit_mark(&editor, TEXT("m"), TEXT_OF_PAGE, 2, 0, TEXT_OF_PAGE, 2, 1) == HEDIT_DONE);
    CHECK(hedit_unmark(&editor, TEXT("m")) == HEDIT_DONE);
    CHECK(hedit_unmark(&editor, TEXT("m")) == HEDIT_NO);
    CHECK(hedit_unselect(&editor) == HEDIT_DONE);
    CHECK(hedit_exec(&editor, TEXT("bold"), TEXT("\xff")) == HEDIT_BAD_ARGUMENT);
    hedit_close(&editor);
}

static void versions(void) {
    uint32_t status;
    CHECK(hedit_version() ==
          (uint32_t)(HEDIT_VERSION_MAJOR << 16 | HEDIT_VERSION_MINOR << 8 | HEDIT_VERSION_PATCH));
    for (status = HEDIT_DONE; status <= HEDIT_CLOSED; status++) {
        int is_one = status <= HEDIT_USAGE || status >= HEDIT_MEMORY;
        CHECK((strcmp(hedit_status_text(status), hedit_status_text(99)) != 0) == is_one);
    }
    CHECK(strcmp(hedit_status_text(HEDIT_TOO_SMALL), "the buffer is too small") == 0);
}

/* Opens a page that is one. */
static hedit_editor opened(const char *page) {
    hedit_editor editor = HEDIT_CLOSED_EDITOR;
    hedit_refusal refusal;
    CHECK(hedit_open(&editor, (const uint8_t *)page, strlen(page), 99, 9, &refusal) == HEDIT_DONE);
    return editor;
}

/* The label at a path of up to three steps, the rest of which is 9; HEDIT_NO_NODE where no node has
 * it. */
static uint32_t label_at(hedit_editor *editor, uint32_t first, uint32_t second, uint32_t third) {
    uint32_t path[3], label = HEDIT_NO_NODE;
    size_t length = 0;
    path[0] = first;
    path[1] = second;
    path[2] = third;
    while (length < 3 && path[length] != 9)
        length++;
    CHECK(hedit_label_at(editor, path, length, &label) ==
          (label == HEDIT_NO_NODE ? HEDIT_BAD_PLACE : HEDIT_DONE));
    return label;
}

static uint32_t bold(hedit_editor *editor, const char *denied) {
    return hedit_exec_gated(editor, (const uint8_t *)denied, strlen(denied), TEXT("Bold"),
                            TEXT(""));
}

static void gates(void) {
    /* Names of 65 letters, none, one with another character, and 17 names. */
    static const char *const wrong[] = {
        "abcdefghijklmnopqrstuvwxyzabcdefghijklmnopqrstuvwxyzabcdefghijklm",
        ",",
        "italic,",
        ",italic",
        "italic, underline",
        "a_b",
        "a,b,c,d,e,f,g,h,i,j,k,l,m,n,o,p,q"};
    hedit_editor editor = opened(PAGE);
    hedit_refusal refusal;
    size_t i;
    CHECK(hedit_select(&editor, TEXT_OF_PAGE, 2, 0, TEXT_OF_PAGE, 2, 2) == HEDIT_DONE);
    CHECK(bold(&editor, "italic,BOLD") == HEDIT_NO);
    CHECK(bold(&editor, "bold") == HEDIT_NO);
    for (i = 0; i < sizeof wrong / sizeof wrong[0]; i++)
        CHECK(bold(&editor, wrong[i]) == HEDIT_BAD_ARGUMENT);
    CHECK(hedit_exec_gated(&editor, TEXT("italic"), TEXT("\xff"), TEXT("")) == HEDIT_BAD_ARGUMENT);
    CHECK(hedit_exec_gated(&editor, TEXT("italic"), TEXT("bold"), TEXT("\xff")) ==
          HEDIT_BAD_ARGUMENT);
    CHECK(hedit_undo(&editor) == HEDIT_NO);
    CHECK(bold(&editor, "italic,a,b,c,d,e,f,g,h,i,j,k,l,m,n,o,A") == HEDIT_DONE);
    CHECK(hedit_undo(&editor) == HEDIT_DONE);
    CHECK(bold(&editor, "") == HEDIT_DONE);
    CHECK(hedit_open(&editor, TEXT(PAGE), 3, 9, &refusal) == HEDIT_DONE);
    CHECK(hedit_select(&editor, TEXT_OF_PAGE, 2, 0, TEXT_OF_PAGE, 2, 2) == HEDIT_DONE);
    CHECK(bold(&editor, "italic") == HEDIT_FULL);
    hedit_close(&editor);
    CHECK(bold(&editor, "") == HEDIT_CLOSED);
    CHECK(bold(&editor, ",") == HEDIT_CLOSED);
}

static int are_points(const hedit_selection_facts *facts, uint32_t anchor, uint32_t anchor_offset,
                      uint32_t focus, uint32_t focus_offset) {
    return facts->anchor == anchor && facts->anchor_offset == anchor_offset &&
           facts->focus == focus && facts->focus_offset == focus_offset;
}

static uint32_t mark_in(hedit_editor *editor, const char *name, uint32_t label, uint32_t offset) {
    return hedit_mark_points(editor, (const uint8_t *)name, 1, label, 0, label, offset);
}

static void points(void) {
    static const char marked[] = "anchor 0/0:2\nfocus 0:0\nmark m 0/0:0 0/0:1\n";
    static const char names[] = "abcdefghijklmnop";
    hedit_editor editor = opened(PAGE);
    hedit_selection_facts facts = {7, 7, 7, 7};
    uint32_t p = label_at(&editor, 0, 9, 9), text = label_at(&editor, 0, 0, 9);
    uint8_t buffer[60];
    size_t length, i;
    memset(buffer, '.', sizeof buffer);
    CHECK(hedit_selection(&editor, &facts) == HEDIT_NO && are_points(&facts, 7, 7, 7, 7));
    CHECK(hedit_select_points(&editor, text, 3, text, 0) == HEDIT_BAD_PLACE);
    CHECK(hedit_select_points(&editor, text, 0, text, UINT32_MAX) == HEDIT_BAD_PLACE);
    CHECK(hedit_select_points(&editor, 98, 0, text, 0) == HEDIT_BAD_PLACE);
    CHECK(hedit_select_points(&editor, text, 0, HEDIT_NO_NODE, 0) == HEDIT_BAD_PLACE);
    CHECK(hedit_selection(&editor, &facts) == HEDIT_NO);
    CHECK(hedit_select_points(&editor, text, 2, p, 0) == HEDIT_DONE);
    CHECK(hedit_selection(&editor, &facts) == HEDIT_DONE && are_points(&facts, text, 2, p, 0));
    CHECK(mark_in(&editor, "m", text, 3) == HEDIT_BAD_PLACE);
    CHECK(mark_in(&editor, "m", HEDIT_NO_NODE, 0) == HEDIT_BAD_PLACE);
    CHECK(mark_in(&editor, "m", text, 1) == HEDIT_DONE);
    CHECK(hedit_view(&editor, HEDIT_POINTS, buffer, sizeof buffer, &length) == HEDIT_DONE);
    CHECK(length == strlen(marked) && holds(buffer, sizeof buffer, marked));
    for (i = 0; i < 16; i++)
        CHECK(mark_in(&editor, names + i, 0, 1) == HEDIT_DONE);
    CHECK(mark_in(&editor, "x", 0, 1) == HEDIT_TOO_MANY_MARKS);
    CHECK(mark_in(&editor, "m", text, 2) == HEDIT_DONE);
    CHECK(hedit_unselect(&editor) == HEDIT_DONE);
    CHECK(hedit_selection(&editor, &facts) == HEDIT_NO && are_points(&facts, text, 2, p, 0));
    hedit_close(&editor);
}

/* The selection, in a buffer of exactly the size of its HTML. */
static void selected(void) {
    static const char html[] = "<i>\xc3\xa9</i>b";
    hedit_editor editor = opened(NODES);
    uint8_t buffer[20];
    size_t length = 7;
    memset(buffer, '.', sizeof buffer);
    CHECK(hedit_selection_html(&editor, buffer, sizeof buffer, &length) == HEDIT_NO);
    CHECK(hedit_selection_text(&editor, buffer, sizeof buffer, &length) == HEDIT_NO);
    CHECK(holds(buffer, sizeof buffer, ""));
    CHECK(hedit_select_points(&editor, label_at(&editor, 1, 1, 9), 1, label_at(&editor, 1, 0, 9),
                              1) == HEDIT_DONE);
    CHECK(hedit_selection_text(&editor, buffer, 0, &length) == HEDIT_TOO_SMALL && length == 1);
    CHECK(hedit_selection_text(&editor, buffer, 1, &length) == HEDIT_DONE && length == 1);
    CHECK(holds(buffer, sizeof buffer, "b"));
    hedit_close(&editor);
    editor = opened("<p><i>\xc3\xa9</i>b</p>");
    CHECK(hedit_select_points(&editor, label_at(&editor, 0, 9, 9), 0, label_at(&editor, 0, 1, 9),
                              1) == HEDIT_DONE);
    CHECK(hedit_selection_html(&editor, buffer, sizeof html - 2, &length) == HEDIT_TOO_SMALL);
    CHECK(hedit_selection_html(&editor, buffer, sizeof html - 1, &length) == HEDIT_DONE);
    CHECK(length == sizeof html - 1 && holds(buffer, sizeof buffer, html));
    hedit_close(&editor);
    CHECK(hedit_selection_html(&editor, buffer, sizeof buffer, &length) == HEDIT_CLOSED);
    CHECK(hedit_selection_text(&editor, buffer, sizeof buffer, &length) == HEDIT_CLOSED);
}

/* The texts that a node has, and the name that a mark has at a place. */
enum text { NAME, VALUE, HTML, PLAIN, ATTRIBUTE_NAME, ATTRIBUTE_VALUE, MARK };

static uint32_t text_of(hedit_editor *editor, enum text text, uint32_t label, size_t place,
                        uint8_t *buffer, size_t capacity, size_t *length) {
    switch (text) {
    case NAME: return hedit_node_name(editor, label, buffer, capacity, length);
    case VALUE: return hedit_node_value(editor, label, buffer, capacity, length);
    case HTML: return hedit_node_html(editor, label, buffer, capacity, length);
    case PLAIN: return hedit_node_text(editor, label, buffer, capacity, length);
    case ATTRIBUTE_NAME:
        return hedit_attribute_name(editor, label, place, buffer, capacity, length);
    case MARK: return hedit_mark_name(editor, place, buffer, capacity, length);
    default: return hedit_attribute_value(editor, label, place, buffer, capacity, length);
    }
}

/* Whether a node has a text. The text is complete if the buffer is exactly large enough, and nothing
 * is written if it is smaller. */
static int has(hedit_editor *editor, enum text text, uint32_t label, size_t place,
               const char *wanted) {
    uint8_t buffer[20];
    size_t room = strlen(wanted), length = 0;
    memset(buffer, '.', sizeof buffer);
    if (room > 0 &&
        (text_of(editor, text, label, place, buffer, room - 1, &length) != HEDIT_TOO_SMALL ||
         length != room || !holds(buffer, sizeof buffer, "")))
        return 0;
    return text_of(editor, text, label, place, buffer, room, &length) == HEDIT_DONE &&
           length == room && holds(buffer, sizeof buffer, wanted);
}

/* Whether a call for a text ends with another status, and with the buffer as it was. */
static int refuses(hedit_editor *editor, enum text text, uint32_t label, size_t place,
                   uint32_t status) {
    uint8_t buffer[20];
    size_t length = 0;
    memset(buffer, '.', sizeof buffer);
    return text_of(editor, text, label, place, buffer, sizeof buffer, &length) == status &&
           holds(buffer, sizeof buffer, "");
}

static void texts(void) {
    hedit_editor editor = opened(NODES);
    uint32_t comment = label_at(&editor, 0, 9, 9), i = label_at(&editor, 1, 0, 9),
             text = label_at(&editor, 1, 0, 0);
    int each;
    CHECK(has(&editor, NAME, i, 0, "i") && has(&editor, VALUE, i, 0, ""));
    CHECK(has(&editor, NAME, text, 0, "") && has(&editor, VALUE, text, 0, "\xc3\xa9"));
    CHECK(has(&editor, NAME, comment, 0, "") && has(&editor, VALUE, comment, 0, "n"));
    CHECK(has(&editor, NAME, 0, 0, "") && has(&editor, VALUE, 0, 0, ""));
    CHECK(has(&editor, HTML, comment, 0, "<!--n-->") && has(&editor, PLAIN, comment, 0, ""));
    CHECK(has(&editor, HTML, text, 0, "\xc3\xa9") && has(&editor, PLAIN, i, 0, "\xc3\xa9"));
    CHECK(has(&editor, PLAIN, 0, 0,
              "\xc3\xa9"
              "b"));
    CHECK(has(&editor, ATTRIBUTE_NAME, i, 0, "class"));
    CHECK(has(&editor, ATTRIBUTE_VALUE, i, 0, "x&y"));
    CHECK(has(&editor, ATTRIBUTE_NAME, i, 1, "lang") && has(&editor, ATTRIBUTE_VALUE, i, 1, ""));
    for (each = ATTRIBUTE_NAME; each <= ATTRIBUTE_VALUE; each++) {
        CHECK(refuses(&editor, (enum text)each, i, 2, HEDIT_NO));
        CHECK(refuses(&editor, (enum text)each, i, (size_t)-1, HEDIT_NO));
        CHECK(refuses(&editor, (enum text)each, text, 0, HEDIT_NO));
        CHECK(refuses(&editor, (enum text)each, 0, 0, HEDIT_NO));
    }
    for (each = NAME; each <= ATTRIBUTE_VALUE; each++)
        CHECK(refuses(&editor, (enum text)each, 98, 0, HEDIT_BAD_PLACE) &&
              refuses(&editor, (enum text)each, HEDIT_NO_NODE, 0, HEDIT_BAD_PLACE));
    hedit_close(&editor);
    for (each = NAME; each <= ATTRIBUTE_VALUE; each++)
        CHECK(refuses(&editor, (enum text)each, 0, 0, HEDIT_CLOSED));
}

/* Walks a node and what is below it: the links that its neighbours have lead to each other. Gives
 * the number of nodes. */
static uint32_t walk(hedit_editor *editor, uint32_t label, uint32_t parent, uint32_t previous,
                     uint32_t next) {
    hedit_node_facts facts, child;
    uint32_t nodes = 1, children = 0, at, before = HEDIT_NO_NODE;
    CHECK(hedit_node(editor, label, &facts) == HEDIT_DONE);
    CHECK(facts.parent == parent && facts.previous == previous && facts.next == next);
    for (at = facts.first_child; at != HEDIT_NO_NODE; at = child.next) {
        CHECK(hedit_node(editor, at, &child) == HEDIT_DONE);
        nodes += walk(editor, at, label, before, child.next);
        before = at;
        children++;
    }
    CHECK(facts.last_child == before);
    if (facts.kind == HEDIT_ELEMENT || facts.kind == HEDIT_DOCUMENT)
        CHECK(facts.length == children);
    else
        CHECK(children == 0);
    return nodes;
}

static int is_node(hedit_editor *editor, uint32_t label, uint32_t kind, uint32_t length) {
    hedit_node_facts facts;
    return hedit_node(editor, label, &facts) == HEDIT_DONE && facts.kind == kind &&
           facts.length == length;
}

/* The paths of nodes, in buffers of exactly their size, and in smaller ones. */
static void paths(hedit_editor *editor) {
    uint32_t path[3] = {7, 7, 7};
    size_t length = 7;
    CHECK(hedit_path_of(editor, 0, path, 0, &length) == HEDIT_DONE && length == 0);
    CHECK(hedit_path_of(editor, label_at(editor, 1, 0, 0), path, 2, &length) == HEDIT_TOO_SMALL);
    CHECK(length == 3 && path[0] == 7 && path[1] == 7 && path[2] == 7);
    CHECK(hedit_path_of(editor, label_at(editor, 1, 0, 0), path, 3, &length) == HEDIT_DONE);
    CHECK(length == 3 && path[0] == 1 && path[1] == 0 && path[2] == 0);
    CHECK(hedit_path_of(editor, label_at(editor, 0, 9, 9), path, 3, &length) == HEDIT_DONE);
    CHECK(length == 1 && path[0] == 0 && path[1] == 0);
    CHECK(hedit_path_of(editor, 98, path, 3, &length) == HEDIT_BAD_PLACE);
    CHECK(hedit_path_of(editor, HEDIT_NO_NODE, path, 3, &length) == HEDIT_BAD_PLACE);
}

static int is_point(hedit_point point, uint32_t label, uint32_t offset) {
    return point.label == label && point.offset == offset;
}

static void searches(void) {
    hedit_editor editor = opened("<p>aaaa<b>aa</b></p>");
    uint32_t first = label_at(&editor, 0, 0, 9), second = label_at(&editor, 0, 1, 0);
    hedit_point points[4] = {{7, 7}, {7, 7}, {7, 7}, {7, 7}};
    size_t count = 0;
    CHECK(hedit_find(&editor, 0, TEXT("aa"), points, 2, &count) == HEDIT_TOO_SMALL);
    CHECK(count == 3 && is_point(points[0], 7, 7) && is_point(points[1], 7, 7));
    CHECK(hedit_find(&editor, 0, TEXT("aa"), points, 4, &count) == HEDIT_DONE && count == 3);
    CHECK(is_point(points[0], first, 0) && is_point(points[1], first, 2));
    CHECK(is_point(points[2], second, 0) && is_point(points[3], 7, 7));
    CHECK(hedit_find(&editor, second, TEXT("a"), points, 4, &count) == HEDIT_DONE && count == 2);
    CHECK(is_point(points[0], second, 0) && is_point(points[1], second, 1));
    CHECK(hedit_find(&editor, 0, TEXT("aaaaa"), points, 4, &count) == HEDIT_DONE && count == 0);
    CHECK(hedit_find(&editor, 0, TEXT(""), points, 4, &count) == HEDIT_DONE && count == 0);
    CHECK(hedit_find(&editor, 0, TEXT("\xff"), points, 4, &count) == HEDIT_BAD_ARGUMENT);
    CHECK(hedit_find(&editor, 98, TEXT("a"), points, 4, &count) == HEDIT_BAD_PLACE);
    hedit_close(&editor);
    CHECK(hedit_find(&editor, 0, TEXT("a"), points, 4, &count) == HEDIT_CLOSED);
}

static void nodes(void) {
    static const hedit_node_facts before = {7, 7, 7, 7, 7, 7, 7};
    hedit_editor editor = opened(NODES);
    hedit_node_facts facts = before;
    hedit_number_facts numbers;
    uint32_t label = 7;
    CHECK(label_at(&editor, 9, 9, 9) == 0);
    CHECK(is_node(&editor, 0, HEDIT_DOCUMENT, 2));
    CHECK(is_node(&editor, label_at(&editor, 0, 9, 9), HEDIT_COMMENT, 1));
    CHECK(is_node(&editor, label_at(&editor, 1, 9, 9), HEDIT_ELEMENT, 2));
    CHECK(is_node(&editor, label_at(&editor, 1, 0, 0), HEDIT_TEXT, 1));
    CHECK(hedit_numbers(&editor, &numbers) == HEDIT_DONE);
    CHECK(walk(&editor, 0, HEDIT_NO_NODE, HEDIT_NO_NODE, HEDIT_NO_NODE) == numbers.nodes);
    CHECK(hedit_node(&editor, numbers.next_label, &facts) == HEDIT_BAD_PLACE);
    CHECK(hedit_node(&editor, HEDIT_NO_NODE, &facts) == HEDIT_BAD_PLACE);
    CHECK(hedit_label_at(&editor, NOWHERE, 1, &label) == HEDIT_BAD_PLACE && label == 7);
    paths(&editor);
    hedit_close(&editor);
    CHECK(hedit_node(&editor, 0, &facts) == HEDIT_CLOSED);
    CHECK(memcmp(&facts, &before, sizeof facts) == 0);
    CHECK(hedit_label_at(&editor, NOWHERE, 0, &label) == HEDIT_CLOSED && label == 7);
}

/* Whether there are so many nodes, edits and steps, and the numbers are those of the page. */
static int counts(hedit_editor *editor, uint32_t nodes, int edits, size_t undo, size_t redo) {
    hedit_number_facts facts;
    return hedit_numbers(editor, &facts) == HEDIT_DONE && facts.nodes == nodes &&
           facts.chars == 2 && (facts.edits > 0) == edits && facts.undo == undo &&
           facts.redo == redo;
}

/* A label stays with its node when the text is put into a new element, taken out of it, and put
 * back again. */
static void labels(void) {
    hedit_editor editor = opened(PAGE);
    hedit_selection_facts facts;
    hedit_node_facts node;
    hedit_number_facts numbers;
    uint32_t p = label_at(&editor, 0, 9, 9), text = label_at(&editor, 0, 0, 9), b;
    CHECK(hedit_numbers(&editor, &numbers) == HEDIT_DONE && numbers.next_label == 3);
    CHECK(counts(&editor, 3, 0, 0, 0));
    CHECK(hedit_select_points(&editor, text, 0, text, 2) == HEDIT_DONE);
    CHECK(bold(&editor, "") == HEDIT_DONE);
    b = label_at(&editor, 0, 0, 9);
    CHECK(has(&editor, NAME, b, 0, "b") && b >= numbers.next_label);
    CHECK(label_at(&editor, 0, 0, 0) == text && label_at(&editor, 0, 9, 9) == p);
    CHECK(hedit_node(&editor, text, &node) == HEDIT_DONE && node.parent == b);
    CHECK(hedit_selection(&editor, &facts) == HEDIT_DONE && are_points(&facts, text, 0, text, 2));
    CHECK(counts(&editor, 4, 1, 1, 0));
    CHECK(hedit_undo(&editor) == HEDIT_DONE);
    CHECK(hedit_node(&editor, text, &node) == HEDIT_DONE && node.parent == p);
    CHECK(hedit_node(&editor, b, &node) == HEDIT_BAD_PLACE);
    CHECK(hedit_select_points(&editor, text, 0, b, 0) == HEDIT_BAD_PLACE);
    CHECK(counts(&editor, 3, 0, 0, 1));
    CHECK(hedit_redo(&editor) == HEDIT_DONE);
    CHECK(label_at(&editor, 0, 0, 9) == b && label_at(&editor, 0, 0, 0) == text);
    CHECK(has(&editor, NAME, b, 0, "b"));
    CHECK(walk(&editor, 0, HEDIT_NO_NODE, HEDIT_NO_NODE, HEDIT_NO_NODE) == 4);
    hedit_close(&editor);
    CHECK(hedit_selection(&editor, &facts) == HEDIT_CLOSED && are_points(&facts, text, 0, text, 2));
    CHECK(hedit_numbers(&editor, &numbers) == HEDIT_CLOSED);
    CHECK(hedit_select_points(&editor, 0, 0, 0, 0) == HEDIT_CLOSED);
    CHECK(mark_in(&editor, "m", 0, 0) == HEDIT_CLOSED);
}

/* Whether the mark at a place has this name, and goes from one point of a text to another. */
static int is_mark(hedit_editor *editor, size_t place, const char *name, uint32_t label,
                   uint32_t anchor_offset, uint32_t focus_offset) {
    hedit_selection_facts facts;
    return has(editor, MARK, 0, place, name) &&
           hedit_mark_range(editor, place, &facts) == HEDIT_DONE &&
           are_points(&facts, label, anchor_offset, label, focus_offset);
}

static void marks(void) {
    hedit_editor editor = opened(PAGE);
    hedit_selection_facts facts = {7, 7, 7, 7};
    uint32_t text = label_at(&editor, 0, 0, 9);
    CHECK(refuses(&editor, MARK, 0, 0, HEDIT_NO));
    CHECK(hedit_mark_range(&editor, 0, &facts) == HEDIT_NO && are_points(&facts, 7, 7, 7, 7));
    CHECK(hedit_mark_points(&editor, TEXT("first"), text, 2, text, 1) == HEDIT_DONE);
    CHECK(hedit_mark_points(&editor, TEXT("\xff"), text, 0, text, 0) == HEDIT_DONE);
    CHECK(is_mark(&editor, 0, "first", text, 2, 1) && is_mark(&editor, 1, "\xff", text, 0, 0));
    CHECK(hedit_mark_points(&editor, TEXT("first"), text, 0, text, 1) == HEDIT_DONE);
    CHECK(is_mark(&editor, 0, "first", text, 0, 1));
    CHECK(hedit_replace(&editor, text, 0, text, 0, TEXT("xy")) == HEDIT_DONE);
    CHECK(is_mark(&editor, 0, "first", text, 0, 3) && is_mark(&editor, 1, "\xff", text, 0, 0));
    CHECK(hedit_mark_points(&editor, TEXT(""), text, 1, text, 2) == HEDIT_DONE);
    CHECK(is_mark(&editor, 2, "", text, 1, 2) && refuses(&editor, MARK, 0, 3, HEDIT_NO));
    CHECK(hedit_unmark(&editor, TEXT("first")) == HEDIT_DONE);
    CHECK(is_mark(&editor, 0, "\xff", text, 0, 0) && is_mark(&editor, 1, "", text, 1, 2));
    CHECK(refuses(&editor, MARK, 0, SIZE_MAX, HEDIT_NO));
    CHECK(hedit_mark_range(&editor, 2, &facts) == HEDIT_NO && are_points(&facts, 7, 7, 7, 7));
    hedit_close(&editor);
    CHECK(refuses(&editor, MARK, 0, 0, HEDIT_CLOSED));
    CHECK(hedit_mark_range(&editor, 0, &facts) == HEDIT_CLOSED && are_points(&facts, 7, 7, 7, 7));
}

/* Packs words as changes are packed: a number, "-" for HEDIT_NO_NODE, and a text in quotes. */
static size_t pack(const char *words, uint8_t *bytes) {
    size_t length = 0;
    while (*words != '\0') {
        int is_text = *words == '\'', i;
        const char *end = is_text ? strchr(words + 1, '\'') + 1 : words + strcspn(words, " ");
        size_t quoted = is_text ? (size_t)(end - words) - 2 : 0;
        uint64_t number = *words == '-' ? HEDIT_NO_NODE : strtoul(words, NULL, 10);
        number = is_text ? quoted : number;
        for (i = 0; i < 8; i++)
            bytes[length++] = (uint8_t)(number >> 8 * i);
        memcpy(bytes + length, words + 1, quoted);
        length += quoted;
        words = end + (*end == ' ');
    }
    return length;
}

/* Whether the page was changed so often, and each query returns these changes: complete if the buffer
 * is exactly large enough, and none if it is smaller. */
static int tells(hedit_editor *editor, uint64_t wanted_revision, const char *words) {
    uint8_t wanted[400], buffer[401];
    size_t room = pack(words, wanted), length = 7;
    uint64_t revision = wanted_revision + 1;
    memset(buffer, '.', sizeof buffer);
    if (hedit_revision(editor, &revision) != HEDIT_DONE || revision != wanted_revision)
        return 0;
    if (room > 0 && (hedit_changes(editor, buffer, room - 1, &length) != HEDIT_TOO_SMALL ||
                     length != room || !holds(buffer, sizeof buffer, "")))
        return 0;
    return hedit_changes(editor, buffer, room, &length) == HEDIT_DONE && length == room &&
           memcmp(buffer, wanted, room) == 0 && buffer[room] == '.';
}

static void select_text(hedit_editor *editor, uint32_t anchor, uint32_t anchor_offset,
                        uint32_t focus, uint32_t focus_offset) {
    CHECK(hedit_select_points(editor, anchor, anchor_offset, focus, focus_offset) == HEDIT_DONE);
}

static uint32_t exec(hedit_editor *editor, const char *name, const char *value) {
    return hedit_exec(editor, (const uint8_t *)name, strlen(name), (const uint8_t *)value,
                      strlen(value));
}

/* A call that changes nothing reports the changes before it. */
static void revisions(void) {
    static const char came[] = "2 1 2 1 0 3 1 'b' 0 3 2 3 -", went[] = "3 2 1 - 1 3";
    hedit_editor editor = opened(PAGE);
    hedit_refusal refusal;
    uint8_t buffer[2] = {'.', '.'};
    uint64_t revision = 7;
    size_t length = 7;
    select_text(&editor, 2, 0, 2, 2);
    CHECK(mark_in(&editor, "m", 2, 1) == HEDIT_DONE);
    CHECK(bold(&editor, "bold") == HEDIT_NO && bold(&editor, ",") == HEDIT_BAD_ARGUMENT);
    CHECK(exec(&editor, "createLink", "") == HEDIT_NO);
    CHECK(hedit_undo(&editor) == HEDIT_NO && tells(&editor, 0, ""));
    CHECK(bold(&editor, "") == HEDIT_DONE && tells(&editor, 1, came));
    CHECK(hedit_redo(&editor) == HEDIT_NO && tells(&editor, 1, came));
    CHECK(hedit_undo(&editor) == HEDIT_DONE && tells(&editor, 2, went));
    CHECK(hedit_undo(&editor) == HEDIT_NO && tells(&editor, 2, went));
    CHECK(hedit_redo(&editor) == HEDIT_DONE && tells(&editor, 3, came));
    CHECK(exec(&editor, "styleWithCSS", "true") == HEDIT_DONE);
    select_text(&editor, 2, 1, 2, 1);
    CHECK(exec(&editor, "insertText", "") == HEDIT_DONE && tells(&editor, 3, came));
    CHECK(hedit_open(&editor, TEXT(PAGE), 99, 9, &refusal) == HEDIT_DONE && tells(&editor, 0, ""));
    hedit_close(&editor);
    CHECK(hedit_revision(&editor, &revision) == HEDIT_CLOSED && revision == 7);
    CHECK(hedit_changes(&editor, buffer, 2, &length) == HEDIT_CLOSED && length == 7);
    CHECK(buffer[0] == '.' && buffer[1] == '.');
}

static void changes(void) {
    hedit_editor editor = opened("<p contenteditable>a<b lang><!--n-->\xc3\xa9</b>c</p>");
    CHECK(label_at(&editor, 0, 0, 9) == 2 && label_at(&editor, 0, 1, 1) == 5);
    select_text(&editor, 2, 0, 6, 1);
    CHECK(exec(&editor, "delete", "") == HEDIT_DONE);
    CHECK(tells(&editor, 1, "1 2 1 3 1 6 2 1 - 1 0 7 1 'br' 0"));
    CHECK(hedit_undo(&editor) == HEDIT_DONE);
    CHECK(tells(&editor, 2,
                "1 7 2 1 - 1 0 6 3 'c' 2 1 6 3 0 3 1 'b' 1 'lang' '' 1 4 8 'n' 1 5 3 '\xc3\xa9' "
                "2 1 3 1 0 2 3 'a'"));
    hedit_close(&editor);
    editor = opened("<p contenteditable>\xc3\xa9</p>");
    select_text(&editor, 2, 1, 2, 1);
    CHECK(exec(&editor, "insertText", "\xf0\x9f\x98\x80") == HEDIT_DONE);
    CHECK(tells(&editor, 1, "4 2 1 0 '\xf0\x9f\x98\x80'"));
    CHECK(exec(&editor, "insertText", "ab") == HEDIT_DONE);
    CHECK(tells(&editor, 2, "4 2 2 0 'a' 4 2 3 0 'b'"));
    CHECK(hedit_undo(&editor) == HEDIT_DONE);
    CHECK(tells(&editor, 3, "4 2 3 1 '' 4 2 2 1 '' 4 2 1 1 ''"));
    select_text(&editor, 2, 1, 2, 1);
    CHECK(exec(&editor, "insertParagraph", "") == HEDIT_DONE);
    CHECK(tells(&editor, 4,
                "2 1 2 1 0 3 1 'div' 0 3 2 3 - 2 1 - 1 0 4 1 'div' 0 2 4 - 1 0 5 1 'br' 0"));
    CHECK(exec(&editor, "styleWithCSS", "true") == HEDIT_DONE);
    select_text(&editor, 2, 0, 2, 1);
    CHECK(exec(&editor, "foreColor", "red") == HEDIT_DONE);
    CHECK(tells(&editor, 5, "2 3 2 1 0 6 1 'span' 0 5 6 1 'style' 'color: red;' 3 2 6 -"));
    hedit_close(&editor);
}

/* How many steps undo would take. */
static size_t undo_steps(hedit_editor *editor) {
    hedit_number_facts numbers;
    CHECK(hedit_numbers(editor, &numbers) == HEDIT_DONE);
    return numbers.undo;
}

/* What went is kept as long as a step of the history needs it. */
static void kept(void) {
    hedit_editor editor = opened(PAGE);
    hedit_refusal refusal;
    CHECK(hedit_is_kept(&editor, 0) == HEDIT_DONE && hedit_is_kept(&editor, 2) == HEDIT_DONE);
    CHECK(hedit_is_kept(&editor, 3) == HEDIT_NO &&
          hedit_is_kept(&editor, HEDIT_NO_NODE) == HEDIT_NO);
    select_text(&editor, 2, 0, 2, 2);
    CHECK(bold(&editor, "") == HEDIT_DONE && hedit_is_kept(&editor, 3) == HEDIT_DONE);
    CHECK(hedit_undo(&editor) == HEDIT_DONE && tells(&editor, 2, "3 2 1 - 1 3"));
    CHECK(hedit_is_kept(&editor, 3) == HEDIT_DONE);
    CHECK(exec(&editor, "styleWithCSS", "true") == HEDIT_DONE);
    CHECK(exec(&editor, "createLink", "") == HEDIT_NO && hedit_is_kept(&editor, 3) == HEDIT_DONE);
    CHECK(exec(&editor, "insertText", "c") == HEDIT_DONE && hedit_is_kept(&editor, 3) == HEDIT_NO);
    CHECK(hedit_redo(&editor) == HEDIT_NO && hedit_is_kept(&editor, 2) == HEDIT_DONE);
    CHECK(hedit_open(&editor, TEXT(PAGE), 99, 1, &refusal) == HEDIT_DONE);
    select_text(&editor, 2, 0, 2, 2);
    CHECK(exec(&editor, "delete", "") == HEDIT_DONE &&
          tells(&editor, 1, "1 2 2 1 - 1 0 3 1 'br' 0"));
    CHECK(hedit_is_kept(&editor, 2) == HEDIT_DONE);
    CHECK(exec(&editor, "insertText", "c") == HEDIT_DONE && undo_steps(&editor) == 1);
    CHECK(hedit_is_kept(&editor, 2) == HEDIT_NO && hedit_is_kept(&editor, 3) == HEDIT_DONE);
    hedit_close(&editor);
    CHECK(hedit_is_kept(&editor, 2) == HEDIT_CLOSED);
}

static uint32_t joined(hedit_editor *editor, const char *name, const char *value) {
    return hedit_exec_joined(editor, (const uint8_t *)name, strlen(name), (const uint8_t *)value,
                             strlen(value));
}

static void steps(void) {
    hedit_editor editor = opened(PAGE);
    uint32_t text = label_at(&editor, 0, 0, 9);
    CHECK(joined(&editor, "bold", "") == HEDIT_NO && undo_steps(&editor) == 0);
    CHECK(hedit_select_points(&editor, text, 0, text, 2) == HEDIT_DONE);
    CHECK(hedit_exec(&editor, TEXT("bold"), TEXT("")) == HEDIT_DONE);
    CHECK(joined(&editor, "italic", "") == HEDIT_DONE && undo_steps(&editor) == 1);
    CHECK(joined(&editor, "createLink", "") == HEDIT_NO);
    CHECK(joined(&editor, "\xff", "") == HEDIT_BAD_ARGUMENT);
    CHECK(joined(&editor, "underline", "") == HEDIT_DONE && undo_steps(&editor) == 1);
    CHECK(hedit_undo(&editor) == HEDIT_DONE && counts(&editor, 3, 0, 0, 1));
    CHECK(hedit_redo(&editor) == HEDIT_DONE && counts(&editor, 6, 1, 1, 0));
    CHECK(joined(&editor, "strikethrough", "") == HEDIT_DONE && undo_steps(&editor) == 2);
    CHECK(hedit_select_points(&editor, text, 2, text, 2) == HEDIT_DONE);
    CHECK(joined(&editor, "insertText", "c") == HEDIT_DONE && undo_steps(&editor) == 3);
    hedit_close(&editor);
    CHECK(joined(&editor, "bold", "") == HEDIT_CLOSED);
}

static uint32_t with(hedit_editor *editor, hedit_exec_options options, const char *denied,
                     const char *name, const char *value) {
    return hedit_exec_with(editor, &options, (const uint8_t *)denied, strlen(denied),
                           (const uint8_t *)name, strlen(name), (const uint8_t *)value,
                           strlen(value));
}

static void options(void) {
    hedit_editor editor = opened(PAGE);
    uint32_t text = label_at(&editor, 0, 0, 9);
    hedit_exec_options range = {0, 1, text, 0, text, 1};
    hedit_exec_options joined_range = {1, 1, text, 1, text, 2};
    hedit_exec_options past_the_end = {0, 1, text, 0, text, 3};
    hedit_exec_options none = {0, 0, 98, 9, 98, 9};
    hedit_selection_facts facts;
    CHECK(with(&editor, none, "", "bold", "") == HEDIT_NO);
    CHECK(with(&editor, past_the_end, "", "bold", "") == HEDIT_BAD_PLACE);
    CHECK(with(&editor, past_the_end, "", "nonsense", "") == HEDIT_BAD_PLACE);
    CHECK(with(&editor, past_the_end, "bold", "bold", "") == HEDIT_NO);
    CHECK(with(&editor, range, "italic,Bold", "bold", "") == HEDIT_NO);
    CHECK(with(&editor, range, ",", "bold", "") == HEDIT_BAD_ARGUMENT);
    CHECK(with(&editor, range, "", "\xff", "") == HEDIT_BAD_ARGUMENT);
    CHECK(with(&editor, range, "", "nonsense", "") == HEDIT_NO);
    CHECK(hedit_selection(&editor, &facts) == HEDIT_NO && undo_steps(&editor) == 0);
    CHECK(with(&editor, range, "italic", "bold", "") == HEDIT_DONE && undo_steps(&editor) == 1);
    CHECK(hedit_selection(&editor, &facts) == HEDIT_DONE);
    text = label_at(&editor, 0, 1, 9);
    joined_range.anchor = joined_range.focus = text;
    joined_range.anchor_offset = 0;
    joined_range.focus_offset = 1;
    CHECK(with(&editor, joined_range, "", "italic", "") == HEDIT_DONE && undo_steps(&editor) == 1);
    CHECK(hedit_undo(&editor) == HEDIT_DONE && counts(&editor, 3, 0, 0, 1));
    hedit_close(&editor);
    CHECK(with(&editor, range, "", "bold", "") == HEDIT_CLOSED);
}

static void replacements(void) {
    hedit_editor editor = opened(PAGE);
    uint32_t text = label_at(&editor, 0, 0, 9);
    hedit_selection_facts facts;
    CHECK(hedit_replace(&editor, text, 0, text, 3, TEXT("x")) == HEDIT_BAD_PLACE);
    CHECK(hedit_replace(&editor, 98, 0, text, 1, TEXT("x")) == HEDIT_BAD_PLACE);
    CHECK(hedit_replace(&editor, text, 0, text, 1, TEXT("\xff")) == HEDIT_BAD_ARGUMENT);
    CHECK(hedit_replace(&editor, 0, 0, 0, 0, TEXT("x")) == HEDIT_NO);
    CHECK(hedit_selection(&editor, &facts) == HEDIT_NO && undo_steps(&editor) == 0);
    CHECK(hedit_replace(&editor, text, 1, text, 0, TEXT("x")) == HEDIT_DONE);
    CHECK(undo_steps(&editor) == 1);
    CHECK(hedit_replace(&editor, text, 1, text, 2, TEXT("yz")) == HEDIT_DONE);
    CHECK(hedit_exec(&editor, TEXT("insertText"), TEXT("!")) == HEDIT_DONE);
    CHECK(undo_steps(&editor) == 1);
    CHECK(hedit_selection(&editor, &facts) == HEDIT_DONE && are_points(&facts, text, 4, text, 4));
    CHECK(hedit_undo(&editor) == HEDIT_DONE && counts(&editor, 3, 0, 0, 1));
    CHECK(hedit_selection(&editor, &facts) == HEDIT_NO);
    hedit_close(&editor);
    CHECK(hedit_replace(&editor, text, 0, text, 1, TEXT("x")) == HEDIT_CLOSED);
}

int main(void) {
    versions();
    sessions();
    words("check", "<p>x</p>", HEDIT_DONE, "page ok nodes 3 chars 1\n");
    words("run\n--cap=2\n", SESSION, HEDIT_PAGE_REFUSED, "! page 3 full\n");
    words("run\n--cap\n\xff", SESSION, HEDIT_USAGE, "");
    words("", SESSION, HEDIT_USAGE, "");
    edits();
    mistakes();
    gates();
    steps();
    options();
    replacements();
    points();
    selected();
    texts();
    searches();
    nodes();
    labels();
    marks();
    revisions();
    changes();
    kept();
    if (!failed)
        puts("hedit.h: each call answers as it should");
    return failed;
}
