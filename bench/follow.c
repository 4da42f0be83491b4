/* A program for bench/follow.sh: follow NODES TEXT RUN
 *
 * It opens a page of so many nodes with a text of so many characters in its middle, types as many as
 * RUN says into the middle of that, and then one more by `typed`, of which `asked` asks what it
 * changed. */
#include <hedit.h>

#include <stdio.h>
#include <stdlib.h>
#include <string.h>

static uint8_t changes[1 << 20];

static void want(uint32_t status) {
    if (status != HEDIT_DONE) {
        fprintf(stderr, "follow: %s\n", hedit_status_text(status));
        exit(1);
    }
}

__attribute__((noinline)) void typed(hedit_editor *editor) {
    want(hedit_exec(editor, (const uint8_t *)"insertText", 10, (const uint8_t *)"x", 1));
}

__attribute__((noinline)) size_t asked(hedit_editor *editor) {
    uint64_t revision;
    size_t length;
    want(hedit_revision(editor, &revision));
    want(hedit_changes(editor, changes, sizeof changes, &length));
    return length;
}

static char *append(char *end, const char *words) {
    return (char *)memcpy(end, words, strlen(words)) + strlen(words);
}

/* A page whose paragraphs have two nodes each. */
static char *page_of(long paragraphs, size_t length) {
    char *page = (char *)malloc((size_t)paragraphs * 8 + length + 100);
    if (page == NULL)
        exit(1);
    char *end = append(page, "<div contenteditable=\"true\">");
    for (long i = 0; i <= paragraphs; i++) {
        end = append(end, "<p>");
        if (i == paragraphs / 2)
            end = (char *)memset(end, 'a', length) + length;
        else
            end = append(end, "b");
        end = append(end, "</p>");
    }
    *append(end, "</div>") = '\0';
    return page;
}

int main(int count, char **words) {
    if (count != 4)
        return 2;
    hedit_editor editor = HEDIT_CLOSED_EDITOR;
    hedit_refusal refusal;
    long paragraphs = atol(words[1]) / 2;
    size_t length = (size_t)atol(words[2]);
    char *page = page_of(paragraphs, length);
    const uint32_t path[] = {0, (uint32_t)(paragraphs / 2), 0};
    want(hedit_open(&editor, (const uint8_t *)page, strlen(page), 2000000, 100, &refusal));
    want(hedit_select(&editor, path, 3, (uint32_t)(length / 2), path, 3, (uint32_t)(length / 2)));
    for (long left = atol(words[3]); left > 0; left--)
        want(hedit_exec(&editor, (const uint8_t *)"insertText", 10, (const uint8_t *)"x", 1));
    typed(&editor);
    size_t told = asked(&editor);
    printf("%zu bytes\n", told);
    hedit_close(&editor);
    free(page);
    return 0;
}
