/* The program hedit over the library, for systems on which the proved program doesn't run.
 *
 * It reads standard input to its end, has hedit_session_with_words answer it and writes the answer, with
 * the exit status that the proved program has. This file is tested by the stored sessions, and not
 * proved. */
#include "hedit.h"

#include <stdio.h>
#include <stdlib.h>
#include <string.h>
#ifdef _WIN32
#include <fcntl.h>
#include <io.h>
#endif

enum { MOST_INPUT = 8388608, READ_FAILED = 3, WRITE_FAILED = 4 };

typedef struct text {
    uint8_t *bytes;
    size_t length;
    size_t capacity;
} text;

/* Gives a text the capacity for a number of bytes. Returns zero if memory ran out. */
static int make_room(text *it, size_t capacity) {
    if (capacity <= it->capacity)
        return 1;
    uint8_t *bytes = realloc(it->bytes, capacity);
    if (!bytes)
        return 0;
    it->bytes = bytes;
    it->capacity = capacity;
    return 1;
}

/* Puts the words into a text, a line each. A word that has a line feed is in no grammar. */
static uint32_t put_words(text *words, int count, char **each) {
    for (int at = 1; at < count; at++) {
        size_t length = strlen(each[at]);
        if (memchr(each[at], '\n', length))
            return HEDIT_USAGE;
        if (!make_room(words, words->length + length + 1))
            return HEDIT_MEMORY;
        memcpy(words->bytes + words->length, each[at], length);
        words->bytes[words->length + length] = '\n';
        words->length += length + 1;
    }
    return HEDIT_DONE;
}

/* Reads standard input to its end, or one byte more than a session may have. */
static uint32_t read_input(text *input) {
    while (input->length <= MOST_INPUT) {
        if (!make_room(input, input->length + 65536 + input->length / 2))
            return HEDIT_MEMORY;
        size_t got = fread(input->bytes + input->length, 1, input->capacity - input->length, stdin);
        input->length += got;
        if (got == 0)
            return ferror(stdin) ? READ_FAILED : HEDIT_DONE;
    }
    return HEDIT_DONE;
}

/* Answers a session, in a buffer of the size of the answer. */
static uint32_t answer(const text *words, const text *input, text *output) {
    if (!make_room(output, 65536 + 4 * input->length))
        return HEDIT_MEMORY;
    for (;;) {
        uint32_t status =
            hedit_session_with_words(words->bytes, words->length, input->bytes, input->length,
                                     output->bytes, output->capacity, &output->length);
        if (status != HEDIT_TOO_SMALL)
            return status;
        if (!make_room(output, output->length))
            return HEDIT_MEMORY;
    }
}

/* Whether a status comes with an answer, which is then written. */
static int has_answer(uint32_t status) {
    return status == HEDIT_DONE || status == HEDIT_PAGE_REFUSED || status == HEDIT_STEP_REFUSED;
}

static int write_answer(const text *output) {
    return fwrite(output->bytes, 1, output->length, stdout) == output->length &&
           fflush(stdout) == 0;
}

static uint32_t run(int count, char **each, text *words, text *input, text *output) {
    /* The library takes no null pointer. */
    if (!make_room(words, 1) || !make_room(input, 1))
        return HEDIT_MEMORY;
    uint32_t status = put_words(words, count, each);
    if (status != HEDIT_DONE)
        return status;
    /* Words outside the grammar are refused before anything is read, and "bulk" reads nothing. */
    status = answer(words, input, output);
    if (status == HEDIT_USAGE || status == HEDIT_MEMORY)
        return status;
    if (count > 1 && strcmp(each[1], "bulk") == 0)
        return status;
    status = read_input(input);
    return status == HEDIT_DONE ? answer(words, input, output) : status;
}

int main(int count, char **each) {
    text words = {NULL, 0, 0}, input = {NULL, 0, 0}, output = {NULL, 0, 0};
#ifdef _WIN32
    _setmode(_fileno(stdin), _O_BINARY);
    _setmode(_fileno(stdout), _O_BINARY);
#endif
    uint32_t status = run(count, each, &words, &input, &output);
    if (has_answer(status) && !write_answer(&output))
        status = WRITE_FAILED;
    free(words.bytes);
    free(input.bytes);
    free(output.bytes);
    return (int)status;
}
