/* Runs packed sessions through the library: sessions < PACKED. One process runs them all, since a process
 * takes long to begin where a system is emulated. pack-sessions writes them. */
#include "hedit.h"

#include <stdio.h>
#include <stdlib.h>
#include <string.h>
#ifdef _WIN32
#include <fcntl.h>
#include <io.h>
#endif

/* The words, the input, the reply, and what the library replies. */
enum { WORDS, INPUT, REPLY, GOT, PARTS };

enum { ROOM = 64 << 20 };

static uint8_t *part[PARTS];
static size_t length[PARTS];

/* Reads a number of four bytes, the lowest first; zero where there is none. */
static int read_number(size_t *number) {
    uint8_t bytes[4];
    if (fread(bytes, 1, 4, stdin) != 4)
        return 0;
    *number = bytes[0] | (size_t)bytes[1] << 8 | (size_t)bytes[2] << 16 | (size_t)bytes[3] << 24;
    return 1;
}

static int read_part(int which) {
    return read_number(&length[which]) && length[which] <= ROOM &&
           fread(part[which], 1, length[which], stdin) == length[which];
}

/* Whether the library answers the session as it is stored. */
static int is_answered(size_t wanted) {
    uint32_t status = hedit_session_with_words(part[WORDS], length[WORDS], part[INPUT],
                                               length[INPUT], part[GOT], ROOM, &length[GOT]);
    if (status != wanted)
        return 0;
    /* Invalid arguments are refused without a reply. */
    size_t written = status == HEDIT_USAGE ? 0 : length[GOT];
    return written == length[REPLY] && memcmp(part[GOT], part[REPLY], written) == 0;
}

int main(void) {
    size_t status, count = 0, wrong = 0;
#ifdef _WIN32
    _setmode(_fileno(stdin), _O_BINARY);
#endif
    for (int which = 0; which < PARTS; which++) {
        part[which] = malloc(ROOM);
        if (!part[which])
            return 5;
    }
    for (; read_number(&status); count++) {
        if (!read_part(WORDS) || !read_part(INPUT) || !read_part(REPLY))
            return 3;
        if (!is_answered(status)) {
            wrong++;
            printf("session %u of the packed ones is answered differently\n", (unsigned)count);
        }
    }
    printf("sessions: %u through the library, %u differ\n", (unsigned)count, (unsigned)wrong);
    return wrong > 0 || count == 0;
}
