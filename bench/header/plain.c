/* The plain declarations, which C89 takes too: paper 01's first case by bytes alone, null pointers with length 0, and leases. */
#include "northbridge.h"

#include <stdio.h>
#include <string.h>

/* The slices in the order of the interface. */
enum { REQUEST, STATE, TABLE, MEMORY, BUFFER, ANSWER, SLICES };

static uint8_t bytes[SLICES][65536];
static const size_t sizes[SLICES] = {
    NORTHBRIDGE_REQUEST_SIZE, NORTHBRIDGE_STATE_SIZE, 4 * NORTHBRIDGE_ENTRY_SIZE, 65536, 12, NORTHBRIDGE_ANSWER_SIZE
};

/* Serves what the request holds; the slices of a set bit are null, with length 0. */
static uint64_t serve(unsigned nulls)
{
    uint8_t *p[SLICES];
    size_t n[SLICES];
    int i;
    for (i = 0; i < SLICES; i++) {
        p[i] = nulls >> i & 1 ? NULL : bytes[i];
        n[i] = nulls >> i & 1 ? 0 : sizes[i];
    }
    return northbridge_serve(p[0], n[0], p[1], n[1], p[2], n[2], p[3], n[3], p[4], n[4], p[5], n[5]);
}

static void ask(unsigned operation, unsigned task)
{
    memset(bytes[REQUEST], 0, sizeof bytes[REQUEST]);
    bytes[REQUEST][8 * NORTHBRIDGE_OPERATION] = (uint8_t)operation;
    bytes[REQUEST][8 * NORTHBRIDGE_TASK] = (uint8_t)task;
}

/* The same with leases of so many bytes; none are null. */
static uint64_t serve_leased(const uint8_t *leases, size_t length)
{
    return northbridge_serve_leased(
        bytes[0], sizes[0], bytes[1], sizes[1], bytes[2], sizes[2], bytes[3], sizes[3], bytes[4], sizes[4], bytes[5], sizes[5], leases,
        length);
}

static int fail(const char *what, unsigned operation, unsigned nulls)
{
    printf("header/plain.c: %s, operation %u, null slices %u\n", what, operation, nulls);
    return 1;
}

int main(void)
{
    static uint8_t before[SLICES][65536];
    static const uint8_t early[8] = {0, 0, 0, 0, 1, 0, 2, 0}, equal[8] = {0, 0, 0, 0, 1, 0, 1, 0};
    const unsigned needed = 1 << REQUEST | 1 << STATE | 1 << TABLE | 1 << MEMORY | 1 << ANSWER;
    unsigned operation, nulls;
    ask(NORTHBRIDGE_RESET, 1);
    if (serve(0) != NORTHBRIDGE_GRANTED) return fail("not granted", 0, 0);
    ask(NORTHBRIDGE_READ, 0);
    if (serve(0) != NORTHBRIDGE_GRANTED) return fail("not granted", 1, 0);
    /* Whatever else is null, a missing part is refused and nothing is written but an answer. */
    for (operation = 0; operation <= 18; operation++) {
        for (nulls = 1; nulls < 1 << SLICES; nulls++) {
            if (!(nulls & needed)) continue;
            ask(operation, 1);
            memcpy(before, bytes, sizeof bytes);
            if (serve(nulls) != NORTHBRIDGE_BAD_REQUEST) return fail("not refusal 1", operation, nulls);
            if (memcmp(before, bytes, ANSWER * sizeof bytes[0])) return fail("bytes changed", operation, nulls);
        }
    }
    /* Without a buffer an access is refused; a load's text has no ending, a dump's no room, and no segment is so short that it could be paged
     * out; the others are served. */
    for (operation = NORTHBRIDGE_READ; operation <= NORTHBRIDGE_FETCH; operation++) {
        ask(operation, 1);
        if (serve(1 << BUFFER) != NORTHBRIDGE_BAD_REQUEST) return fail("not refusal 1", operation, 1 << BUFFER);
    }
    ask(NORTHBRIDGE_LOAD, 1);
    if (serve(1 << BUFFER) != NORTHBRIDGE_MALFORMED) return fail("not refusal 12", NORTHBRIDGE_LOAD, 1 << BUFFER);
    ask(NORTHBRIDGE_DUMP, 1);
    if (serve(1 << BUFFER) != NORTHBRIDGE_NO_ROOM) return fail("not refusal 14", NORTHBRIDGE_DUMP, 1 << BUFFER);
    ask(NORTHBRIDGE_PAGE_OUT, 1);
    if (serve(1 << BUFFER) != NORTHBRIDGE_BOUNDS) return fail("not refusal 8", NORTHBRIDGE_PAGE_OUT, 1 << BUFFER);
    ask(NORTHBRIDGE_PAGE_IN, 1);
    if (serve(1 << BUFFER) != NORTHBRIDGE_KIND) return fail("not refusal 6", NORTHBRIDGE_PAGE_IN, 1 << BUFFER);
    ask(NORTHBRIDGE_LOCK, 1);
    if (serve(1 << BUFFER) != NORTHBRIDGE_GRANTED) return fail("not granted", NORTHBRIDGE_LOCK, 1 << BUFFER);
    /* Leases: none, one of the root's from minute 1 up to minute 2, a bad one, and a part of one. A lock looks at their length alone. */
    for (operation = NORTHBRIDGE_READ; operation <= NORTHBRIDGE_FETCH; operation++) {
        ask(operation, 1);
        if (serve_leased(NULL, 0) != NORTHBRIDGE_GRANTED) return fail("not granted without leases", operation, 0);
        if (serve_leased(early, 8) != NORTHBRIDGE_CLOSED) return fail("not refusal 15", operation, 0);
        if (serve_leased(equal, 8) != NORTHBRIDGE_BAD_LEASE) return fail("not refusal 16", operation, 0);
        if (serve_leased(early, 7) != NORTHBRIDGE_BAD_REQUEST) return fail("not refusal 1", operation, 0);
        bytes[REQUEST][8 * NORTHBRIDGE_SECOND] = 1;
        if (serve_leased(early, 8) != NORTHBRIDGE_GRANTED) return fail("not granted at minute 1", operation, 0);
        bytes[REQUEST][8 * NORTHBRIDGE_SECOND + 7] = 1;
        if (serve_leased(NULL, 0) != NORTHBRIDGE_BAD_REQUEST) return fail("a minute beyond the week", operation, 0);
        if (serve(0) != NORTHBRIDGE_GRANTED) return fail("a minute was looked at", operation, 0);
    }
    ask(NORTHBRIDGE_LOCK, 1);
    if (serve_leased(equal, 8) != NORTHBRIDGE_GRANTED) return fail("not granted", NORTHBRIDGE_LOCK, 0);
    if (serve_leased(equal, 7) != NORTHBRIDGE_BAD_REQUEST) return fail("not refusal 1", NORTHBRIDGE_LOCK, 0);
    return 0;
}
