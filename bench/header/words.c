/* Which words each inline function asks with, what it lends, and how it reads an answer: here stand other functions of the library. */
#include "northbridge.h"

#include <stdio.h>
#include <string.h>

enum { WORDS = NORTHBRIDGE_REQUEST_SIZE / 8 };

static int failures, by_shifts;
static uint8_t table[64], memory[128], buffer[12];
static uint64_t asked[WORDS];
static const uint8_t *lent, *leased;
static size_t lent_length, leased_length;
static const uint8_t leases[16] = {9};

uint64_t northbridge_serve(
    const uint8_t *request, size_t request_length, uint8_t *state, size_t state_length, uint8_t *its_table, size_t table_length,
    uint8_t *its_memory, size_t memory_length, uint8_t *its_buffer, size_t buffer_length, uint8_t *answer, size_t answer_length)
{
    size_t i, k;
    if (request_length != NORTHBRIDGE_REQUEST_SIZE || state_length != NORTHBRIDGE_STATE_SIZE || answer_length != NORTHBRIDGE_ANSWER_SIZE
        || its_table != table || table_length != sizeof table || its_memory != memory || memory_length != sizeof memory) {
        printf("header/words.c: a slice is not as it was lent\n");
        failures++;
        return 1;
    }
    for (i = 0; i < WORDS; i++) {
        asked[i] = 0;
        for (k = 8; k > 0; k--) {
            asked[i] = asked[i] << 8 | request[8 * i + k - 1];
        }
    }
    for (i = 0; i < NORTHBRIDGE_ANSWER_SIZE; i++) {
        answer[i] = (uint8_t)(i + 1);
    }
    state[0]++;
    lent = its_buffer;
    lent_length = buffer_length;
    leased = NULL;
    leased_length = 0;
    return 0;
}

uint64_t northbridge_serve_leased(
    const uint8_t *request, size_t request_length, uint8_t *state, size_t state_length, uint8_t *its_table, size_t table_length,
    uint8_t *its_memory, size_t memory_length, uint8_t *its_buffer, size_t buffer_length, uint8_t *answer, size_t answer_length,
    const uint8_t *its_leases, size_t leases_length)
{
    uint64_t refusal = northbridge_serve(
        request, request_length, state, state_length, its_table, table_length, its_memory, memory_length, its_buffer, buffer_length, answer,
        answer_length);
    leased = its_leases;
    leased_length = leases_length;
    return refusal;
}

/* The request had these words after its operation, and no buffer, or ours. */
static void check(
    struct northbridge_answer answer, uint64_t operation, const uint64_t words[WORDS - 1], int with_buffer, const char *what)
{
    int right = asked[0] == operation && !memcmp(asked + 1, words, (WORDS - 1) * sizeof words[0]);
    right = right && answer.refusal == 0x0807060504030201 && answer.place == 0x100f0e0d0c0b0a09;
    right = right && answer.first == 0x1817161514131211 && answer.second == 0x201f1e1d1c1b1a19;
    right = right && answer.dropped == 0x2827262524232221 && answer.length == 0x302f2e2d2c2b2a29;
    right = right && (by_shifts ? leased == leases && leased_length == sizeof leases : leased == NULL);
    right = right && (with_buffer ? lent == buffer && lent_length == sizeof buffer : lent != NULL && lent_length == 0);
    if (!right) {
        printf("header/words.c: %s\n", what);
        failures++;
    }
}

int main(void)
{
    /* Each argument has a value of its own: that of its word, with all bytes in use. */
    const uint64_t key0 = 0xf101010101010101, key1 = 0xf202020202020202, nonce = 0xf303030303030303;
    const uint64_t token = key0, second = key1, task = nonce, minute = 0xf808080808080808;
    const uint64_t length = 0xf404040404040404, user = 0xf505050505050505, rights = 0xf606060606060606, code = 0xf707070707070707;
    const uint64_t reset[] = {key0, key1, nonce, 0, 0, 0, 0}, by_task[] = {token, 0, task, 0, 0, 0, 0};
    const uint64_t create[] = {token, 0, task, length, user, rights, code}, merge[] = {token, second, task, 0, 0, 0, code};
    const uint64_t derive[] = {token, second, 0, length, 0, rights, code};
    const uint64_t encoded[] = {token, 0, 0, 0, 0, 0, code}, alone[] = {token, 0, 0, 0, 0, 0, 0};
    const uint64_t at_minute[] = {token, minute, task, 0, 0, 0, 0};
    struct northbridge b = northbridge_over(table, sizeof table, memory, sizeof memory);
    size_t i;
    check(northbridge_reset(&b, key0, key1, nonce), 0, reset, 0, "reset");
    check(northbridge_read(&b, token, task, buffer, sizeof buffer), 1, by_task, 1, "read");
    check(northbridge_write(&b, token, task, buffer, sizeof buffer), 2, by_task, 1, "write");
    check(northbridge_fetch(&b, token, task, buffer, sizeof buffer), 3, by_task, 1, "fetch");
    check(northbridge_create(&b, token, task, length, user, rights, code), 4, create, 0, "create");
    check(northbridge_merge(&b, token, second, task, code), 5, merge, 0, "merge");
    check(northbridge_derive(&b, token, second, length, rights, code), 6, derive, 0, "derive");
    check(northbridge_execute_only(&b, token, code), 7, encoded, 0, "execute-only");
    check(northbridge_clone(&b, token), 8, alone, 0, "clone");
    check(northbridge_drop(&b, token), 9, alone, 0, "drop");
    check(northbridge_lock(&b, token, task), 10, by_task, 0, "lock");
    check(northbridge_unlock(&b, token, task), 11, by_task, 0, "unlock");
    check(northbridge_revoke(&b, token, code), 12, encoded, 0, "revoke");
    check(northbridge_load(&b, token, task, buffer, sizeof buffer), 13, by_task, 1, "load");
    check(northbridge_dump(&b, token, task, buffer, sizeof buffer), 14, by_task, 1, "dump");
    check(northbridge_page_out(&b, token, second, task, buffer, sizeof buffer, code), 15, merge, 1, "page out");
    check(northbridge_page_in(&b, token, second, task, buffer, sizeof buffer, code), 16, merge, 1, "page in");
    by_shifts = 1; /* the minute stands in the five that bring one; all others are as they were */
    northbridge_lend_leases(&b, leases, sizeof leases);
    northbridge_at_minute(&b, minute);
    check(northbridge_reset(&b, key0, key1, nonce), 0, reset, 0, "reset, with leases");
    check(northbridge_read(&b, token, task, buffer, sizeof buffer), 1, at_minute, 1, "read at a minute");
    check(northbridge_write(&b, token, task, buffer, sizeof buffer), 2, at_minute, 1, "write at a minute");
    check(northbridge_fetch(&b, token, task, buffer, sizeof buffer), 3, at_minute, 1, "fetch at a minute");
    check(northbridge_create(&b, token, task, length, user, rights, code), 4, create, 0, "create, with leases");
    check(northbridge_merge(&b, token, second, task, code), 5, merge, 0, "merge, with leases");
    check(northbridge_derive(&b, token, second, length, rights, code), 6, derive, 0, "derive, with leases");
    check(northbridge_execute_only(&b, token, code), 7, encoded, 0, "execute-only, with leases");
    check(northbridge_clone(&b, token), 8, alone, 0, "clone, with leases");
    check(northbridge_drop(&b, token), 9, alone, 0, "drop, with leases");
    check(northbridge_lock(&b, token, task), 10, by_task, 0, "lock, with leases");
    check(northbridge_unlock(&b, token, task), 11, by_task, 0, "unlock, with leases");
    check(northbridge_revoke(&b, token, code), 12, encoded, 0, "revoke, with leases");
    check(northbridge_load(&b, token, task, buffer, sizeof buffer), 13, at_minute, 1, "load at a minute");
    check(northbridge_dump(&b, token, task, buffer, sizeof buffer), 14, at_minute, 1, "dump at a minute");
    check(northbridge_page_out(&b, token, second, task, buffer, sizeof buffer, code), 15, merge, 1, "page out, with leases");
    check(northbridge_page_in(&b, token, second, task, buffer, sizeof buffer, code), 16, merge, 1, "page in, with leases");
    if (b.state[0] != 34) {
        printf("header/words.c: the state is not the one that was lent\n");
        failures++;
    }
    for (i = 0; i < NORTHBRIDGE_STATE_SIZE; i++) {
        b.state[i] = (uint8_t)(i + 1);
    }
    if (northbridge_free_total(&b) != 0x2827262524232221 || b.state[0] != 1) {
        printf("header/words.c: the free total is not the state's last word, or something was asked\n");
        failures++;
    }
    return failures != 0;
}
