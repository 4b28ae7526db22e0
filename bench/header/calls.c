/* Every inline function of the header, in what C99 and C++ have in common. */
#include "northbridge.h"

#include <stdio.h>
#include <string.h>

#define CHECK(fact) check(fact, #fact, __LINE__)

static int failures;

static void check(int holds, const char *fact, int line)
{
    if (!holds) {
        printf("header/calls.c:%d: %s\n", line, fact);
        failures++;
    }
}

static uint8_t table[8 * NORTHBRIDGE_ENTRY_SIZE];
static uint8_t memory[65536];

static struct northbridge begun(void)
{
    struct northbridge bridge = northbridge_over(table, sizeof table, memory, sizeof memory);
    CHECK(northbridge_reset(&bridge, 0, 0, 1).refusal == NORTHBRIDGE_GRANTED);
    return bridge;
}

/* Paper 01's session, case 6 as paper 1 of 02 has it. */
static void fifteen_cases(void)
{
    struct northbridge b = northbridge_over(table, 4 * NORTHBRIDGE_ENTRY_SIZE, memory, sizeof memory);
    uint8_t buffer[12];
    uint64_t child;
    CHECK(northbridge_reset(&b, 0, 0, 1).refusal == 0);
    CHECK(northbridge_read(&b, northbridge_at(0, 4096), 0, buffer, 12).refusal == 0);
    CHECK(northbridge_read(&b, northbridge_at(0, 65535), 0, buffer, 1).refusal == 0);
    CHECK(northbridge_read(&b, northbridge_at(0, 65536), 0, buffer, 1).refusal == NORTHBRIDGE_BOUNDS);
    CHECK(northbridge_read(&b, northbridge_at(0, 65525), 0, buffer, 12).refusal == NORTHBRIDGE_BOUNDS);
    child = northbridge_derive(&b, 0, 0, 65535, NORTHBRIDGE_R, 0).first;
    CHECK(northbridge_derive(&b, 0, 0, 65536, NORTHBRIDGE_R, 0).refusal == 0);
    CHECK(northbridge_create(&b, 0, 0, 4096, 0, NORTHBRIDGE_R, 0).refusal == NORTHBRIDGE_STANDING);
    CHECK(northbridge_lock(&b, 0, 0).refusal == NORTHBRIDGE_BAD_REQUEST);
    CHECK(northbridge_lock(&b, 0, 7).refusal == 0);
    CHECK(northbridge_read(&b, 0, 8, buffer, 1).refusal == NORTHBRIDGE_LOCKED);
    CHECK(northbridge_drop(&b, 0).dropped == 0);
    CHECK(northbridge_revoke(&b, 0, 0).refusal == 0);
    CHECK(northbridge_read(&b, 0, 0, buffer, 1).refusal == NORTHBRIDGE_NO_ENTRY);
    CHECK(northbridge_read(&b, child, 0, buffer, 1).refusal == NORTHBRIDGE_DEAD);
    CHECK(northbridge_read(&b, child, 0, buffer, 1).place == 1);
    CHECK(northbridge_drop(&b, child).dropped == 1);
}

/* Each operation granted, and each of its arguments in its place. */
static void operations(void)
{
    struct northbridge b = begun();
    static const uint8_t record[12] = {1, 2, 3, 4, 5, 6, 7, 8, 9, 10, 11, 12}; /* a write only reads it */
    uint8_t buffer[12] = {0};
    struct northbridge_answer made = northbridge_create(&b, 0, 9, 4096, 77, NORTHBRIDGE_R | NORTHBRIDGE_W | NORTHBRIDGE_X, 2);
    struct northbridge_answer child, code;
    CHECK(made.refusal == 0 && northbridge_fields_of(made.first).number == 1 && northbridge_fields_of(made.second).number == 0);
    CHECK(northbridge_fields_of(made.first).encoding == 2 && northbridge_fields_of(made.second).encoding == 2);
    CHECK(northbridge_write(&b, northbridge_at(made.first, 24), 0, record, sizeof record).refusal == 0);
    CHECK(!memcmp(memory + 24, record, sizeof record));
    CHECK(northbridge_read(&b, northbridge_at(made.first, 24), 0, buffer, sizeof buffer).refusal == 0);
    CHECK(!memcmp(buffer, record, sizeof record));
    child = northbridge_derive(&b, made.first, 24, 36, NORTHBRIDGE_R | NORTHBRIDGE_X, 3);
    CHECK(child.refusal == 0 && northbridge_fields_of(child.first).encoding == 3);
    CHECK(northbridge_fetch(&b, child.first, 0, buffer, 4).refusal == 0 && !memcmp(buffer, record, 4));
    CHECK(northbridge_write(&b, child.first, 0, record, 1).refusal == NORTHBRIDGE_RIGHT);
    CHECK(northbridge_read(&b, northbridge_at(child.first, 35), 0, buffer, 1).refusal == 0);
    CHECK(northbridge_read(&b, northbridge_at(child.first, 36), 0, buffer, 1).refusal == NORTHBRIDGE_BOUNDS);
    code = northbridge_execute_only(&b, child.first, 1);
    CHECK(code.refusal == 0 && northbridge_fields_of(code.first).encoding == 1);
    CHECK(northbridge_read(&b, code.first, 0, buffer, 1).refusal == NORTHBRIDGE_RIGHT);
    CHECK(northbridge_clone(&b, code.first).refusal == 0);
    CHECK(northbridge_drop(&b, code.first).dropped == 0);
    CHECK(northbridge_drop(&b, code.first).dropped == 1);
    CHECK(northbridge_lock(&b, child.first, 5).refusal == 0);
    CHECK(northbridge_fetch(&b, child.first, 6, buffer, 1).refusal == NORTHBRIDGE_LOCKED);
    CHECK(northbridge_write(&b, made.first, 5, record, 1).refusal == 0);
    CHECK(northbridge_unlock(&b, child.first, 6).refusal == NORTHBRIDGE_LOCKED);
    CHECK(northbridge_unlock(&b, child.first, 5).refusal == 0);
    CHECK(northbridge_merge(&b, made.first, made.second, 0, 0).refusal == NORTHBRIDGE_STANDING);
    made.first = northbridge_revoke(&b, made.first, 1).first;
    CHECK(northbridge_fields_of(made.first).encoding == 1 && memory[24] == 0);
    CHECK(northbridge_merge(&b, made.second, made.first, 0, 0).refusal == NORTHBRIDGE_BOUNDS);
    made = northbridge_merge(&b, made.first, made.second, 0, 3);
    CHECK(made.refusal == 0 && northbridge_fields_of(made.first).number == 1 && northbridge_fields_of(made.first).encoding == 3);
    made = northbridge_create(&b, made.first, 0, sizeof memory, 0, NORTHBRIDGE_R, 0);
    CHECK(made.refusal == 0 && made.second == 0);
}

/* A segment as text, and such text into an equal segment. */
static void texts_of_segments(void)
{
    struct northbridge b = begun();
    static const char image[] = ":0400020001020304F0\n:00000001FF\n"; /* a load only reads it */
    static const char written[] = ":020000040000FA\n:06000000000001020304F0\n:00000001FF\n";
    const size_t length = sizeof written - 1;
    struct northbridge_answer made = northbridge_create(&b, 0, 0, 6, 0, NORTHBRIDGE_R | NORTHBRIDGE_W, 0), told;
    uint8_t buffer[80];
    memset(memory, 0, 6);
    CHECK(northbridge_load(&b, made.first, 9, image, sizeof image - 1).refusal == 0);
    CHECK(!memcmp(memory, "\0\0\1\2\3\4", 6));
    memset(buffer, 0xa5, sizeof buffer);
    told = northbridge_dump(&b, made.first, 9, buffer, sizeof buffer);
    CHECK(told.refusal == 0 && told.length == length && !memcmp(buffer, written, length) && buffer[length] == 0xa5);
    told = northbridge_dump(&b, made.first, 0, buffer, length);
    CHECK(told.refusal == 0 && told.length == length);
    told = northbridge_dump(&b, made.first, 0, buffer, length - 1);
    CHECK(told.refusal == NORTHBRIDGE_NO_ROOM && told.length == 0);
    memset(memory, 7, 6);
    CHECK(northbridge_load(&b, made.first, 0, written, length).refusal == 0 && !memcmp(memory, "\0\0\1\2\3\4", 6));
    CHECK(northbridge_load(&b, made.first, 0, written, length - 1).refusal == NORTHBRIDGE_MALFORMED);
    CHECK(northbridge_load(&b, made.first, 0, ":00000001FE\n", 12).refusal == NORTHBRIDGE_CHECKSUM);
    CHECK(northbridge_load(&b, made.first, 0, ":010006005A9F\n:00000001FF\n", 26).refusal == NORTHBRIDGE_BOUNDS);
    CHECK(northbridge_load(&b, northbridge_at(made.first, 1), 0, image, sizeof image - 1).refusal == NORTHBRIDGE_BAD_REQUEST);
    CHECK(northbridge_dump(&b, northbridge_at(made.first, 1), 0, buffer, sizeof buffer).refusal == NORTHBRIDGE_BAD_REQUEST);
    CHECK(northbridge_load(&b, made.first, 0, NULL, 0).refusal == NORTHBRIDGE_MALFORMED);
    CHECK(northbridge_dump(&b, made.first, 0, NULL, 0).refusal == NORTHBRIDGE_NO_ROOM);
}

/* A segment out, with every byte, and in again at a donor's place. */
static void paging(void)
{
    struct northbridge b = begun();
    static const char record[] = "A4711 093.5 "; /* a page in only reads it */
    const size_t length = sizeof record - 1;
    const uint64_t all = NORTHBRIDGE_R | NORTHBRIDGE_W | NORTHBRIDGE_X, file = (uint64_t)1 << 32;
    struct northbridge_answer made = northbridge_create(&b, 0, 0, length, 77, NORTHBRIDGE_R, 0), out, other, back;
    uint64_t donor;
    uint8_t disk[16];
    memcpy(memory, record, length);
    memset(disk, 0xa5, sizeof disk);
    CHECK(northbridge_page_out(&b, made.first, file, 0, disk, length - 1, 0).refusal == NORTHBRIDGE_BOUNDS);
    CHECK(northbridge_page_out(&b, made.first, file, 0, disk, length + 1, 0).refusal == NORTHBRIDGE_BOUNDS);
    CHECK(northbridge_page_out(&b, made.first, file, 0, NULL, length, 0).refusal == NORTHBRIDGE_BOUNDS && disk[0] == 0xa5);
    out = northbridge_page_out(&b, made.first, file, 9, disk, length, 3);
    CHECK(out.refusal == 0 && !memcmp(disk, record, length) && disk[length] == 0xa5 && memory[0] == 0 && memory[length - 1] == 0);
    CHECK(northbridge_fields_of(out.first).number == 1 && northbridge_fields_of(out.second).number == 2);
    CHECK(northbridge_fields_of(out.first).encoding == 3 && northbridge_fields_of(out.second).encoding == 3);
    CHECK(northbridge_read(&b, made.first, 0, disk, 1).refusal == NORTHBRIDGE_NO_ENTRY);
    CHECK(northbridge_read(&b, out.first, 0, disk, 1).refusal == NORTHBRIDGE_PAGED);
    CHECK(northbridge_clone(&b, out.first).refusal == NORTHBRIDGE_PAGED && northbridge_free_total(&b) == 5);
    CHECK(northbridge_page_in(&b, out.first, out.first, 0, record, length, 0).refusal == NORTHBRIDGE_KIND);
    CHECK(northbridge_page_in(&b, out.second, out.first, 0, record, length, 0).refusal == NORTHBRIDGE_KIND);
    CHECK(northbridge_page_in(&b, out.first, made.second, 0, record, length, 0).refusal == NORTHBRIDGE_BOUNDS);
    CHECK(northbridge_page_in(&b, out.first, out.second, 0, record, length - 1, 0).refusal == NORTHBRIDGE_BOUNDS);
    CHECK(northbridge_clone(&b, out.second).refusal == 0);
    CHECK(northbridge_page_in(&b, out.first, out.second, 0, record, length, 0).refusal == NORTHBRIDGE_STANDING);
    other = northbridge_create(&b, made.second, 0, length, 0, all, 0);
    donor = other.first;
    back = northbridge_page_in(&b, out.first, donor, 0, record, length, 1);
    CHECK(back.refusal == 0 && back.second == 0 && northbridge_fields_of(back.first).number == 1);
    CHECK(northbridge_fields_of(back.first).encoding == 1 && !memcmp(memory + length, record, length) && memory[0] == 0);
    CHECK(northbridge_read(&b, donor, 0, disk, 1).refusal == NORTHBRIDGE_NO_ENTRY && northbridge_free_total(&b) == 5);
    CHECK(northbridge_read(&b, back.first, 0, disk, length).refusal == 0 && !memcmp(disk, record, length));
    CHECK(northbridge_write(&b, back.first, 0, record, 1).refusal == NORTHBRIDGE_RIGHT); /* the rights came back with it */
}

/* The free total after each operation that gives a number or frees one, and after the others. */
static void free_totals(void)
{
    struct northbridge b = northbridge_over(table, sizeof table, memory, sizeof memory);
    struct northbridge_answer made;
    uint64_t child, code;
    memset(b.state, 0xff, sizeof b.state);
    CHECK(northbridge_free_total(&b) == ~(uint64_t)0);
    CHECK(northbridge_clone(&b, 0).refusal == NORTHBRIDGE_BAD_REQUEST && northbridge_free_total(&b) == ~(uint64_t)0);
    CHECK(northbridge_reset(&b, 0, 0, 1).refusal == 0 && northbridge_free_total(&b) == 7);
    made = northbridge_create(&b, 0, 0, 4096, 0, NORTHBRIDGE_R | NORTHBRIDGE_X, 0);
    CHECK(made.refusal == 0 && northbridge_free_total(&b) == 6);
    child = northbridge_derive(&b, made.first, 0, 10, NORTHBRIDGE_X, 0).first;
    code = northbridge_execute_only(&b, child, 0).first;
    CHECK(northbridge_free_total(&b) == 4);
    CHECK(northbridge_clone(&b, code).refusal == 0 && northbridge_drop(&b, code).dropped == 0);
    CHECK(northbridge_drop(&b, child).dropped == 0 && northbridge_free_total(&b) == 4);
    CHECK(northbridge_drop(&b, code).dropped == 1 && northbridge_free_total(&b) == 6); /* the child with it */
    made.first = northbridge_revoke(&b, made.first, 0).first;
    CHECK(northbridge_merge(&b, made.second, made.first, 0, 0).refusal == NORTHBRIDGE_BOUNDS);
    CHECK(northbridge_free_total(&b) == 6);
    made = northbridge_merge(&b, made.first, made.second, 0, 0); /* number 0 is freed, and not counted */
    CHECK(made.refusal == 0 && northbridge_free_total(&b) == 6);
    made = northbridge_create(&b, made.first, 0, sizeof memory, 0, NORTHBRIDGE_R, 0); /* one given, one freed */
    CHECK(made.refusal == 0 && made.second == 0 && northbridge_free_total(&b) == 6);
    CHECK(northbridge_word(b.state, NORTHBRIDGE_FREE_TOTAL) == 6);
}

/* Paper 01's packed tokens, and what has no room. */
static void tokens(void)
{
    struct northbridge_fields fields;
    uint64_t word;
    fields.tag = 0x1234;
    fields.number = 5;
    fields.offset = 0;
    for (fields.encoding = 0; fields.encoding < 4; fields.encoding++) {
        struct northbridge_fields again = northbridge_fields_of(northbridge_token_of(fields));
        CHECK(again.encoding == fields.encoding && again.tag == 0x1234 && again.number == 5 && again.offset == 0);
    }
    CHECK(northbridge_token_of(fields) == NORTHBRIDGE_NO_TOKEN);
    fields.encoding = 0;
    word = northbridge_token_of(fields);
    CHECK(northbridge_at(word, 12) == ((uint64_t)0x048D0005 << 32 | 0x0000000C));
    CHECK(northbridge_at(northbridge_at(word, 8), 4) == northbridge_at(word, 12));
    CHECK(northbridge_at(word, 0xffffffff) != NORTHBRIDGE_NO_TOKEN);
    CHECK(northbridge_at(northbridge_at(word, 1), 0xffffffff) == NORTHBRIDGE_NO_TOKEN);
    CHECK(northbridge_at(word, (uint64_t)1 << 32) == NORTHBRIDGE_NO_TOKEN);
    fields.encoding = 2;
    word = northbridge_token_of(fields);
    CHECK(northbridge_at(word, 12) == ((uint64_t)0x848D0000 << 32 | 0x0005000C));
    CHECK(northbridge_at(word, 65535) != NORTHBRIDGE_NO_TOKEN && northbridge_at(word, 65536) == NORTHBRIDGE_NO_TOKEN);
    fields.encoding = 3;
    CHECK(northbridge_at(northbridge_token_of(fields), 12) == ((uint64_t)0xC48D0000 << 32 | 0x0500000C));
    fields.encoding = 1;
    CHECK(northbridge_token_of(fields) == ((uint64_t)0x448D0000 << 32 | 5));
    CHECK(northbridge_at(northbridge_token_of(fields), 0) == northbridge_token_of(fields));
    CHECK(northbridge_at(northbridge_token_of(fields), 1) == NORTHBRIDGE_NO_TOKEN);
    fields.number = (uint64_t)1 << 46;
    CHECK(northbridge_token_of(fields) == NORTHBRIDGE_NO_TOKEN);
    fields.number = 5;
    fields.tag = 0x10000;
    CHECK(northbridge_token_of(fields) == NORTHBRIDGE_NO_TOKEN);
}

/* A lease's bytes; what has no room becomes a lease for which every access is refused. */
static void leases_as_bytes(void)
{
    static const uint8_t wanted[8] = {0x05, 0x00, 0x34, 0x12, 0x68, 0x01, 0x48, 0x03};
    const uint64_t token = (uint64_t)0x048D0005 << 32;
    uint8_t leases[3 * NORTHBRIDGE_LEASE_SIZE] = {0}, none[NORTHBRIDGE_LEASE_SIZE];
    struct northbridge_fields fields = northbridge_fields_of(token);
    memset(none, 0xff, sizeof none);
    northbridge_put_lease(leases, 1, token, 360, 840);
    CHECK(!memcmp(leases + 8, wanted, 8) && leases[7] == 0 && leases[16] == 0);
    for (fields.encoding = 0; fields.encoding < 4; fields.encoding++) {
        northbridge_put_lease(leases, 0, northbridge_token_of(fields), 360, 840);
        CHECK(!memcmp(leases, wanted, 8));
    }
    northbridge_put_lease(leases, 0, northbridge_at(token, 99), 360, 840);
    CHECK(!memcmp(leases, wanted, 8));
    northbridge_put_lease(leases, 0, token, 65536, 840);
    CHECK(!memcmp(leases, none, 8));
    northbridge_put_lease(leases, 0, token, 360, (uint64_t)1 << 32);
    CHECK(!memcmp(leases, none, 8));
    fields.encoding = 1;
    fields.number = 65536;
    northbridge_put_lease(leases, 0, northbridge_token_of(fields), 360, 840);
    CHECK(!memcmp(leases, none, 8));
    CHECK(northbridge_minute_of(0, 0, 0) == 0 && northbridge_minute_of(6, 23, 59) == NORTHBRIDGE_WEEK - 1);
    CHECK(NORTHBRIDGE_LEASES_MOST == 64 * NORTHBRIDGE_LEASE_SIZE);
}

/* What each of the five requests with a minute comes to, through a token. */
static int all_come_to(struct northbridge *b, uint64_t token, uint64_t refusal)
{
    static const char text[] = ":00000001FF\n";
    uint8_t buffer[64] = {0};
    return northbridge_read(b, token, 0, buffer, 1).refusal == refusal && northbridge_write(b, token, 0, buffer, 1).refusal == refusal
        && northbridge_fetch(b, token, 0, buffer, 1).refusal == refusal
        && northbridge_load(b, token, 0, text, sizeof text - 1).refusal == refusal
        && northbridge_dump(b, token, 0, buffer, sizeof buffer).refusal == refusal;
}

/* Leases that are lent, minutes that are given, and none of both. */
static void shifts(void)
{
    struct northbridge b = begun();
    uint8_t leases[65 * NORTHBRIDGE_LEASE_SIZE];
    uint64_t card = northbridge_derive(&b, 0, 0, 8, NORTHBRIDGE_R | NORTHBRIDGE_W | NORTHBRIDGE_X, 0).first, other;
    struct northbridge_request request = northbridge_request_of(NORTHBRIDGE_READ, card), before;
    size_t i;
    for (i = 0; i < 65; i++) {
        northbridge_put_lease(leases, i, card, 360, 840);
    }
    CHECK(all_come_to(&b, card, 0)); /* no shifts */
    b.minute = ~(uint64_t)0;
    CHECK(all_come_to(&b, card, 0));
    northbridge_lend_leases(&b, leases, NORTHBRIDGE_LEASE_SIZE);
    CHECK(all_come_to(&b, card, NORTHBRIDGE_BAD_REQUEST)); /* no minute was given */
    northbridge_at_minute(&b, 360);
    CHECK(all_come_to(&b, card, 0));
    northbridge_at_minute(&b, 839);
    CHECK(all_come_to(&b, card, 0));
    northbridge_at_minute(&b, 840);
    CHECK(all_come_to(&b, card, NORTHBRIDGE_CLOSED));
    northbridge_at_minute(&b, 359); /* set back */
    CHECK(all_come_to(&b, card, NORTHBRIDGE_CLOSED));
    other = northbridge_derive(&b, card, 0, 8, NORTHBRIDGE_R | NORTHBRIDGE_W | NORTHBRIDGE_X, 3).first;
    CHECK(other != 0 && all_come_to(&b, other, 0)); /* what is derived has no lease */
    CHECK(northbridge_clone(&b, card).refusal == 0 && northbridge_lock(&b, card, 7).refusal == 0);
    CHECK(northbridge_unlock(&b, card, 7).refusal == 0 && northbridge_drop(&b, card).refusal == 0);
    before = request;
    CHECK(northbridge_ask(&b, &request, leases, 1).refusal == NORTHBRIDGE_CLOSED);
    CHECK(!memcmp(&before, &request, sizeof request)); /* the minute went into a copy */
    northbridge_lend_leases(&b, leases, 64 * NORTHBRIDGE_LEASE_SIZE);
    northbridge_at_minute(&b, 400);
    CHECK(all_come_to(&b, card, 0));
    northbridge_put_lease(leases, 63, 0, 5, 5);
    CHECK(all_come_to(&b, card, NORTHBRIDGE_BAD_LEASE) && all_come_to(&b, 0, NORTHBRIDGE_BAD_LEASE));
    northbridge_lend_leases(&b, leases, 65 * NORTHBRIDGE_LEASE_SIZE);
    northbridge_at_minute(&b, 400);
    CHECK(all_come_to(&b, card, NORTHBRIDGE_BAD_REQUEST));
    northbridge_lend_leases(&b, leases, NORTHBRIDGE_LEASE_SIZE - 1);
    northbridge_at_minute(&b, 400);
    CHECK(all_come_to(&b, card, NORTHBRIDGE_BAD_REQUEST) && northbridge_clone(&b, card).refusal == NORTHBRIDGE_BAD_REQUEST);
    northbridge_lend_leases(&b, leases, 0); /* shifts, in which nobody is bound */
    northbridge_at_minute(&b, 10079);
    CHECK(all_come_to(&b, card, 0));
    northbridge_at_minute(&b, NORTHBRIDGE_WEEK);
    CHECK(all_come_to(&b, card, NORTHBRIDGE_BAD_REQUEST));
    northbridge_lend_leases(&b, NULL, 8); /* no shifts again */
    CHECK(all_come_to(&b, card, 0));
}

/* The word for no token is refused wherever a token is named; so is what is not lent. */
static void refused(void)
{
    struct northbridge b = begun();
    uint8_t buffer[1] = {0};
    uint64_t operation;
    for (operation = NORTHBRIDGE_READ; operation <= NORTHBRIDGE_PAGE_IN; operation++) {
        struct northbridge_request request = northbridge_request_of(operation, NORTHBRIDGE_NO_TOKEN);
        northbridge_set(&request, NORTHBRIDGE_TASK, 1);
        northbridge_set(&request, NORTHBRIDGE_LENGTH, 1);
        CHECK(northbridge_ask(&b, &request, buffer, 1).refusal != 0);
    }
    CHECK(northbridge_merge(&b, 0, NORTHBRIDGE_NO_TOKEN, 0, 0).refusal != 0);
    CHECK(northbridge_page_in(&b, 0, NORTHBRIDGE_NO_TOKEN, 0, buffer, 1, 0).refusal != 0);
    CHECK(northbridge_read(&b, NORTHBRIDGE_NO_TOKEN, 0, buffer, 1).refusal == NORTHBRIDGE_NO_ENTRY);
    CHECK(northbridge_read(&b, 0, 0, NULL, 0).refusal == NORTHBRIDGE_BAD_REQUEST);
    CHECK(northbridge_read(&b, 0, 0, NULL, 1).refusal == NORTHBRIDGE_BAD_REQUEST);
    CHECK(northbridge_write(&b, 0, 0, NULL, 1).refusal == NORTHBRIDGE_BAD_REQUEST);
    b.memory = NULL;
    CHECK(northbridge_read(&b, 0, 0, buffer, 1).refusal == NORTHBRIDGE_BAD_REQUEST);
    b = northbridge_over(NULL, sizeof table, memory, sizeof memory);
    CHECK(northbridge_reset(&b, 0, 0, 1).refusal == NORTHBRIDGE_BAD_REQUEST);
}

/* The texts, for the test that holds them to the bridge's words. */
static void texts(void)
{
    uint64_t refusal;
    for (refusal = 0; refusal <= NORTHBRIDGE_PAGED + 1; refusal++) {
        printf("%d %s\n", (int)refusal, northbridge_refusal_text(refusal));
    }
    printf("version %d\n", NORTHBRIDGE_VERSION);
}

int main(void)
{
    fifteen_cases();
    operations();
    texts_of_segments();
    paging();
    free_totals();
    tokens();
    leases_as_bytes();
    shifts();
    refused();
    texts();
    return failures != 0;
}
