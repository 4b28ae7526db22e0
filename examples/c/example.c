/*
 * A hook station's card writes a record of twelve bytes, the weigher's task holds it, and another card tries to read it; then a card's
 * firmware is loaded, a batch of windows is given, a card is bound to its shift, and an idle segment goes to the disk. From the
 * repository's root:
 *
 *     ./build-library
 *     cc -Iinclude examples/c/example.c -Ltarget/staticlib -lnorthbridge -o target/example && target/example
 */
#include "northbridge.h"

#include <inttypes.h>
#include <stdio.h>

enum { WEIGHER = 7, OTHER = 8 }; /* tasks */
enum { STATIONS = 8 };

static uint8_t table[16 * NORTHBRIDGE_ENTRY_SIZE];
static uint8_t memory[65536];

/* Prints what became of a request. */
static struct northbridge_answer said(const char *what, struct northbridge_answer answer)
{
    printf("%s: %" PRIu64 " %s\n", what, answer.refusal, northbridge_refusal_text(answer.refusal));
    return answer;
}

int main(void)
{
    static const char record[12] = "A4711 093.5";
    static const char firmware[] = ":0300010048692E1D\n:00000001FF\n";
    char seen[12] = "", text[64];

    /* The root is all of memory, and its token is 0. The key is to be secret. */
    struct northbridge bridge = northbridge_over(table, sizeof table, memory, sizeof memory);
    said("reset", northbridge_reset(&bridge, 1, 2, 1));

    /* A segment of 4,096 bytes for records, and of it the first 1,200 for the station's card, which may only write. */
    uint64_t records = said("create", northbridge_create(&bridge, 0, 0, 4096, 0, NORTHBRIDGE_R | NORTHBRIDGE_W, 0)).first;
    uint64_t card = said("derive", northbridge_derive(&bridge, records, 0, 1200, NORTHBRIDGE_W, 0)).first;
    said("the card writes record 3", northbridge_write(&bridge, northbridge_at(card, 3 * sizeof record), 0, record, sizeof record));
    said("the card reads", northbridge_read(&bridge, card, 0, seen, sizeof seen));
    said("one byte too far", northbridge_write(&bridge, northbridge_at(card, 1189), 0, record, sizeof record));

    /* While the weigher holds the segment, no other task gets at its bytes. */
    said("the weigher locks", northbridge_lock(&bridge, records, WEIGHER));
    said("another reads", northbridge_read(&bridge, northbridge_at(records, 36), OTHER, seen, sizeof seen));
    said("the weigher reads", northbridge_read(&bridge, northbridge_at(records, 36), WEIGHER, seen, sizeof seen));
    printf("%s\n", seen);

    /* A revoke zeros the segment and gives it a new token. The card's is dead; a drop gives its number back. */
    records = said("revoke", northbridge_revoke(&bridge, records, 0)).first;
    said("the card writes", northbridge_write(&bridge, card, 0, record, sizeof record));
    said("drop", northbridge_drop(&bridge, card));
    said("read", northbridge_read(&bridge, northbridge_at(records, 36), 0, seen, sizeof seen));
    int left = seen[0]; /* nothing: they are zeros */

    /* A card's firmware comes as Intel HEX, and goes into the card's buffer whole or not at all. A dump is such text again. */
    uint64_t buffer = said("derive", northbridge_derive(&bridge, records, 0, 5, NORTHBRIDGE_R | NORTHBRIDGE_W, 0)).first;
    said("load", northbridge_load(&bridge, buffer, 0, firmware, sizeof firmware - 1));
    said("load of a part", northbridge_load(&bridge, buffer, 0, firmware, 20));
    struct northbridge_answer told = said("dump", northbridge_dump(&bridge, buffer, 0, text, sizeof text));
    printf("%.*s", (int)told.length, text);

    /* Before a batch: are there numbers enough? The total is a word of the state, so that asking costs no call. */
    uint64_t window[STATIONS], given = 0;
    if (northbridge_free_total(&bridge) >= STATIONS) {
        for (; given < STATIONS; given++) {
            window[given] = northbridge_derive(&bridge, records, 100 * given, 100, NORTHBRIDGE_W, 0).first;
        }
        said("station 5 writes", northbridge_write(&bridge, window[5], 0, record, sizeof record));
    }
    printf("%" PRIu64 " windows are given, %" PRIu64 " numbers are free\n", given, northbridge_free_total(&bridge));

    /* Station 5 works from Monday to Friday, 06:00 to 14:00. What the cleaning crew does with its card bounces. */
    uint8_t leases[5 * NORTHBRIDGE_LEASE_SIZE];
    for (uint64_t day = 0; day < 5; day++) {
        northbridge_put_lease(leases, day, window[5], northbridge_minute_of(day, 6, 0), northbridge_minute_of(day, 14, 0));
    }
    northbridge_lend_leases(&bridge, leases, sizeof leases);
    northbridge_at_minute(&bridge, northbridge_minute_of(1, 13, 59));
    said("station 5 writes on Tuesday at 13:59", northbridge_write(&bridge, window[5], 0, record, sizeof record));
    northbridge_at_minute(&bridge, northbridge_minute_of(1, 14, 0));
    said("at 14:00", northbridge_write(&bridge, window[5], 0, record, sizeof record));
    said("station 6 at 14:00, which has no lease", northbridge_write(&bridge, window[6], 0, record, sizeof record));
    northbridge_at_minute(&bridge, northbridge_minute_of(5, 9, 0));
    said("station 5 on Saturday", northbridge_write(&bridge, window[5], 0, record, sizeof record));

    /* An idle segment goes out: its bytes to the disk, as page 1, and its memory to whoever needs it. It comes back to any segment as long. */
    static uint8_t disk[4096];
    northbridge_lend_leases(&bridge, NULL, 0); /* no shifts any more */
    records = said("revoke", northbridge_revoke(&bridge, records, 0)).first;
    said("write", northbridge_write(&bridge, records, 0, record, sizeof record));
    struct northbridge_answer out = said("page out", northbridge_page_out(&bridge, records, 1, 0, disk, sizeof disk, 0));
    said("read while it is out", northbridge_read(&bridge, out.first, 0, seen, sizeof seen));
    records = said("page in", northbridge_page_in(&bridge, out.first, out.second, 0, disk, sizeof disk, 0)).first;
    said("read", northbridge_read(&bridge, records, 0, seen, sizeof seen));
    printf("%s\n", seen);
    return left || seen[0] != record[0];
}
