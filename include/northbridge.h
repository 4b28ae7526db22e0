/*
 * The northbridge: a capability machine over memory and tables that the caller lends. docs/USING.md says what it does.
 *
 * The library keeps nothing between two calls, allocates nothing, does no input or output, and calls nothing but memset and memmove.
 * What it returns and each byte that it leaves in the slices lent to it is fixed, whatever they hold, by the definition `exported` in
 * crates/interface/specs/Exported.antt, which the code is proved to meet.
 */
#ifndef NORTHBRIDGE_H
#define NORTHBRIDGE_H

#include <stddef.h>
#include <stdint.h>

#ifdef __cplusplus
extern "C" {
#endif

/* The interface's version. It is raised with every change that a caller can see. */
#define NORTHBRIDGE_VERSION 7

/* Sizes in bytes. All words have 64 bits, the low byte first. */
#define NORTHBRIDGE_REQUEST_SIZE 64
#define NORTHBRIDGE_STATE_SIZE 40
#define NORTHBRIDGE_ANSWER_SIZE 48
#define NORTHBRIDGE_ENTRY_SIZE 32

/* The most that an access moves, and the most that a load's or a dump's text has, in bytes. */
#define NORTHBRIDGE_ACCESS_MOST 4096
#define NORTHBRIDGE_TEXT_MOST 65536

/* A lease, the most that all leases have that are lent with a call, both in bytes, and the minutes of a week, which are 0 to 10,079. */
#define NORTHBRIDGE_LEASE_SIZE 8
#define NORTHBRIDGE_LEASES_MOST 512
#define NORTHBRIDGE_WEEK 10080

/*
 * The words of a request, by their index. Words that an operation does not use are not looked at; the minute neither where no leases are
 * lent, that is by northbridge_serve.
 *
 *     operation         uses, beside word 0
 *     0  reset          token: the first key word; second: the second key word; task: the first nonce
 *     1  read           token, second: the minute; task; the segment's bytes go to the buffer
 *     2  write          token, second: the minute; task; the buffer goes to the segment
 *     3  fetch          token, second: the minute; task; as read, for instructions
 *     4  create         token, task, length, user, permissions, encoding
 *     5  merge          token, second: the second token; task, encoding
 *     6  derive         token, second: the offset; length, permissions, encoding
 *     7  execute-only   token, encoding
 *     8  clone          token
 *     9  drop           token
 *     10 lock           token, task
 *     11 unlock         token, task
 *     12 revoke         token, encoding
 *     13 load           token, second: the minute; task; what the buffer's text says goes to the segment
 *     14 dump           token, second: the minute; task; the segment goes to the buffer's front as text
 *     15 page out       token, second: the page-file number; task, encoding; the segment goes to the buffer
 *     16 page in        token, second: the donor's token; task, encoding; the buffer goes to the donor's segment
 *
 * The text of a load and of a dump is Intel HEX with records of the types 00, 01 and 04, each ending in a line feed.
 */
enum northbridge_request_word {
    NORTHBRIDGE_OPERATION = 0,
    NORTHBRIDGE_TOKEN = 1,
    NORTHBRIDGE_SECOND = 2,
    NORTHBRIDGE_TASK = 3,
    NORTHBRIDGE_LENGTH = 4,
    NORTHBRIDGE_USER = 5,
    NORTHBRIDGE_PERMISSIONS = 6, /* of enum northbridge_permission, added */
    NORTHBRIDGE_ENCODING = 7     /* of the tokens in the answer: 0 to 3 */
};

enum northbridge_operation {
    NORTHBRIDGE_RESET = 0,
    NORTHBRIDGE_READ = 1,
    NORTHBRIDGE_WRITE = 2,
    NORTHBRIDGE_FETCH = 3,
    NORTHBRIDGE_CREATE = 4,
    NORTHBRIDGE_MERGE = 5,
    NORTHBRIDGE_DERIVE = 6,
    NORTHBRIDGE_EXECUTE_ONLY = 7,
    NORTHBRIDGE_CLONE = 8,
    NORTHBRIDGE_DROP = 9,
    NORTHBRIDGE_LOCK = 10,
    NORTHBRIDGE_UNLOCK = 11,
    NORTHBRIDGE_REVOKE = 12,
    NORTHBRIDGE_LOAD = 13,
    NORTHBRIDGE_DUMP = 14,
    NORTHBRIDGE_PAGE_OUT = 15,
    NORTHBRIDGE_PAGE_IN = 16
};

enum northbridge_permission {
    NORTHBRIDGE_X = 1, /* fetch */
    NORTHBRIDGE_W = 2, /* write */
    NORTHBRIDGE_R = 4  /* read */
};

/* The words of a state. A reset writes all five, whatever stood there; the caller hands each call what the last one left. */
enum northbridge_state_word {
    NORTHBRIDGE_KEY0 = 0,
    NORTHBRIDGE_KEY1 = 1,
    NORTHBRIDGE_LAST_NUMBER = 2,
    NORTHBRIDGE_NEXT_NONCE = 3,
    NORTHBRIDGE_FREE_TOTAL = 4 /* how many numbers are free, number 0 left out: at most the number of entries minus one */
};

/* The words of an answer. Tokens are 0 where a request gives none, and all words after the place are 0 at a refusal. */
enum northbridge_answer_word {
    NORTHBRIDGE_REFUSAL = 0, /* 0 granted; also what the call returns */
    NORTHBRIDGE_PLACE = 1,   /* of refusals 3 and 4: 1 the named entry, 2 an ancestor; else 0 */
    NORTHBRIDGE_FIRST = 2,
    NORTHBRIDGE_SECOND_TOKEN = 3,
    NORTHBRIDGE_DROPPED = 4,    /* drop's number */
    NORTHBRIDGE_ANSWER_LENGTH = 5 /* the length in bytes of what stands at the buffer's front, a dump's text */
};

enum northbridge_refusal {
    NORTHBRIDGE_GRANTED = 0,
    NORTHBRIDGE_BAD_REQUEST = 1, /* a size or setting is broken, or the request itself */
    NORTHBRIDGE_NO_ENTRY = 2,    /* number beyond the table, free, or another tag */
    NORTHBRIDGE_ILL_FORMED = 3,  /* an entry met is ill-formed */
    NORTHBRIDGE_DEAD = 4,        /* the line is dead */
    NORTHBRIDGE_LOCKED = 5,      /* locked for another task */
    NORTHBRIDGE_KIND = 6,        /* create, merge, revoke, page out of an indirect entry; page in of one not paged, or with a donor not direct */
    NORTHBRIDGE_RIGHT = 7,       /* a permission, X or Lockable is lacking */
    NORTHBRIDGE_BOUNDS = 8,      /* outside the segment, derive's sum, not neighbours in order, or not of equal length */
    NORTHBRIDGE_STANDING = 9,    /* locked, or the count forbids it */
    NORTHBRIDGE_NO_NUMBER = 10,  /* no free number */
    NORTHBRIDGE_NO_NONCE = 11,   /* too few nonces */
    NORTHBRIDGE_MALFORMED = 12,  /* a record of a load's text, or its ending, is malformed */
    NORTHBRIDGE_CHECKSUM = 13,   /* a record's checksum is wrong */
    NORTHBRIDGE_NO_ROOM = 14,    /* a dump's text is longer than the buffer, or than 65,536 bytes */
    NORTHBRIDGE_CLOSED = 15,     /* the token has leases, and none of them is open at that minute */
    NORTHBRIDGE_BAD_LEASE = 16,  /* a lease's minutes are equal, or one is beyond the week */
    NORTHBRIDGE_PAGED = 17       /* the entry is paged out: it can only be paged in */
};

/*
 * Serves one request and returns its refusal: 0 if it was granted.
 *
 * The caller lends six slices, each as a pointer and a length in bytes, for the time of the call:
 *
 *     request   64 bytes; read only
 *     state     40 bytes
 *     table     2 to 1,024 entries of 32 bytes
 *     memory    1 to 16,777,216 bytes
 *     buffer    what a read or fetch fills and a write stores, 1 to 4,096 bytes; the text that a load reads, at most 65,536 bytes; a
 *               dump's output, of any length, at whose front its text is written; what a page out fills and a page in stores, as
 *               many bytes as the segment has; no other request looks at it
 *     answer    48 bytes
 *
 * What the caller must see to: each slice has as many bytes as its length says; no two slices overlap; and nothing else reads or writes
 * them during the call, except that others may read the request and the buffer of a write, a load or a page in, which are only read.
 * Nothing is asked of the bytes, nor of the lengths: any bytes and any lengths have a defined answer.
 *
 * The proof is about slices, and a slice has a pointer that is not null. The compiled code does not look at a slice of length 0, so that a
 * null pointer with length 0 is answered as an empty slice. A null pointer with another length is a slice that is not there: a fault.
 *
 * A refused request changes nothing but the answer. An operation above 16, or a request, state or answer of another length, is refusal 1;
 * an answer of another length is then left as it was.
 */
uint64_t northbridge_serve(
    const uint8_t *request, size_t request_length,
    uint8_t *state, size_t state_length,
    uint8_t *table, size_t table_length,
    uint8_t *memory, size_t memory_length,
    uint8_t *buffer, size_t buffer_length,
    uint8_t *answer, size_t answer_length);

/*
 * The same, with leases: which tokens open accesses at which minutes of the week, Monday 00:00 being minute 0. They are a further slice,
 * which is read only, and which others may read during the call:
 *
 *     leases    up to 64 leases of 8 bytes, one behind the other; none are an empty slice; another length is refusal 1, of any request
 *
 * A lease is four numbers of 16 bits, the low byte first: number and tag of the token that it is for, the minute at which it opens and the
 * one at which it closes. It is open from its opening on, up to the minute before its closing, over the week's end if the opening is the
 * later one. A token that has leases opens an access only while one of them is open; it has those with its own number and tag, and what is
 * derived below it has not. Read, write, fetch, load and dump bring the minute and look at the leases; no other request
 * looks at more of them than their length.
 */
uint64_t northbridge_serve_leased(
    const uint8_t *request, size_t request_length,
    uint8_t *state, size_t state_length,
    uint8_t *table, size_t table_length,
    uint8_t *memory, size_t memory_length,
    uint8_t *buffer, size_t buffer_length,
    uint8_t *answer, size_t answer_length,
    const uint8_t *leases, size_t leases_length);

/* ---- From C99 on, and in C++: a function for each operation. They need nothing but the declarations above. */
#if defined(__cplusplus) || (defined(__STDC_VERSION__) && __STDC_VERSION__ >= 199901L)

/*
 * A machine: its state, and what is lent to it for the time of each call. A part whose pointer is null is not lent, whatever its length;
 * later versions may add parts, so begin with zeros, as northbridge_over does. Reset it before all else.
 *
 * Keep it apart from table and memory. Do not go on with a copy and with the original: both would give the same tokens.
 */
struct northbridge {
    uint8_t state[NORTHBRIDGE_STATE_SIZE];
    uint8_t *table;
    size_t table_length;
    uint8_t *memory;
    size_t memory_length;
    const uint8_t *leases; /* null: there are no shifts, and the minute is not looked at */
    size_t leases_length;
    uint64_t minute;
};

/* An answer, by the names of its words. A token is 0 where the request gives none; 0 is also the token of the root. */
struct northbridge_answer {
    uint64_t refusal; /* 0 granted */
    uint64_t place;
    uint64_t first;
    uint64_t second;
    uint64_t dropped;
    uint64_t length; /* of a dump's text, in bytes */
};

/* A request, as northbridge_serve takes it. */
struct northbridge_request {
    uint8_t bytes[NORTHBRIDGE_REQUEST_SIZE];
};

/* A machine over a table and a memory, still to be reset. */
static inline struct northbridge northbridge_over(void *table, size_t table_length, void *memory, size_t memory_length)
{
    struct northbridge bridge = {{0}, (uint8_t *)table, table_length, (uint8_t *)memory, memory_length, NULL, 0, 0};
    return bridge;
}

/* Word i of a slice, the low byte first. Byte by byte, without a loop, compilers make it one load or one store. */
static inline uint64_t northbridge_word(const uint8_t *slice, size_t i)
{
    const uint8_t *bytes = slice + 8 * i;
    return (uint64_t)bytes[0] | (uint64_t)bytes[1] << 8 | (uint64_t)bytes[2] << 16 | (uint64_t)bytes[3] << 24
        | (uint64_t)bytes[4] << 32 | (uint64_t)bytes[5] << 40 | (uint64_t)bytes[6] << 48 | (uint64_t)bytes[7] << 56;
}

static inline void northbridge_put_word(uint8_t *slice, size_t i, uint64_t word)
{
    uint8_t *bytes = slice + 8 * i;
    bytes[0] = (uint8_t)word;
    bytes[1] = (uint8_t)(word >> 8);
    bytes[2] = (uint8_t)(word >> 16);
    bytes[3] = (uint8_t)(word >> 24);
    bytes[4] = (uint8_t)(word >> 32);
    bytes[5] = (uint8_t)(word >> 40);
    bytes[6] = (uint8_t)(word >> 48);
    bytes[7] = (uint8_t)(word >> 56);
}

/*
 * How many numbers create, derive, execute-only and page out can still give. It is a word of the state: this calls nothing and does not look at the
 * table. From a reset on it is what a count of the table would give.
 */
static inline uint64_t northbridge_free_total(const struct northbridge *bridge)
{
    return northbridge_word(bridge->state, NORTHBRIDGE_FREE_TOTAL);
}

/* A word of a request, by enum northbridge_request_word, is set. */
static inline void northbridge_set(struct northbridge_request *request, size_t word, uint64_t value)
{
    northbridge_put_word(request->bytes, word, value);
}

/* A request of an operation and a token; its other words are zero. */
static inline struct northbridge_request northbridge_request_of(uint64_t operation, uint64_t token)
{
    struct northbridge_request request = {{0}};
    northbridge_set(&request, NORTHBRIDGE_OPERATION, operation);
    northbridge_set(&request, NORTHBRIDGE_TOKEN, token);
    return request;
}

/*
 * From now on these leases are lent with each call. They stay the caller's, who may change them between two calls; null ends this. While
 * leases are lent, accesses are refused (1) until the minute is given.
 */
static inline void northbridge_lend_leases(struct northbridge *bridge, const void *leases, size_t length)
{
    bridge->leases = (const uint8_t *)leases;
    bridge->leases_length = length;
    bridge->minute = NORTHBRIDGE_WEEK;
}

/*
 * The minute of the week for the accesses that follow. It stands in the struct until it is set again, and may be set back; the library
 * keeps none.
 */
static inline void northbridge_at_minute(struct northbridge *bridge, uint64_t minute)
{
    bridge->minute = minute;
}

/* The minute of the week of a day, Monday being 0, and a time of day. */
static inline uint64_t northbridge_minute_of(uint64_t day, uint64_t hour, uint64_t minute)
{
    return 1440 * day + 60 * hour + minute;
}

/* Whether requests of an operation bring a minute and look at leases. */
static inline int northbridge_is_leased(uint64_t operation)
{
    switch (operation) {
    case NORTHBRIDGE_READ:
    case NORTHBRIDGE_WRITE:
    case NORTHBRIDGE_FETCH:
    case NORTHBRIDGE_LOAD:
    case NORTHBRIDGE_DUMP: return 1;
    default: return 0;
    }
}

/* An answer's bytes, by the names of their words. */
static inline struct northbridge_answer northbridge_answer_of(const uint8_t *told)
{
    struct northbridge_answer answer;
    answer.refusal = northbridge_word(told, NORTHBRIDGE_REFUSAL);
    answer.place = northbridge_word(told, NORTHBRIDGE_PLACE);
    answer.first = northbridge_word(told, NORTHBRIDGE_FIRST);
    answer.second = northbridge_word(told, NORTHBRIDGE_SECOND_TOKEN);
    answer.dropped = northbridge_word(told, NORTHBRIDGE_DROPPED);
    answer.length = northbridge_word(told, NORTHBRIDGE_ANSWER_LENGTH);
    return answer;
}

/*
 * Serves any request. The buffer is lent as table and memory are: null lends none. Where leases are lent, the machine's minute goes into
 * the second word of an access, a load or a dump.
 */
static inline struct northbridge_answer northbridge_ask(
    struct northbridge *bridge, const struct northbridge_request *request, void *buffer, size_t length)
{
    uint8_t told[NORTHBRIDGE_ANSWER_SIZE];
    uint8_t none[1] = {0}; /* what is not lent is the slice of no bytes that begins here */
    uint8_t *table = bridge->table ? bridge->table : none, *memory = bridge->memory ? bridge->memory : none;
    size_t table_length = bridge->table ? bridge->table_length : 0, memory_length = bridge->memory ? bridge->memory_length : 0;
    uint8_t *lent = buffer ? (uint8_t *)buffer : none;
    size_t lent_length = buffer ? length : 0;
    if (bridge->leases) {
        struct northbridge_request timed = *request;
        if (northbridge_is_leased(northbridge_word(timed.bytes, NORTHBRIDGE_OPERATION))) {
            northbridge_set(&timed, NORTHBRIDGE_SECOND, bridge->minute);
        }
        (void)northbridge_serve_leased(
            timed.bytes, sizeof timed.bytes, bridge->state, sizeof bridge->state, table, table_length, memory, memory_length,
            lent, lent_length, told, sizeof told, bridge->leases, bridge->leases_length);
    } else {
        (void)northbridge_serve(
            request->bytes, sizeof request->bytes, bridge->state, sizeof bridge->state, table, table_length, memory, memory_length,
            lent, lent_length, told, sizeof told);
    }
    return northbridge_answer_of(told);
}

/* The root over all of memory, whose token is 0; every other entry becomes zeros, kept tags too. The key is secret, the first nonce is 1 or more. */
static inline struct northbridge_answer northbridge_reset(struct northbridge *bridge, uint64_t key0, uint64_t key1, uint64_t first_nonce)
{
    struct northbridge_request request = northbridge_request_of(NORTHBRIDGE_RESET, key0);
    northbridge_set(&request, NORTHBRIDGE_SECOND, key1);
    northbridge_set(&request, NORTHBRIDGE_TASK, first_nonce);
    return northbridge_ask(bridge, &request, NULL, 0);
}

/* The bytes at an address, a token with an offset, go to the buffer. Task 0 is none. */
static inline struct northbridge_answer northbridge_read(
    struct northbridge *bridge, uint64_t address, uint64_t task, void *buffer, size_t length)
{
    struct northbridge_request request = northbridge_request_of(NORTHBRIDGE_READ, address);
    northbridge_set(&request, NORTHBRIDGE_TASK, task);
    return northbridge_ask(bridge, &request, buffer, length);
}

/* The bytes go to the address. They are only read. */
static inline struct northbridge_answer northbridge_write(
    struct northbridge *bridge, uint64_t address, uint64_t task, const void *bytes, size_t length)
{
    struct northbridge_request request = northbridge_request_of(NORTHBRIDGE_WRITE, address);
    northbridge_set(&request, NORTHBRIDGE_TASK, task);
    return northbridge_ask(bridge, &request, (void *)(uintptr_t)bytes, length);
}

/* As read, for instructions. */
static inline struct northbridge_answer northbridge_fetch(
    struct northbridge *bridge, uint64_t address, uint64_t task, void *buffer, size_t length)
{
    struct northbridge_request request = northbridge_request_of(NORTHBRIDGE_FETCH, address);
    northbridge_set(&request, NORTHBRIDGE_TASK, task);
    return northbridge_ask(bridge, &request, buffer, length);
}

/* A segment's front part becomes a segment of its own. First: the part's token; second: the rest's, 0 if nothing is left. */
static inline struct northbridge_answer northbridge_create(
    struct northbridge *bridge, uint64_t token, uint64_t task, uint64_t length, uint64_t user, uint64_t permissions, uint64_t encoding)
{
    struct northbridge_request request = northbridge_request_of(NORTHBRIDGE_CREATE, token);
    northbridge_set(&request, NORTHBRIDGE_TASK, task);
    northbridge_set(&request, NORTHBRIDGE_LENGTH, length);
    northbridge_set(&request, NORTHBRIDGE_USER, user);
    northbridge_set(&request, NORTHBRIDGE_PERMISSIONS, permissions);
    northbridge_set(&request, NORTHBRIDGE_ENCODING, encoding);
    return northbridge_ask(bridge, &request, NULL, 0);
}

/* Two segments become one; the second begins where the first ends. First: its token. */
static inline struct northbridge_answer northbridge_merge(
    struct northbridge *bridge, uint64_t token, uint64_t second, uint64_t task, uint64_t encoding)
{
    struct northbridge_request request = northbridge_request_of(NORTHBRIDGE_MERGE, token);
    northbridge_set(&request, NORTHBRIDGE_SECOND, second);
    northbridge_set(&request, NORTHBRIDGE_TASK, task);
    northbridge_set(&request, NORTHBRIDGE_ENCODING, encoding);
    return northbridge_ask(bridge, &request, NULL, 0);
}

/* A child over a part of what the token names, or over all of it; offset + length is at most the parent's length. First: the child's token. */
static inline struct northbridge_answer northbridge_derive(
    struct northbridge *bridge, uint64_t token, uint64_t offset, uint64_t length, uint64_t permissions, uint64_t encoding)
{
    struct northbridge_request request = northbridge_request_of(NORTHBRIDGE_DERIVE, token);
    northbridge_set(&request, NORTHBRIDGE_SECOND, offset);
    northbridge_set(&request, NORTHBRIDGE_LENGTH, length);
    northbridge_set(&request, NORTHBRIDGE_PERMISSIONS, permissions);
    northbridge_set(&request, NORTHBRIDGE_ENCODING, encoding);
    return northbridge_ask(bridge, &request, NULL, 0);
}

/* A child over the whole of what the token names, with X alone. First: its token. */
static inline struct northbridge_answer northbridge_execute_only(struct northbridge *bridge, uint64_t token, uint64_t encoding)
{
    struct northbridge_request request = northbridge_request_of(NORTHBRIDGE_EXECUTE_ONLY, token);
    northbridge_set(&request, NORTHBRIDGE_ENCODING, encoding);
    return northbridge_ask(bridge, &request, NULL, 0);
}

/* The entry's count rises by one. */
static inline struct northbridge_answer northbridge_clone(struct northbridge *bridge, uint64_t token)
{
    struct northbridge_request request = northbridge_request_of(NORTHBRIDGE_CLONE, token);
    return northbridge_ask(bridge, &request, NULL, 0);
}

/* The entry's count falls by one; a child's entry is freed at 0. Dropped: 1 if the count fell to 0, else 0. */
static inline struct northbridge_answer northbridge_drop(struct northbridge *bridge, uint64_t token)
{
    struct northbridge_request request = northbridge_request_of(NORTHBRIDGE_DROP, token);
    return northbridge_ask(bridge, &request, NULL, 0);
}

/* The segment that the token lies in is locked for the task, which is not 0. */
static inline struct northbridge_answer northbridge_lock(struct northbridge *bridge, uint64_t token, uint64_t task)
{
    struct northbridge_request request = northbridge_request_of(NORTHBRIDGE_LOCK, token);
    northbridge_set(&request, NORTHBRIDGE_TASK, task);
    return northbridge_ask(bridge, &request, NULL, 0);
}

static inline struct northbridge_answer northbridge_unlock(struct northbridge *bridge, uint64_t token, uint64_t task)
{
    struct northbridge_request request = northbridge_request_of(NORTHBRIDGE_UNLOCK, token);
    northbridge_set(&request, NORTHBRIDGE_TASK, task);
    return northbridge_ask(bridge, &request, NULL, 0);
}

/* The segment becomes zeros under a new token, which is first; tokens given for it or below it before open no access. */
static inline struct northbridge_answer northbridge_revoke(struct northbridge *bridge, uint64_t token, uint64_t encoding)
{
    struct northbridge_request request = northbridge_request_of(NORTHBRIDGE_REVOKE, token);
    northbridge_set(&request, NORTHBRIDGE_ENCODING, encoding);
    return northbridge_ask(bridge, &request, NULL, 0);
}

/* What the text, Intel HEX, says is written to what the token names, all of it or nothing. The text is only read; the token has no offset. */
static inline struct northbridge_answer northbridge_load(
    struct northbridge *bridge, uint64_t token, uint64_t task, const void *text, size_t length)
{
    struct northbridge_request request = northbridge_request_of(NORTHBRIDGE_LOAD, token);
    northbridge_set(&request, NORTHBRIDGE_TASK, task);
    return northbridge_ask(bridge, &request, (void *)(uintptr_t)text, length);
}

/* How many bytes the text has that a dump of so many bytes writes: what its buffer must have. */
static inline uint64_t northbridge_text_length(uint64_t bytes)
{
    return 28 + 44 * (bytes / 16) + (bytes % 16 ? 12 + 2 * (bytes % 16) : 0);
}

/* All bytes of what the token names go to the buffer's front as Intel HEX. Length: the text's; what stands behind it stays. */
static inline struct northbridge_answer northbridge_dump(
    struct northbridge *bridge, uint64_t token, uint64_t task, void *buffer, size_t length)
{
    struct northbridge_request request = northbridge_request_of(NORTHBRIDGE_DUMP, token);
    northbridge_set(&request, NORTHBRIDGE_TASK, task);
    return northbridge_ask(bridge, &request, buffer, length);
}

/*
 * A segment's bytes go to the buffer, which is as long, and its entry is paged out: from then on it is for northbridge_page_in alone. The
 * segment becomes zeros, with all rights, under a number of its own. The page-file number is the caller's, who keeps the bytes; the
 * machine keeps it in the entry. First: the entry's new token; second: that of the segment.
 */
static inline struct northbridge_answer northbridge_page_out(
    struct northbridge *bridge, uint64_t token, uint64_t page_file, uint64_t task, void *buffer, size_t length, uint64_t encoding)
{
    struct northbridge_request request = northbridge_request_of(NORTHBRIDGE_PAGE_OUT, token);
    northbridge_set(&request, NORTHBRIDGE_SECOND, page_file);
    northbridge_set(&request, NORTHBRIDGE_TASK, task);
    northbridge_set(&request, NORTHBRIDGE_ENCODING, encoding);
    return northbridge_ask(bridge, &request, buffer, length);
}

/*
 * The bytes, which are only read, go to the segment of the donor, as long, unlocked and at count 0. It becomes the paged entry's, and the
 * donor's number is freed. First: the entry's new token.
 */
static inline struct northbridge_answer northbridge_page_in(
    struct northbridge *bridge, uint64_t token, uint64_t donor, uint64_t task, const void *bytes, size_t length, uint64_t encoding)
{
    struct northbridge_request request = northbridge_request_of(NORTHBRIDGE_PAGE_IN, token);
    northbridge_set(&request, NORTHBRIDGE_SECOND, donor);
    northbridge_set(&request, NORTHBRIDGE_TASK, task);
    northbridge_set(&request, NORTHBRIDGE_ENCODING, encoding);
    return northbridge_ask(bridge, &request, (void *)(uintptr_t)bytes, length);
}

/* ---- Tokens. Any 64-bit word is some token's. */

/* This word names a number beyond every table: each request that names an entry by it is refused. */
#define NORTHBRIDGE_NO_TOKEN (~(uint64_t)0)

struct northbridge_fields {
    uint64_t encoding; /* 2 bits: 0 to 3 */
    uint64_t tag;      /* 16 bits */
    uint64_t number;   /* 14, 46, 30 or 22 bits, by the encoding */
    uint64_t offset;   /* 32, 0, 16 or 24 bits */
};

static inline unsigned northbridge_offset_width(uint64_t encoding)
{
    switch (encoding) {
    case 0: return 32;
    case 1: return 0;
    case 2: return 16;
    default: return 24;
    }
}

/* The fields of a token. */
static inline struct northbridge_fields northbridge_fields_of(uint64_t token)
{
    struct northbridge_fields fields;
    unsigned width = northbridge_offset_width(token >> 62);
    fields.encoding = token >> 62;
    fields.tag = token >> 46 & 0xffff;
    fields.number = (token & (((uint64_t)1 << 46) - 1)) >> width;
    fields.offset = token & (((uint64_t)1 << width) - 1);
    return fields;
}

/* The token of such fields; NORTHBRIDGE_NO_TOKEN if one does not fit. With another encoding it is the same token in that encoding. */
static inline uint64_t northbridge_token_of(struct northbridge_fields fields)
{
    unsigned width = northbridge_offset_width(fields.encoding);
    if (fields.encoding > 3 || fields.tag >> 16 || fields.number >> (46 - width) || fields.offset >> width) {
        return NORTHBRIDGE_NO_TOKEN;
    }
    return fields.encoding << 62 | fields.tag << 46 | fields.number << width | fields.offset;
}

/*
 * The address so many bytes further on; NORTHBRIDGE_NO_TOKEN if the token's encoding has no room for it. In encoding 1, which has no
 * offset, a plain sum would be another entry's token.
 */
static inline uint64_t northbridge_at(uint64_t token, uint64_t offset)
{
    struct northbridge_fields fields = northbridge_fields_of(token);
    if (offset >> 32) {
        return NORTHBRIDGE_NO_TOKEN;
    }
    fields.offset += offset;
    return northbridge_token_of(fields);
}

/*
 * Lease i of a table of leases: the token, in any encoding, is open from one minute of the week up to the minute before another. A number
 * or a minute that has no room in 16 bits makes it a lease for which every access is refused (16).
 */
static inline void northbridge_put_lease(uint8_t *leases, size_t i, uint64_t token, uint64_t opening, uint64_t closing)
{
    struct northbridge_fields fields = northbridge_fields_of(token);
    int fits = !(fields.number >> 16) && !(opening >> 16) && !(closing >> 16);
    uint64_t lease = fields.number | fields.tag << 16 | opening << 32 | closing << 48;
    northbridge_put_word(leases, i, fits ? lease : ~(uint64_t)0);
}

/* What a refusal means, in a few words. */
static inline const char *northbridge_refusal_text(uint64_t refusal)
{
    switch (refusal) {
    case NORTHBRIDGE_GRANTED: return "granted";
    case NORTHBRIDGE_BAD_REQUEST: return "bad request";
    case NORTHBRIDGE_NO_ENTRY: return "no such entry";
    case NORTHBRIDGE_ILL_FORMED: return "ill-formed";
    case NORTHBRIDGE_DEAD: return "dead line";
    case NORTHBRIDGE_LOCKED: return "locked for another task";
    case NORTHBRIDGE_KIND: return "wrong kind of entry";
    case NORTHBRIDGE_RIGHT: return "right lacking";
    case NORTHBRIDGE_BOUNDS: return "out of bounds";
    case NORTHBRIDGE_STANDING: return "standing forbids it";
    case NORTHBRIDGE_NO_NUMBER: return "no free number";
    case NORTHBRIDGE_NO_NONCE: return "too few nonces";
    case NORTHBRIDGE_MALFORMED: return "malformed record or ending";
    case NORTHBRIDGE_CHECKSUM: return "wrong checksum";
    case NORTHBRIDGE_NO_ROOM: return "no room for the output";
    case NORTHBRIDGE_CLOSED: return "closed";
    case NORTHBRIDGE_BAD_LEASE: return "bad lease";
    case NORTHBRIDGE_PAGED: return "paged out";
    default: return "no refusal of the interface";
    }
}

#endif

#ifdef __cplusplus
}
#endif

#endif
