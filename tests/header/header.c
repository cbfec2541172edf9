/* The header against the archive, with nothing else: every named cause is provoked in every function that can give it, every limit and macro is
 * tried at its edges, and *value is looked at after every call. A call that is turned down must leave table and output as they were.
 * C11 and C++11. Prints what is wrong and leaves with status 1, or prints the causes that each function gave and the number of answers compared. */
#include <assert.h>
#include <inttypes.h>
#include <stdio.h>
#include <stdlib.h>
#include <string.h>

#include "limgoshi.h"

#define B1_MAX LIMGOSHI_BUCKETS1_MAX
#define B2_MAX LIMGOSHI_BUCKETS2_MAX
#define POISON 0xDEADBEEFDEADBEEFu /* *value before each call */
#define ROOM 7000 /* for lengths and bucket numbers out of range, whatever the header says of them */

/* Smallest and largest. */
static_assert(LIMGOSHI_TABLE_NUMBERS(1, 1) == 536 && LIMGOSHI_TABLE_NUMBERS(B1_MAX, B2_MAX) == 6308, "numbers of a table");
static_assert(LIMGOSHI_PLANE_BYTES(1, 1, 0) == 142 && LIMGOSHI_PLANE_BYTES(B1_MAX, B2_MAX, LIMGOSHI_BASE_MAX) == 5930, "bytes of a plane");
static_assert(LIMGOSHI_PATCH_BYTES(0, 0, 0) == 22 && LIMGOSHI_PATCH_BYTES(B1_MAX + B2_MAX, LIMGOSHI_BASE_MAX, LIMGOSHI_BASE_MAX) == 6598, "bytes of a patch");
static_assert(LIMGOSHI_PLANS == UINT8_MAX + 1 && LIMGOSHI_CALL_THE_DESK == UINT8_MAX, "plans");
static_assert(LIMGOSHI_PATCH_BYTES(1, 0, 0) == 89, "bytes of the patch of a changed plan");

static uint64_t table[ROOM], table_before[ROOM];
static uint8_t out[ROOM], out_before[ROOM], old_plane[ROOM], new_plane[ROOM], patch[ROOM];
static uint64_t value;
static int failed, compared;

/* The function that was called last, and the causes that each has given. */
enum { OPEN, ADD, CHANGE, WITHDRAW, QUERY, PLAN_TOTAL, WRITE_PLANE, PLANE_LOOKUP, MAKE_PATCH, APPLY_PATCH, FUNCTIONS };
enum { NUMBERS = 64 }; /* more than there are causes */
static int called, given[FUNCTIONS][NUMBERS];
#define limgoshi_open(...) (called = OPEN, limgoshi_open(__VA_ARGS__))
#define limgoshi_add(...) (called = ADD, limgoshi_add(__VA_ARGS__))
#define limgoshi_change(...) (called = CHANGE, limgoshi_change(__VA_ARGS__))
#define limgoshi_withdraw(...) (called = WITHDRAW, limgoshi_withdraw(__VA_ARGS__))
#define limgoshi_query(...) (called = QUERY, limgoshi_query(__VA_ARGS__))
#define limgoshi_plan_total(...) (called = PLAN_TOTAL, limgoshi_plan_total(__VA_ARGS__))
#define limgoshi_write_plane(...) (called = WRITE_PLANE, limgoshi_write_plane(__VA_ARGS__))
#define limgoshi_plane_lookup(...) (called = PLANE_LOOKUP, limgoshi_plane_lookup(__VA_ARGS__))
#define limgoshi_make_patch(...) (called = MAKE_PATCH, limgoshi_make_patch(__VA_ARGS__))
#define limgoshi_apply_patch(...) (called = APPLY_PATCH, limgoshi_apply_patch(__VA_ARGS__))

/* Identifiers: cards of every kind; one as long as it may be; one that is too long and has no byte that is allowed. */
static const uint8_t kinds[] = {LIMGOSHI_CENTRAL, LIMGOSHI_EMAID, LIMGOSHI_ISO14443, LIMGOSHI_ISO15693, LIMGOSHI_KEY_CODE, LIMGOSHI_LOCAL, LIMGOSHI_MAC_ADDRESS};
static const uint8_t *bytes(const char *text) { return (const uint8_t *)text; }
static uint8_t card_kind(unsigned n) { return kinds[n % sizeof kinds]; }
static const char *card(unsigned n)
{
    static char text[32];
    snprintf(text, sizeof text, "Card-%u", n);
    return text;
}
static const char longest[] = "abcdefghijklmnopqrstuvwxyz0123456789";
static_assert(sizeof longest - 1 == LIMGOSHI_ID_MAX, "bytes of an identifier");
#define TOO_LONG (LIMGOSHI_ID_MAX + 1)
static uint8_t slashes[TOO_LONG];

static void wrong(int line, const char *what)
{
    printf("header.c:%d: %s\n", line, what);
    failed = 1;
}

static void before(void)
{
    value = POISON;
    memcpy(table_before, table, sizeof table);
    memcpy(out_before, out, sizeof out);
}

static void after(int line, const char *call, uint64_t got, uint64_t cause, uint64_t want)
{
    compared++;
    if (got < NUMBERS)
        given[called][got] = 1;
    else
        wrong(line, "a number that is no cause");
    if (got != cause || value != want) {
        printf("header.c:%d: %s: answer %" PRIu64 ", value %" PRIu64 ", and not %" PRIu64 ", %" PRIu64 "\n", line, call, got, value, cause, want);
        failed = 1;
    }
    if (cause != 0 && (memcmp(table_before, table, sizeof table) != 0 || memcmp(out_before, out, sizeof out) != 0))
        wrong(line, "turned down, and table or output changed");
}

/* The call is answered with this cause and this value. */
#define ANSWERS(call, cause, want) \
    do { \
        before(); \
        uint64_t got_ = (call); \
        after(__LINE__, #call, got_, (cause), (want)); \
    } while (0)

#define HOLDS(fact) \
    do { \
        if (!(fact)) \
            wrong(__LINE__, #fact); \
    } while (0)

/* The four calls on an identifier and a table, its kind, and the plan that two of them give. */
static uint8_t given_kind = LIMGOSHI_EMAID, given_plan = 77;
static uint64_t table_call(int which, uint64_t *t, size_t n, const uint8_t *id, size_t length)
{
    switch (which) {
    case ADD: return limgoshi_add(t, n, given_kind, id, length, given_plan, &value);
    case CHANGE: return limgoshi_change(t, n, given_kind, id, length, given_plan, &value);
    case WITHDRAW: return limgoshi_withdraw(t, n, given_kind, id, length, &value);
    default: return limgoshi_query(t, n, given_kind, id, length, &value);
    }
}

/* A plane made by hand: header, empty buckets with bound 8, base records with the words 0, 1, .., end. Returns its length. */
static size_t make_plane(uint8_t to[ROOM], unsigned b1, unsigned b2, unsigned entries)
{
    const uint8_t head[5] = {1, 1, (uint8_t)b1, (uint8_t)b2, (uint8_t)entries};
    size_t at = sizeof head;
    memset(to, 0, ROOM);
    memcpy(to, head, sizeof head);
    for (unsigned i = 0; i < b1 + b2; i++, at += 66) {
        to[at] = 2;
        to[at + 1] = 8;
    }
    for (unsigned i = 0; i < entries; i++, at += 10) {
        to[at] = 3;
        to[at + 1] = (uint8_t)i;
    }
    memcpy(to + at, "\4END\n", 5);
    return at + 5;
}

/* Every pair of bucket numbers and those next to the range: a table of the right length, one more, one less; an output of the right length, one less,
 * longer; the totals of the first plan and the last. */
static void openings(void)
{
    for (unsigned b1 = 0; b1 <= B1_MAX + 1; b1++) {
        for (unsigned b2 = 0; b2 <= B2_MAX + 1; b2++) {
            size_t n = LIMGOSHI_TABLE_NUMBERS(b1, b2);
            size_t length = LIMGOSHI_PLANE_BYTES(b1, b2, 0);
            if (b1 < 1 || b1 > B1_MAX || b2 < 1 || b2 > B2_MAX) {
                ANSWERS(limgoshi_open(table, n, b1, b2, &value), LIMGOSHI_WRONG_BUCKETS, 0);
                table[0] = b1;
                table[1] = b2;
                ANSWERS(limgoshi_plan_total(table, n, 0, &value), LIMGOSHI_WRONG_TABLE, n);
                continue;
            }
            ANSWERS(limgoshi_open(table, n - 1, b1, b2, &value), LIMGOSHI_WRONG_TABLE, n - 1);
            ANSWERS(limgoshi_open(table, n + 1, b1, b2, &value), LIMGOSHI_WRONG_TABLE, n + 1);
            ANSWERS(limgoshi_open(table, n, b1, b2, &value), LIMGOSHI_ACCEPTED, 0);
            ANSWERS(limgoshi_plan_total(table, n - 1, 0, &value), LIMGOSHI_WRONG_TABLE, n - 1);
            ANSWERS(limgoshi_plan_total(table, n + 1, 0, &value), LIMGOSHI_WRONG_TABLE, n + 1);
            ANSWERS(limgoshi_plan_total(table, n, 0, &value), LIMGOSHI_ACCEPTED, 0);
            ANSWERS(limgoshi_plan_total(table, n, UINT8_MAX, &value), LIMGOSHI_ACCEPTED, 0);
            ANSWERS(limgoshi_write_plane(table, n, out, length - 1, &value), LIMGOSHI_SHORT_OUTPUT, length);
            ANSWERS(limgoshi_write_plane(table, n, out, length, &value), LIMGOSHI_ACCEPTED, length);
            memset(out, 0xA5, sizeof out);
            ANSWERS(limgoshi_write_plane(table, n, out, sizeof out, &value), LIMGOSHI_ACCEPTED, length);
            HOLDS(memcmp(out + length, out_before + length, sizeof out - length) == 0);
        }
    }
    ANSWERS(limgoshi_open(table, 536, UINT64_MAX, 1, &value), LIMGOSHI_WRONG_BUCKETS, 0);
    ANSWERS(limgoshi_open(table, 0, 1, 0, &value), LIMGOSHI_WRONG_BUCKETS, 0); /* 3 is tested before 4 */
}

/* Lengths and bytes of an identifier, in every function that takes one. */
static void identifiers(void)
{
    static const char allowed[] = "ABCDEFGHIJKLMNOPQRSTUVWXYZabcdefghijklmnopqrstuvwxyz0123456789*-_=:+|@.";
    uint8_t id[LIMGOSHI_ID_MAX + 1];
    size_t n = LIMGOSHI_TABLE_NUMBERS(1, 1), length = make_plane(out, 1, 1, 0);
    ANSWERS(limgoshi_open(table, n, 1, 1, &value), LIMGOSHI_ACCEPTED, 0);
    memset(id, 'x', sizeof id);
    for (size_t k = 0; k <= sizeof id; k += k == 1 ? LIMGOSHI_ID_MAX - 1 : 1) { /* 0, 1, 36, 37 */
        int right = k >= 1 && k <= LIMGOSHI_ID_MAX;
        for (int which = CHANGE; which <= QUERY; which++)
            ANSWERS(table_call(which, table, n, id, k), right ? LIMGOSHI_NOT_LIVE : LIMGOSHI_WRONG_LENGTH, right ? 0 : k);
        ANSWERS(limgoshi_plane_lookup(given_kind, id, k, out, length, &value), right ? LIMGOSHI_ACCEPTED : LIMGOSHI_WRONG_LENGTH, right ? 0 : k);
        ANSWERS(table_call(ADD, table, n, id, k), right ? LIMGOSHI_ACCEPTED : LIMGOSHI_WRONG_LENGTH, k == LIMGOSHI_ID_MAX ? 2 : k);
    }
    for (unsigned b = 0; b < 256; b++) {
        int right = b != 0 && strchr(allowed, (int)b) != NULL;
        id[2] = (uint8_t)b;
        id[4] = b == '/' ? '/' : 'x'; /* the first counts */
        ANSWERS(limgoshi_plane_lookup(given_kind, id, 5, out, length, &value), right ? LIMGOSHI_ACCEPTED : LIMGOSHI_WRONG_BYTE, right ? 0 : 2);
        for (int which = CHANGE; which <= QUERY; which++)
            ANSWERS(table_call(which, table, n, id, 5), right ? LIMGOSHI_NOT_LIVE : LIMGOSHI_WRONG_BYTE, right ? 0 : 2);
        if (!right)
            ANSWERS(table_call(ADD, table, n, id, 5), LIMGOSHI_WRONG_BYTE, 2);
    }
}

/* FNV-1a 64. */
static uint64_t sum(const uint8_t *from, size_t length)
{
    uint64_t n = 0xcbf29ce484222325u;
    for (size_t i = 0; i < length; i++)
        n = (n ^ from[i]) * 0x100000001b3u;
    return n;
}

/* The output step of SplitMix64. */
static uint64_t mix(uint64_t n)
{
    n += 0x9e3779b97f4a7c15u;
    n = (n ^ n >> 30) * 0xbf58476d1ce4e5b9u;
    n = (n ^ n >> 27) * 0x94d049bb133111ebu;
    return n ^ n >> 31;
}

/* The word of the one identifier that is live, held by the first bucket: the matrix is its own inverse, and its occupied row is the word. */
static uint64_t only_word(void)
{
    const uint64_t *columns = table + 4 + LIMGOSHI_PLANS, mark = columns[64];
    uint64_t word = 0;
    HOLDS(table[3] == 1 && mark != 0 && (mark & (mark - 1)) == 0);
    for (unsigned i = 0; i < 64; i++)
        word |= (uint64_t)((columns[i] & mark) != 0) << i;
    return word;
}

/* The word of each kind; every number as kind, in every function that takes one. Cause 15 comes before every other, whatever identifier, plan, table
 * and plane are. */
static void every_kind(void)
{
    size_t n = LIMGOSHI_TABLE_NUMBERS(1, 1), length = make_plane(out, 1, 1, 0);
    for (uint8_t k = 1; k <= sizeof kinds; k++) {
        const uint8_t hashed[] = {k, 'B', 'U', 'S', '-', '1', '7'};
        ANSWERS(limgoshi_open(table, n, 1, 1, &value), LIMGOSHI_ACCEPTED, 0);
        ANSWERS(limgoshi_add(table, n, kinds[k - 1], bytes("Bus-17"), 6, 40, &value), LIMGOSHI_ACCEPTED, 1);
        HOLDS(only_word() == mix(sum(hashed, sizeof hashed)));
    }
    for (unsigned k = 0; k < 256; k++) {
        int right = k >= 1 && k <= 7;
        given_kind = (uint8_t)k;
        ANSWERS(limgoshi_open(table, n, 1, 1, &value), LIMGOSHI_ACCEPTED, 0);
        ANSWERS(limgoshi_plane_lookup(given_kind, bytes("bus-17"), 6, out, length, &value), right ? LIMGOSHI_ACCEPTED : LIMGOSHI_WRONG_KIND, 0);
        ANSWERS(limgoshi_plane_lookup(given_kind, NULL, 0, NULL, 0, &value), right ? LIMGOSHI_WRONG_LENGTH : LIMGOSHI_WRONG_KIND, 0);
        for (int which = CHANGE; which <= QUERY; which++)
            ANSWERS(table_call(which, table, n, bytes("bus-17"), 6), right ? LIMGOSHI_NOT_LIVE : LIMGOSHI_WRONG_KIND, 0);
        ANSWERS(table_call(ADD, table, n, bytes("bus-17"), 6), right ? LIMGOSHI_ACCEPTED : LIMGOSHI_WRONG_KIND, right ? 1 : 0);
        if (right)
            continue;
        for (int which = ADD; which <= QUERY; which++) {
            ANSWERS(table_call(which, NULL, 0, NULL, 0), LIMGOSHI_WRONG_KIND, 0);
            ANSWERS(table_call(which, table, n, NULL, 0), LIMGOSHI_WRONG_KIND, 0);
            ANSWERS(table_call(which, table, n, slashes, TOO_LONG), LIMGOSHI_WRONG_KIND, 0);
            ANSWERS(table_call(which, table, n, slashes, 6), LIMGOSHI_WRONG_KIND, 0);
            ANSWERS(table_call(which, table, n - 1, bytes("bus-17"), 6), LIMGOSHI_WRONG_KIND, 0);
            given_plan = LIMGOSHI_CALL_THE_DESK;
            ANSWERS(table_call(which, table, n, bytes("bus-17"), 6), LIMGOSHI_WRONG_KIND, 0);
            given_plan = 77;
            table[3]++; /* not sound */
            ANSWERS(table_call(which, table, n, bytes("bus-17"), 6), LIMGOSHI_WRONG_KIND, 0);
            table[3]--;
        }
        ANSWERS(limgoshi_plane_lookup(given_kind, NULL, 0, out, length, &value), LIMGOSHI_WRONG_KIND, 0);
        ANSWERS(limgoshi_plane_lookup(given_kind, slashes, TOO_LONG, out, length, &value), LIMGOSHI_WRONG_KIND, 0);
        ANSWERS(limgoshi_plane_lookup(given_kind, slashes, 6, out, length, &value), LIMGOSHI_WRONG_KIND, 0);
        ANSWERS(limgoshi_plane_lookup(given_kind, bytes("bus-17"), 6, out, length - 1, &value), LIMGOSHI_WRONG_KIND, 0);
    }
    given_kind = LIMGOSHI_EMAID;
}

/* Table and plane of `same_bytes`: each kind has the plan that it was given last, or is not live. */
static void each_plan(size_t n, const uint8_t *id, const uint8_t *plane, size_t length, const int plans[])
{
    for (size_t k = 0; k < sizeof kinds; k++) {
        int live = plans[k] >= 0;
        ANSWERS(limgoshi_query(table, n, kinds[k], id, LIMGOSHI_ID_MAX, &value), live ? LIMGOSHI_ACCEPTED : LIMGOSHI_NOT_LIVE, live ? (uint64_t)plans[k] : 0);
        if (!live)
            continue;
        ANSWERS(limgoshi_plane_lookup(kinds[k], id, LIMGOSHI_ID_MAX, plane, length, &value), LIMGOSHI_ACCEPTED, (uint64_t)plans[k]);
        ANSWERS(limgoshi_plan_total(table, n, (uint8_t)plans[k], &value), LIMGOSHI_ACCEPTED, 1);
    }
}

/* The same bytes under every kind, live at once with plans of their own: in the table, in its plane, and by a patch. */
static void same_bytes(void)
{
    const uint8_t *id = bytes(longest);
    int plans[] = {-1, -1, -1, -1, -1, -1, -1};
    size_t n = LIMGOSHI_TABLE_NUMBERS(2, 1), length = LIMGOSHI_PLANE_BYTES(2, 1, 0);
    ANSWERS(limgoshi_open(table, n, 2, 1, &value), LIMGOSHI_ACCEPTED, 0);
    for (size_t k = 0; k < sizeof kinds; k++) {
        plans[k] = (int)(40 * k);
        ANSWERS(limgoshi_add(table, n, kinds[k], id, LIMGOSHI_ID_MAX, (uint8_t)plans[k], &value), LIMGOSHI_ACCEPTED, k + 1);
        ANSWERS(limgoshi_add(table, n, kinds[k], id, LIMGOSHI_ID_MAX, 9, &value), LIMGOSHI_LIVE, (uint64_t)plans[k]);
        ANSWERS(limgoshi_write_plane(table, n, old_plane, sizeof old_plane, &value), LIMGOSHI_ACCEPTED, length);
        each_plan(n, id, old_plane, length, plans);
    }
    for (size_t k = 0; k < sizeof kinds; k++) {
        ANSWERS(limgoshi_change(table, n, kinds[k], id, LIMGOSHI_ID_MAX, (uint8_t)(k + 1), &value), LIMGOSHI_ACCEPTED, (uint64_t)plans[k]);
        plans[k] = (int)k + 1;
        ANSWERS(limgoshi_write_plane(table, n, new_plane, sizeof new_plane, &value), LIMGOSHI_ACCEPTED, length);
        ANSWERS(limgoshi_make_patch(old_plane, length, new_plane, length, patch, sizeof patch, &value), LIMGOSHI_ACCEPTED, LIMGOSHI_PATCH_BYTES(1, 0, 0));
        ANSWERS(limgoshi_apply_patch(old_plane, length, patch, LIMGOSHI_PATCH_BYTES(1, 0, 0), out, sizeof out, &value), LIMGOSHI_ACCEPTED, length);
        each_plan(n, id, out, length, plans);
        memcpy(old_plane, out, length);
    }
    for (size_t k = 0; k < sizeof kinds; k++) {
        ANSWERS(limgoshi_withdraw(table, n, kinds[k], id, LIMGOSHI_ID_MAX, &value), LIMGOSHI_ACCEPTED, (uint64_t)plans[k]);
        plans[k] = -1;
        ANSWERS(limgoshi_write_plane(table, n, old_plane, sizeof old_plane, &value), LIMGOSHI_ACCEPTED, length);
        each_plan(n, id, old_plane, length, plans);
    }
}

/* The value of each accepted call, and causes 6 and 7. */
static void values(void)
{
    size_t n = LIMGOSHI_TABLE_NUMBERS(3, 2);
    ANSWERS(limgoshi_open(table, n, 3, 2, &value), LIMGOSHI_ACCEPTED, 0);
    ANSWERS(limgoshi_add(table, n, LIMGOSHI_EMAID, bytes("Bus-17"), 6, 40, &value), LIMGOSHI_ACCEPTED, 1);
    ANSWERS(limgoshi_add(table, n, LIMGOSHI_EMAID, bytes("Bus-18"), 6, 254, &value), LIMGOSHI_ACCEPTED, 2);
    ANSWERS(limgoshi_add(table, n, LIMGOSHI_EMAID, bytes("BUS-17"), 6, 41, &value), LIMGOSHI_LIVE, 40);
    ANSWERS(limgoshi_query(table, n, LIMGOSHI_EMAID, bytes("bus-17"), 6, &value), LIMGOSHI_ACCEPTED, 40);
    ANSWERS(limgoshi_change(table, n, LIMGOSHI_EMAID, bytes("bus-17"), 6, 9, &value), LIMGOSHI_ACCEPTED, 40);
    ANSWERS(limgoshi_write_plane(table, n, out, sizeof out, &value), LIMGOSHI_ACCEPTED, LIMGOSHI_PLANE_BYTES(3, 2, 0));
    ANSWERS(limgoshi_plane_lookup(LIMGOSHI_EMAID, bytes("bus-17"), 6, out, LIMGOSHI_PLANE_BYTES(3, 2, 0), &value), LIMGOSHI_ACCEPTED, 9);
    ANSWERS(limgoshi_plane_lookup(LIMGOSHI_EMAID, bytes("bus-18"), 6, out, LIMGOSHI_PLANE_BYTES(3, 2, 0), &value), LIMGOSHI_ACCEPTED, 254);
    ANSWERS(limgoshi_withdraw(table, n, LIMGOSHI_EMAID, bytes("bus-17"), 6, &value), LIMGOSHI_ACCEPTED, 9);
    ANSWERS(limgoshi_withdraw(table, n, LIMGOSHI_EMAID, bytes("bus-17"), 6, &value), LIMGOSHI_NOT_LIVE, 0);
    ANSWERS(limgoshi_change(table, n, LIMGOSHI_EMAID, bytes("bus-17"), 6, 9, &value), LIMGOSHI_NOT_LIVE, 0);
    ANSWERS(limgoshi_query(table, n, LIMGOSHI_EMAID, bytes("bus-17"), 6, &value), LIMGOSHI_NOT_LIVE, 0);
    ANSWERS(limgoshi_add(table, n, LIMGOSHI_EMAID, bytes("bus-17"), 6, 8, &value), LIMGOSHI_ACCEPTED, 2);
}

/* Causes 4 and 5 in every call, and what is tested before what. The table is that of `values`. */
static void order(void)
{
    size_t n = LIMGOSHI_TABLE_NUMBERS(3, 2);
    for (int which = ADD; which <= QUERY; which++) {
        ANSWERS(table_call(which, table, n - 1, slashes, TOO_LONG), LIMGOSHI_WRONG_LENGTH, TOO_LONG);
        ANSWERS(table_call(which, table, n - 1, bytes("bus/17"), 6), LIMGOSHI_WRONG_BYTE, 3);
        for (size_t k = 0; k < 5; k++)
            ANSWERS(table_call(which, table, k, bytes("bus-17"), 6), LIMGOSHI_WRONG_TABLE, k);
        ANSWERS(table_call(which, table, n - 1, bytes("bus-17"), 6), LIMGOSHI_WRONG_TABLE, n - 1);
        ANSWERS(table_call(which, table, n + 1, bytes("bus-17"), 6), LIMGOSHI_WRONG_TABLE, n + 1);
        table[3]++; /* live count */
        ANSWERS(table_call(which, table, n, bytes("bus/17"), 6), LIMGOSHI_WRONG_BYTE, 3);
        ANSWERS(table_call(which, table, n - 1, bytes("bus-17"), 6), LIMGOSHI_WRONG_TABLE, n - 1);
        ANSWERS(table_call(which, table, n, bytes("bus-17"), 6), LIMGOSHI_NOT_SOUND, 0);
        ANSWERS(table_call(which, table, n, bytes("bus-99"), 6), LIMGOSHI_NOT_SOUND, 0);
        table[3]--;
        table[4 + 8]++; /* total of the plan 8 */
        ANSWERS(table_call(which, table, n, bytes("bus-17"), 6), LIMGOSHI_NOT_SOUND, 0);
        table[4 + 8]--;
        table[0] = B1_MAX + 1; /* buckets of level 1 */
        n = LIMGOSHI_TABLE_NUMBERS(B1_MAX + 1, 2);
        ANSWERS(table_call(which, table, n, bytes("bus-17"), 6), LIMGOSHI_WRONG_TABLE, n);
        table[0] = 3;
        n = LIMGOSHI_TABLE_NUMBERS(3, 2);
    }
    ANSWERS(limgoshi_write_plane(table, n - 1, out, 0, &value), LIMGOSHI_WRONG_TABLE, n - 1);
    for (size_t k = 0; k < 5; k++)
        ANSWERS(limgoshi_plan_total(table, k, 8, &value), LIMGOSHI_WRONG_TABLE, k);
    table[3]++;
    ANSWERS(limgoshi_write_plane(table, n, out, 0, &value), LIMGOSHI_NOT_SOUND, 0);
    ANSWERS(limgoshi_write_plane(table, n + 1, out, 0, &value), LIMGOSHI_WRONG_TABLE, n + 1);
    ANSWERS(limgoshi_plan_total(table, n, 8, &value), LIMGOSHI_ACCEPTED, 1); /* sound or not */
    ANSWERS(limgoshi_plan_total(table, n + 1, 8, &value), LIMGOSHI_WRONG_TABLE, n + 1);
    table[3]--;
    table[4 + 8]++;
    ANSWERS(limgoshi_write_plane(table, n, out, 0, &value), LIMGOSHI_NOT_SOUND, 0);
    ANSWERS(limgoshi_plan_total(table, n, 8, &value), LIMGOSHI_ACCEPTED, 2);
    table[4 + 8]--;
    out[0] = 9;
    ANSWERS(limgoshi_plane_lookup(LIMGOSHI_EMAID, slashes, TOO_LONG, out, 142, &value), LIMGOSHI_WRONG_LENGTH, TOO_LONG);
    ANSWERS(limgoshi_plane_lookup(LIMGOSHI_EMAID, bytes("bus-17/"), 7, out, 142, &value), LIMGOSHI_WRONG_BYTE, 6);
    ANSWERS(limgoshi_plane_lookup(LIMGOSHI_EMAID, bytes("bus-17"), 6, out, 142, &value), LIMGOSHI_WRONG_PLANE, 0);
}

/* Cause 14: after 1 and 2, before every other, whatever the table is and whether the identifier is live or not. The table is that of `values`. */
static void desk_plan(void)
{
    size_t n = LIMGOSHI_TABLE_NUMBERS(3, 2);
    given_plan = LIMGOSHI_CALL_THE_DESK;
    for (int which = ADD; which <= CHANGE; which++) {
        ANSWERS(table_call(which, table, n, slashes, TOO_LONG), LIMGOSHI_WRONG_LENGTH, TOO_LONG);
        ANSWERS(table_call(which, NULL, 0, NULL, 0), LIMGOSHI_WRONG_LENGTH, 0);
        ANSWERS(table_call(which, table, n, bytes("bus/17"), 6), LIMGOSHI_WRONG_BYTE, 3);
        ANSWERS(table_call(which, table, n, bytes("bus-17"), 6), LIMGOSHI_DESK_PLAN_GIVEN, 0);
        ANSWERS(table_call(which, table, n, bytes("bus-99"), 6), LIMGOSHI_DESK_PLAN_GIVEN, 0);
        ANSWERS(table_call(which, NULL, 0, bytes("bus-17"), 6), LIMGOSHI_DESK_PLAN_GIVEN, 0);
        for (size_t k = 0; k <= n + 1; k++)
            ANSWERS(table_call(which, table, k, bytes("bus-17"), 6), LIMGOSHI_DESK_PLAN_GIVEN, 0);
        for (size_t i = 0; i < n; i += i < 4 ? 1 : 37) { /* bucket numbers, counts, and numbers of every part */
            table[i]++;
            ANSWERS(table_call(which, table, n, bytes("bus/17"), 6), LIMGOSHI_WRONG_BYTE, 3);
            ANSWERS(table_call(which, table, n, bytes("bus-17"), 6), LIMGOSHI_DESK_PLAN_GIVEN, 0);
            ANSWERS(table_call(which, table, n, bytes("bus-99"), 6), LIMGOSHI_DESK_PLAN_GIVEN, 0);
            table[i]--;
        }
    }
    given_plan = 77;
    ANSWERS(limgoshi_query(table, n, LIMGOSHI_EMAID, bytes("bus-17"), 6, &value), LIMGOSHI_ACCEPTED, 8);
    ANSWERS(limgoshi_query(table, n, LIMGOSHI_EMAID, bytes("bus-99"), 6, &value), LIMGOSHI_NOT_LIVE, 0);
    ANSWERS(limgoshi_change(table, n, LIMGOSHI_EMAID, bytes("bus-17"), 6, LIMGOSHI_CALL_THE_DESK - 1, &value), LIMGOSHI_ACCEPTED, 8);
    ANSWERS(limgoshi_change(table, n, LIMGOSHI_EMAID, bytes("bus-17"), 6, 8, &value), LIMGOSHI_ACCEPTED, LIMGOSHI_CALL_THE_DESK - 1);
    ANSWERS(limgoshi_plan_total(table, n, LIMGOSHI_CALL_THE_DESK, &value), LIMGOSHI_ACCEPTED, 0);
}

/* A pointer with length 0 may be NULL. The table is that of `values`. */
static void nulls(void)
{
    size_t n = LIMGOSHI_TABLE_NUMBERS(3, 2), length = LIMGOSHI_PLANE_BYTES(3, 2, 0);
    ANSWERS(limgoshi_open(NULL, 0, 1, 1, &value), LIMGOSHI_WRONG_TABLE, 0);
    ANSWERS(limgoshi_open(NULL, 0, 0, 1, &value), LIMGOSHI_WRONG_BUCKETS, 0);
    for (int which = ADD; which <= QUERY; which++) {
        ANSWERS(table_call(which, NULL, 0, bytes("bus-17"), 6), LIMGOSHI_WRONG_TABLE, 0);
        ANSWERS(table_call(which, table, n, NULL, 0), LIMGOSHI_WRONG_LENGTH, 0);
        ANSWERS(table_call(which, NULL, 0, NULL, 0), LIMGOSHI_WRONG_LENGTH, 0);
    }
    ANSWERS(limgoshi_plan_total(NULL, 0, 8, &value), LIMGOSHI_WRONG_TABLE, 0);
    ANSWERS(limgoshi_write_plane(NULL, 0, out, sizeof out, &value), LIMGOSHI_WRONG_TABLE, 0);
    ANSWERS(limgoshi_write_plane(table, n, NULL, 0, &value), LIMGOSHI_SHORT_OUTPUT, length);
    ANSWERS(limgoshi_write_plane(NULL, 0, NULL, 0, &value), LIMGOSHI_WRONG_TABLE, 0);
    ANSWERS(limgoshi_plane_lookup(LIMGOSHI_EMAID, NULL, 0, out, length, &value), LIMGOSHI_WRONG_LENGTH, 0);
    ANSWERS(limgoshi_plane_lookup(LIMGOSHI_EMAID, bytes("bus-17"), 6, NULL, 0, &value), LIMGOSHI_WRONG_PLANE, 0);
    ANSWERS(limgoshi_plane_lookup(LIMGOSHI_EMAID, NULL, 0, NULL, 0, &value), LIMGOSHI_WRONG_LENGTH, 0);
    ANSWERS(limgoshi_make_patch(NULL, 0, NULL, 0, NULL, 0, &value), LIMGOSHI_WRONG_PLANE, 0);
    ANSWERS(limgoshi_apply_patch(NULL, 0, NULL, 0, NULL, 0, &value), LIMGOSHI_WRONG_PLANE, 0);
    length = make_plane(old_plane, 3, 2, 0);
    ANSWERS(limgoshi_make_patch(old_plane, length, NULL, 0, NULL, 0, &value), LIMGOSHI_WRONG_PLANE, 0);
    ANSWERS(limgoshi_apply_patch(old_plane, length, NULL, 0, NULL, 0, &value), LIMGOSHI_WRONG_PATCH, 0);
}

/* A plane made by hand, the same with its last byte cut, and with a byte more. */
static void plane(unsigned b1, unsigned b2, unsigned entries)
{
    int right = b1 >= 1 && b1 <= B1_MAX && b2 >= 1 && b2 <= B2_MAX && entries <= LIMGOSHI_BASE_MAX;
    size_t length = make_plane(out, b1, b2, entries);
    HOLDS(length == LIMGOSHI_PLANE_BYTES(b1, b2, entries));
    ANSWERS(limgoshi_plane_lookup(LIMGOSHI_EMAID, bytes("bus-17"), 6, out, length, &value), right ? LIMGOSHI_ACCEPTED : LIMGOSHI_WRONG_PLANE, 0);
    if (right) {
        ANSWERS(limgoshi_plane_lookup(LIMGOSHI_EMAID, bytes("bus-17"), 6, out, length - 1, &value), LIMGOSHI_WRONG_PLANE, length - 5);
        ANSWERS(limgoshi_plane_lookup(LIMGOSHI_EMAID, bytes("bus-17"), 6, out, length + 1, &value), LIMGOSHI_WRONG_PLANE, length);
    }
}

/* Planes from the smallest to the largest, and those next to the range. */
static void planes(void)
{
    for (unsigned b1 = 0; b1 <= B1_MAX + 1; b1++)
        for (unsigned b2 = 0; b2 <= B2_MAX + 1; b2++)
            plane(b1, b2, b1 % 2 * LIMGOSHI_BASE_MAX);
    for (unsigned entries = 0; entries <= LIMGOSHI_BASE_MAX + 1; entries++) {
        plane(1, 1, entries);
        plane(B1_MAX, B2_MAX, entries);
    }
    HOLDS(2 * LIMGOSHI_TABLE_NUMBERS(0 | 1, 0 | 1) == 1072 && 2 * LIMGOSHI_PLANE_BYTES(0 | 1, 0 | 1, 1 - 1) == 284); /* brackets */
    make_plane(out, 1, 1, 2);
    out[5 + 66 + 1] = 9; /* the second bucket's bound */
    ANSWERS(limgoshi_plane_lookup(LIMGOSHI_EMAID, bytes("bus-17"), 6, out, LIMGOSHI_PLANE_BYTES(1, 1, 2), &value), LIMGOSHI_WRONG_PLANE, 5 + 66);
    make_plane(out, 1, 1, 2);
    out[5 + 132 + 10 + 1] = 0; /* the second base record's word */
    ANSWERS(limgoshi_plane_lookup(LIMGOSHI_EMAID, bytes("bus-17"), 6, out, LIMGOSHI_PLANE_BYTES(1, 1, 2), &value), LIMGOSHI_WRONG_PLANE, 5 + 132 + 10);
}

/* The desk's plan in each base record; strangers, where no bucket holds them and where one does. */
static void strangers(void)
{
    size_t length = make_plane(out, 1, 1, LIMGOSHI_BASE_MAX), right_length = make_plane(new_plane, 1, 1, 0);
    for (size_t i = 0; i < LIMGOSHI_BASE_MAX; i++) {
        size_t at = 5 + 132 + 10 * i;
        out[at + 9] = LIMGOSHI_CALL_THE_DESK - 1;
        ANSWERS(limgoshi_plane_lookup(LIMGOSHI_EMAID, bytes("bus-17"), 6, out, length, &value), LIMGOSHI_ACCEPTED, 0);
        out[at + 9] = LIMGOSHI_CALL_THE_DESK;
        ANSWERS(limgoshi_plane_lookup(LIMGOSHI_EMAID, bytes("bus-17"), 6, out, length, &value), LIMGOSHI_WRONG_PLANE, at);
        ANSWERS(limgoshi_plane_lookup(LIMGOSHI_EMAID, bytes("bus/17"), 6, out, length, &value), LIMGOSHI_WRONG_BYTE, 3);
        memcpy(old_plane, out, length);
        ANSWERS(limgoshi_make_patch(old_plane, length, new_plane, right_length, out, sizeof out, &value), LIMGOSHI_WRONG_PLANE, at);
        ANSWERS(limgoshi_make_patch(new_plane, right_length, old_plane, length, out, sizeof out, &value), LIMGOSHI_WRONG_PLANE, at);
        ANSWERS(limgoshi_apply_patch(old_plane, length, NULL, 0, out, sizeof out, &value), LIMGOSHI_WRONG_PLANE, at);
        out[at + 9] = 0;
    }
    unsigned desk = 0;
    for (unsigned i = 0; i < 100; i++) {
        size_t k = strlen(card(i));
        length = make_plane(out, 1, 1, 0); /* a bucket of the bound 8 holds everything */
        ANSWERS(limgoshi_plane_lookup(card_kind(i), bytes(card(i)), k, out, length, &value), LIMGOSHI_ACCEPTED, 0);
        out[5 + 1] = 0;
        ANSWERS(limgoshi_plane_lookup(card_kind(i), bytes(card(i)), k, out, length, &value), LIMGOSHI_ACCEPTED, 0);
        out[5 + 66 + 1] = 0;
        ANSWERS(limgoshi_plane_lookup(card_kind(i), bytes(card(i)), k, out, length, &value), LIMGOSHI_ACCEPTED, LIMGOSHI_CALL_THE_DESK);
        length = make_plane(out, 1, 1, LIMGOSHI_BASE_MAX); /* other words in the base list */
        out[5 + 1] = out[5 + 66 + 1] = 0;
        ANSWERS(limgoshi_plane_lookup(card_kind(i), bytes(card(i)), k, out, length, &value), LIMGOSHI_ACCEPTED, LIMGOSHI_CALL_THE_DESK);
        length = make_plane(out, 1, 1, 0); /* eight equal solution words: the bucket gives 0 or 255 */
        memset(out + 5 + 2, 0x35, 64);
        before();
        uint64_t answer = limgoshi_plane_lookup(card_kind(i), bytes(card(i)), k, out, length, &value);
        desk += value == LIMGOSHI_CALL_THE_DESK;
        after(__LINE__, "limgoshi_plane_lookup by a bucket", answer, LIMGOSHI_ACCEPTED, value == LIMGOSHI_CALL_THE_DESK ? value : 0);
    }
    HOLDS(desk > 0 && desk < 100);
}

/* The patch from a plane to one in which the buckets from number `first` on are changed, `gone` base words are gone and `news` others are new; then it
 * is applied. Outputs of the right length, one less, longer. */
static void between(unsigned b1, unsigned b2, unsigned first, unsigned gone, unsigned news)
{
    size_t old_length = make_plane(old_plane, b1, b2, gone), new_length = make_plane(new_plane, b1, b2, news);
    size_t length = LIMGOSHI_PATCH_BYTES(b1 + b2 - first, gone, news);
    for (unsigned i = first; i < b1 + b2; i++)
        new_plane[5 + 66 * i + 1 + i % 65] = 7; /* its bound or a byte of its solutions */
    for (unsigned i = 0; i < news; i++)
        new_plane[5 + 66 * (b1 + b2) + 10 * i + 8] = 1; /* of its word, the highest byte */
    ANSWERS(limgoshi_make_patch(old_plane, old_length, new_plane, new_length, out, length - 1, &value), LIMGOSHI_SHORT_OUTPUT, length);
    ANSWERS(limgoshi_make_patch(old_plane, old_length, new_plane, new_length, out, length, &value), LIMGOSHI_ACCEPTED, length);
    memset(out, 0xA5, sizeof out);
    ANSWERS(limgoshi_make_patch(old_plane, old_length, new_plane, new_length, out, sizeof out, &value), LIMGOSHI_ACCEPTED, length);
    HOLDS(memcmp(out + length, out_before + length, sizeof out - length) == 0);
    HOLDS(first == b1 + b2 || (out[17] == 6 && out[18] == first));
    memcpy(patch, out, sizeof patch);
    ANSWERS(limgoshi_apply_patch(old_plane, old_length, patch, length, out, new_length - 1, &value), LIMGOSHI_SHORT_OUTPUT, new_length);
    ANSWERS(limgoshi_apply_patch(old_plane, old_length, patch, length, out, new_length, &value), LIMGOSHI_ACCEPTED, new_length);
    HOLDS(memcmp(out, new_plane, new_length) == 0);
    memset(out, 0xA5, sizeof out);
    ANSWERS(limgoshi_apply_patch(old_plane, old_length, patch, length, out, sizeof out, &value), LIMGOSHI_ACCEPTED, new_length);
    HOLDS(memcmp(out + new_length, out_before + new_length, sizeof out - new_length) == 0);
}

/* Patches from the shortest to the longest. */
static void patches(void)
{
    for (unsigned b1 = 1; b1 <= B1_MAX; b1++)
        for (unsigned b2 = 1; b2 <= B2_MAX; b2++)
            between(b1, b2, b1 - 1, b1, b2);
    for (unsigned first = 0; first <= B1_MAX + B2_MAX; first++)
        between(B1_MAX, B2_MAX, first, LIMGOSHI_BASE_MAX, LIMGOSHI_BASE_MAX);
    for (unsigned entries = 0; entries <= LIMGOSHI_BASE_MAX; entries++) {
        between(1, 1, 2, entries, 0);
        between(1, 1, 2, 0, entries);
    }
    HOLDS(2 * LIMGOSHI_PATCH_BYTES(0 | 1, 1 - 1, 1 - 1) == 178); /* brackets */
}

/* The next number of a text, 0 at its end. */
static unsigned number(const char **text)
{
    char *end;
    unsigned n = (unsigned)strtoul(*text, &end, 10);
    *text = end;
    return n;
}

/* A patch made by hand from a text that has the kind of each record and then, for kind 6, index and bound; for kind 7, the word; for kind 8, word and
 * plan. Its sums are those given; `starts` is where each record starts. Returns its length. */
static size_t starts[16];
static size_t make_patch(const char *text, uint64_t old_sum, uint64_t new_sum)
{
    size_t at = 0, count = 0;
    memset(patch, 0, sizeof patch);
    while (*text != '\0') {
        unsigned kind = number(&text);
        starts[count++] = at;
        patch[at] = (uint8_t)kind;
        if (kind == 4)
            memcpy(patch + at, "\4END\n", 5);
        if (kind == 5) {
            for (unsigned i = 0; i < 8; i++) {
                patch[at + 1 + i] = (uint8_t)(old_sum >> 8 * i);
                patch[at + 9 + i] = (uint8_t)(new_sum >> 8 * i);
            }
        }
        if (kind >= 6 && kind <= 8)
            patch[at + 1] = (uint8_t)number(&text);
        if (kind == 6 || kind == 8)
            patch[at + (kind == 6 ? 2 : 9)] = (uint8_t)number(&text);
        at += kind == 4 ? 5u : kind == 5 ? 17u : kind == 6 ? 67u : kind == 7 ? 9u : kind == 8 ? 10u : 1u;
    }
    starts[count] = at;
    return at;
}

/* Patches made by hand that are wrong for a plane of 1 and 1 buckets and this many base words, and where. */
static const struct {
    unsigned entries;
    const char *text;
    size_t at;
} wrong_patches[] = {
    /* without kind 5, with two, without kind 4, with another kind, with bytes after kind 4 */
    {2, "", 0}, {2, "4", 0}, {2, "6 0 8 4", 0}, {2, "5 5 4", 17}, {2, "5", 17}, {2, "5 6 0 8", 84}, {2, "5 9 4", 17}, {2, "5 3 4", 17}, {2, "5 4 4", 22}, {2, "5 4 0", 22},
    /* 6 after 7, 6 after 8, 7 after 8 */
    {2, "5 7 0 6 0 8 4", 26}, {2, "5 8 2 1 6 0 8 4", 27}, {2, "5 8 2 1 7 0 4", 27},
    /* not strictly ascending */
    {2, "5 6 1 8 6 0 8 4", 84}, {2, "5 6 1 8 6 1 8 4", 84}, {2, "5 7 1 7 0 4", 26}, {2, "5 7 1 7 1 4", 26}, {2, "5 8 3 1 8 2 1 4", 27}, {2, "5 8 3 1 8 3 1 4", 27},
    /* an index and a bound out of range, a word gone that is absent, a word gone and new */
    {2, "5 6 2 8 4", 17}, {2, "5 6 0 8 6 1 9 4", 84}, {2, "5 7 2 4", 17}, {0, "5 7 0 4", 17}, {2, "5 7 0 7 1 8 1 1 4", 35},
    /* a 65th entry: alone, after a word gone, after an entry changed */
    {64, "5 8 64 1 4", 17}, {64, "5 7 0 8 64 1 8 65 1 4", 36}, {64, "5 8 3 1 8 64 1 4", 27},
    /* the desk's plan: in an entry changed, in a new one, after another, before one out of its place */
    {2, "5 8 0 255 4", 17}, {2, "5 8 1 255 4", 17}, {2, "5 8 2 255 4", 17}, {2, "5 8 0 254 8 2 255 4", 27}, {2, "5 8 3 255 8 2 1 4", 17},
};

/* Causes 12 and 13: the patches above; a right patch, made by hand and by the library, with every cut and with a bit changed in every byte. */
static void damage(void)
{
    for (size_t i = 0; i < sizeof wrong_patches / sizeof *wrong_patches; i++) {
        size_t old_length = make_plane(old_plane, 1, 1, wrong_patches[i].entries);
        size_t length = make_patch(wrong_patches[i].text, 0, 0);
        ANSWERS(limgoshi_apply_patch(old_plane, old_length, patch, length, out, sizeof out, &value), LIMGOSHI_WRONG_PATCH, wrong_patches[i].at);
    }
    size_t old_length = make_plane(old_plane, 1, 1, 3), new_length = make_plane(new_plane, 1, 1, 3);
    const size_t entries = 5 + 2 * 66;
    new_plane[5 + 1] = 3; /* the bounds */
    new_plane[5 + 66 + 1] = 0;
    new_plane[entries + 10 + 1] = 2; /* the words 0, 2 with another plan, and 77, where there were 0, 1, 2 */
    new_plane[entries + 10 + 9] = 9;
    new_plane[entries + 20 + 1] = 77;
    uint64_t old_sum = sum(old_plane, old_length), new_sum = sum(new_plane, new_length);
    size_t length = make_patch("5 6 0 3 6 1 0 7 1 8 2 9 8 77 0 4", old_sum, new_sum);
    ANSWERS(limgoshi_make_patch(old_plane, old_length, new_plane, new_length, out, sizeof out, &value), LIMGOSHI_ACCEPTED, length);
    HOLDS(memcmp(out, patch, length) == 0);
    ANSWERS(limgoshi_apply_patch(old_plane, old_length, patch, length, out, sizeof out, &value), LIMGOSHI_ACCEPTED, new_length);
    HOLDS(memcmp(out, new_plane, new_length) == 0);
    for (size_t i = 0, record = 0; i < length; i++) {
        record += i == starts[record + 1];
        size_t start = starts[record];
        unsigned kind = patch[start], place = (unsigned)(i - start);
        ANSWERS(limgoshi_apply_patch(old_plane, old_length, patch, i, out, sizeof out, &value), LIMGOSHI_WRONG_PATCH, start);
        patch[i] ^= 0x80;
        if (kind == 8 && place >= 1 && place <= 8 && patch[starts[record + 1]] == 8) /* its word: then the next is not above it */
            ANSWERS(limgoshi_apply_patch(old_plane, old_length, patch, length, out, sizeof out, &value), LIMGOSHI_WRONG_PATCH, starts[record + 1]);
        else if (place == 0 || kind == 4 || kind == 7 || (kind == 6 && place <= 2))
            ANSWERS(limgoshi_apply_patch(old_plane, old_length, patch, length, out, sizeof out, &value), LIMGOSHI_WRONG_PATCH, start);
        else
            ANSWERS(limgoshi_apply_patch(old_plane, old_length, patch, length, out, sizeof out, &value), LIMGOSHI_WRONG_SUM, 0);
        patch[i] ^= 0x80;
    }
    make_plane(new_plane, 1, 1, 3);
    new_plane[entries + 10 + 9] = LIMGOSHI_CALL_THE_DESK - 1;
    length = make_patch("5 8 1 254 4", old_sum, sum(new_plane, new_length));
    ANSWERS(limgoshi_apply_patch(old_plane, old_length, patch, length, out, sizeof out, &value), LIMGOSHI_ACCEPTED, new_length);
    HOLDS(memcmp(out, new_plane, new_length) == 0);
    length = make_patch("5 6 0 8 8 1 0 4", old_sum, old_sum); /* changes nothing */
    ANSWERS(limgoshi_apply_patch(old_plane, old_length, patch, length, out, sizeof out, &value), LIMGOSHI_ACCEPTED, old_length);
    HOLDS(memcmp(out, old_plane, old_length) == 0);
}

/* What making and applying test before what: each call has every later cause too. */
static void patch_order(void)
{
    size_t n = make_plane(old_plane, 2, 1, 3), length;
    make_plane(new_plane, 1, 2, 3);
    ANSWERS(limgoshi_make_patch(old_plane, n - 1, new_plane, n + 1, out, 0, &value), LIMGOSHI_WRONG_PLANE, n - 5);
    ANSWERS(limgoshi_make_patch(old_plane, n, new_plane, n + 1, out, 0, &value), LIMGOSHI_WRONG_PLANE, n);
    ANSWERS(limgoshi_make_patch(old_plane, n, new_plane, n, out, 0, &value), LIMGOSHI_UNLIKE_PLANES, 0);
    length = make_plane(new_plane, 3, 1, 3);
    ANSWERS(limgoshi_make_patch(old_plane, n, new_plane, length, out, 0, &value), LIMGOSHI_UNLIKE_PLANES, 0);
    length = make_plane(new_plane, 2, 2, 3);
    ANSWERS(limgoshi_make_patch(old_plane, n, new_plane, length, out, 0, &value), LIMGOSHI_UNLIKE_PLANES, 0);
    length = make_plane(new_plane, 2, 1, 0);
    ANSWERS(limgoshi_make_patch(old_plane, n, new_plane, length, NULL, 0, &value), LIMGOSHI_SHORT_OUTPUT, LIMGOSHI_PATCH_BYTES(0, 3, 0));

    uint64_t old_sum = sum(old_plane, n), new_sum = sum(new_plane, length);
    make_patch("5 7 0 7 1 7 2 9", 0, 0);
    ANSWERS(limgoshi_apply_patch(old_plane, n + 1, patch, 45, out, 0, &value), LIMGOSHI_WRONG_PLANE, n);
    ANSWERS(limgoshi_apply_patch(old_plane, n, patch, 45, out, 0, &value), LIMGOSHI_WRONG_PATCH, 44);
    make_patch("5 7 0 7 1 7 2 4", old_sum, old_sum);
    ANSWERS(limgoshi_apply_patch(old_plane, n, patch, 49, out, 0, &value), LIMGOSHI_WRONG_SUM, 0);
    make_patch("5 7 0 7 1 7 2 4", new_sum, new_sum);
    ANSWERS(limgoshi_apply_patch(old_plane, n, patch, 49, out, 0, &value), LIMGOSHI_WRONG_SUM, 0);
    make_patch("5 7 0 7 1 7 2 4", old_sum, new_sum);
    ANSWERS(limgoshi_apply_patch(old_plane, n, patch, 49, NULL, 0, &value), LIMGOSHI_SHORT_OUTPUT, length);
}

/* Fills a table until its base list has LIMGOSHI_BASE_MAX entries and an add is turned down as full. Returns the number of cards tried. */
static unsigned fill(size_t n, unsigned b1, unsigned b2)
{
    unsigned entries = 0, live = 0, tried = 0;
    size_t most = LIMGOSHI_PLANE_BYTES(b1, b2, LIMGOSHI_BASE_MAX);
    uint64_t answer = LIMGOSHI_ACCEPTED;
    ANSWERS(limgoshi_open(table, n, b1, b2, &value), LIMGOSHI_ACCEPTED, 0);
    for (; (entries < LIMGOSHI_BASE_MAX || answer != LIMGOSHI_FULL) && tried < 10000; tried++) {
        const char *id = card(tried);
        before();
        answer = limgoshi_add(table, n, card_kind(tried), bytes(id), strlen(id), (uint8_t)tried, &value);
        if (answer == LIMGOSHI_FULL) {
            after(__LINE__, "limgoshi_add to a full table", answer, LIMGOSHI_FULL, 0);
            continue;
        }
        live++;
        after(__LINE__, "limgoshi_add", answer, LIMGOSHI_ACCEPTED, live);
        ANSWERS(limgoshi_write_plane(table, n, out, most, &value), LIMGOSHI_ACCEPTED, LIMGOSHI_PLANE_BYTES(b1, b2, out[4]));
        entries = out[4];
        size_t length = LIMGOSHI_PLANE_BYTES(b1, b2, entries);
        ANSWERS(limgoshi_write_plane(table, n, out, length - 1, &value), LIMGOSHI_SHORT_OUTPUT, length);
        ANSWERS(limgoshi_write_plane(table, n, out, length, &value), LIMGOSHI_ACCEPTED, length);
    }
    HOLDS(entries == LIMGOSHI_BASE_MAX && answer == LIMGOSHI_FULL);
    return tried;
}

/* A table that is full: table and plane give every live card its plan; then it is saved, read back elsewhere, and damaged number by number. */
static void full(void)
{
    static unsigned char saved[sizeof table];
    static uint64_t restored[LIMGOSHI_TABLE_NUMBERS(1, 1)];
    size_t n = LIMGOSHI_TABLE_NUMBERS(1, 1), length = LIMGOSHI_PLANE_BYTES(1, 1, LIMGOSHI_BASE_MAX);
    unsigned tried = fill(n, 1, 1), live = 0;
    memcpy(saved, table, n * sizeof *table);
    memcpy(restored, saved, n * sizeof *table);
    for (unsigned i = 0; i < tried; i++) {
        const uint8_t *id = bytes(card(i));
        size_t k = strlen(card(i));
        uint8_t kind = card_kind(i);
        before();
        uint64_t answer = limgoshi_query(table, n, kind, id, k, &value);
        uint64_t plan = value;
        if (answer == LIMGOSHI_ACCEPTED) {
            live++;
            after(__LINE__, "limgoshi_query", answer, LIMGOSHI_ACCEPTED, (uint8_t)i);
            ANSWERS(limgoshi_plane_lookup(kind, id, k, out, length, &value), LIMGOSHI_ACCEPTED, plan);
            ANSWERS(limgoshi_add(table, n, kind, id, k, 5, &value), LIMGOSHI_LIVE, plan);
        } else {
            after(__LINE__, "limgoshi_query", answer, LIMGOSHI_NOT_LIVE, 0);
        }
        ANSWERS(limgoshi_query(restored, n, kind, id, k, &value), answer, plan);
        ANSWERS(limgoshi_add(table, n, kind, id, k, LIMGOSHI_CALL_THE_DESK, &value), LIMGOSHI_DESK_PLAN_GIVEN, 0);
        ANSWERS(limgoshi_change(table, n, kind, id, k, LIMGOSHI_CALL_THE_DESK, &value), LIMGOSHI_DESK_PLAN_GIVEN, 0);
    }
    HOLDS(live == table[3]);
    size_t base = n - 128;
    for (size_t i = 0; i < LIMGOSHI_BASE_MAX; i++) { /* a base entry with the desk's plan, without and with its total */
        uint64_t *plan = restored + base + 2 * i + 1;
        uint8_t earlier = (uint8_t)*plan;
        HOLDS(*plan == earlier);
        *plan = LIMGOSHI_CALL_THE_DESK;
        for (unsigned counted = 0; counted < 2; counted++) {
            restored[4 + earlier] -= counted;
            restored[4 + LIMGOSHI_CALL_THE_DESK] += counted;
            ANSWERS(limgoshi_query(restored, n, card_kind(0), bytes(card(0)), 6, &value), LIMGOSHI_NOT_SOUND, 0);
            ANSWERS(limgoshi_plan_total(restored, n, LIMGOSHI_CALL_THE_DESK, &value), LIMGOSHI_ACCEPTED, counted);
        }
        restored[4 + earlier]++;
        restored[4 + LIMGOSHI_CALL_THE_DESK]--;
        *plan = earlier;
    }
    for (size_t i = 0; i < n; i++) {
        restored[i]++;
        before();
        uint64_t answer = limgoshi_query(restored, n, card_kind(0), bytes(card(0)), 6, &value);
        HOLDS(i < 3 || i >= 4 + LIMGOSHI_PLANS || answer == LIMGOSHI_NOT_SOUND); /* live count, totals */
        HOLDS(answer == LIMGOSHI_ACCEPTED || answer == LIMGOSHI_WRONG_TABLE || answer == LIMGOSHI_NOT_SOUND || answer == LIMGOSHI_NOT_LIVE);
        HOLDS(value == (answer == LIMGOSHI_WRONG_TABLE ? n : answer == LIMGOSHI_ACCEPTED ? value : 0) && value < 537);
        restored[i]--;
    }
}

/* The identifiers live with each plan, counted beside the table. */
static unsigned heads[UINT8_MAX + 1];

static void total(size_t n, uint8_t plan) { ANSWERS(limgoshi_plan_total(table, n, plan, &value), LIMGOSHI_ACCEPTED, heads[plan]); }
static void every_total(size_t n)
{
    uint64_t sum = 0;
    for (unsigned plan = 0; plan < LIMGOSHI_PLANS; plan++) {
        total(n, (uint8_t)plan);
        sum += value;
    }
    HOLDS(sum == table[3]);
}

/* The totals of a table that is filled until it is full, whose plans are all changed and whose cards are all withdrawn: after each call those of the
 * plans concerned, then of all plans. Between, each total is made wrong, alone and with the next one so that their sum stays: the table is not sound
 * then, and the total is read all the same. */
static void totals(void)
{
    enum { TRIED = 220 };
    static unsigned live[TRIED];
    unsigned count = 0, full = 0;
    size_t n = LIMGOSHI_TABLE_NUMBERS(1, 1);
    ANSWERS(limgoshi_open(table, n, 1, 1, &value), LIMGOSHI_ACCEPTED, 0);
    HOLDS(table[4 + LIMGOSHI_PLANS - 1] == 0 && table[4 + LIMGOSHI_PLANS] == 1); /* the last total, the first bucket's first column */
    every_total(n);
    for (unsigned i = 0; i < TRIED; i++) {
        uint8_t plan = (uint8_t)(i % 3 * 127); /* 0, 127, 254 */
        before();
        uint64_t answer = limgoshi_add(table, n, card_kind(i), bytes(card(i)), strlen(card(i)), plan, &value);
        live[i] = answer != LIMGOSHI_FULL;
        count += live[i];
        full += !live[i];
        heads[plan] += live[i];
        after(__LINE__, "limgoshi_add", answer, live[i] ? LIMGOSHI_ACCEPTED : LIMGOSHI_FULL, live[i] ? count : 0);
        total(n, plan);
    }
    HOLDS(count > 128 && full > 0);
    every_total(n);
    for (unsigned i = 0; i < TRIED; i++) {
        uint8_t earlier = (uint8_t)(i % 3 * 127), plan = (uint8_t)(i % 5 * 63 + 2); /* the same for some */
        heads[earlier] -= live[i];
        heads[plan] += live[i];
        ANSWERS(limgoshi_change(table, n, card_kind(i), bytes(card(i)), strlen(card(i)), plan, &value), live[i] ? LIMGOSHI_ACCEPTED : LIMGOSHI_NOT_LIVE, live[i] ? earlier : 0);
        total(n, earlier);
        total(n, plan);
        ANSWERS(limgoshi_change(table, n, card_kind(i), bytes(card(i)), strlen(card(i)), LIMGOSHI_CALL_THE_DESK, &value), LIMGOSHI_DESK_PLAN_GIVEN, 0);
        total(n, plan);
        total(n, LIMGOSHI_CALL_THE_DESK);
    }
    every_total(n);
    for (unsigned plan = 0; plan < LIMGOSHI_PLANS; plan++) {
        static const uint64_t off[] = {1, UINT64_MAX, (uint64_t)1 << 32}; /* one more, one less, alike in 32 bits */
        for (size_t k = 0; k < sizeof off / sizeof *off; k++) {
            uint64_t *held = table + 4 + plan, right = *held;
            *held += off[k];
            ANSWERS(limgoshi_query(table, n, card_kind(0), bytes(card(0)), 6, &value), LIMGOSHI_NOT_SOUND, 0);
            ANSWERS(limgoshi_plan_total(table, n, (uint8_t)plan, &value), LIMGOSHI_ACCEPTED, right + off[k]);
            if (plan < UINT8_MAX) {
                held[1] -= off[k];
                ANSWERS(limgoshi_query(table, n, card_kind(0), bytes(card(0)), 6, &value), LIMGOSHI_NOT_SOUND, 0);
                held[1] += off[k];
            }
            *held = right;
        }
    }
    for (unsigned i = 0; i < TRIED; i++) {
        uint8_t plan = (uint8_t)(i % 5 * 63 + 2);
        heads[plan] -= live[i];
        ANSWERS(limgoshi_withdraw(table, n, card_kind(i), bytes(card(i)), strlen(card(i)), &value), live[i] ? LIMGOSHI_ACCEPTED : LIMGOSHI_NOT_LIVE, live[i] ? plan : 0);
        total(n, plan);
    }
    HOLDS(table[3] == 0);
    every_total(n);
}

/* A lost card leaves no plan behind: it was alone in its bucket, so the plane gives it 0 once it is withdrawn, and every number is what it was. Then a
 * free row gets a plan along its column, which changes no card's plan: the table is not sound. */
static void withdrawn(void)
{
    static uint64_t empty[LIMGOSHI_TABLE_NUMBERS(1, 1)];
    const uint8_t *id = bytes("Bus-17");
    size_t n = LIMGOSHI_TABLE_NUMBERS(1, 1), length = LIMGOSHI_PLANE_BYTES(1, 1, 0);
    ANSWERS(limgoshi_open(table, n, 1, 1, &value), LIMGOSHI_ACCEPTED, 0);
    memcpy(empty, table, sizeof empty);
    for (unsigned plan = 1; plan < LIMGOSHI_CALL_THE_DESK; plan++) {
        uint8_t kind = card_kind(plan);
        ANSWERS(limgoshi_add(table, n, kind, id, 6, (uint8_t)plan, &value), LIMGOSHI_ACCEPTED, 1);
        ANSWERS(limgoshi_write_plane(table, n, out, length, &value), LIMGOSHI_ACCEPTED, length);
        ANSWERS(limgoshi_plane_lookup(kind, id, 6, out, length, &value), LIMGOSHI_ACCEPTED, plan);
        ANSWERS(limgoshi_withdraw(table, n, kind, id, 6, &value), LIMGOSHI_ACCEPTED, plan);
        ANSWERS(limgoshi_write_plane(table, n, out, length, &value), LIMGOSHI_ACCEPTED, length);
        ANSWERS(limgoshi_plane_lookup(kind, id, 6, out, length, &value), LIMGOSHI_ACCEPTED, 0);
        HOLDS(memcmp(empty, table, sizeof empty) == 0);
    }
    ANSWERS(limgoshi_add(table, n, given_kind, id, 6, 40, &value), LIMGOSHI_ACCEPTED, 1);
    unsigned rows = 0;
    for (unsigned bucket = 0; bucket < 2; bucket++) {
        uint64_t *columns = table + 4 + LIMGOSHI_PLANS + 74 * bucket, mark = columns[64], *solutions = columns + 65;
        for (unsigned row = 0; row < 64; row++) {
            if ((mark >> row & 1) != 0)
                continue;
            rows++;
            solutions[row % 8] ^= columns[row];
            for (int which = ADD; which <= QUERY; which++)
                ANSWERS(table_call(which, table, n, id, 6), LIMGOSHI_NOT_SOUND, 0);
            ANSWERS(limgoshi_write_plane(table, n, out, length, &value), LIMGOSHI_NOT_SOUND, 0);
            ANSWERS(limgoshi_plan_total(table, n, 40, &value), LIMGOSHI_ACCEPTED, 1);
            solutions[row % 8] ^= columns[row];
        }
    }
    HOLDS(rows == 127);
    ANSWERS(limgoshi_query(table, n, given_kind, id, 6, &value), LIMGOSHI_ACCEPTED, 40);
}

/* The patch of each changed plan, in a bucket or in the base list, and of a plan that is set again. The table is that of `full`. */
static void plans(void)
{
    size_t n = LIMGOSHI_TABLE_NUMBERS(1, 1), length = LIMGOSHI_PLANE_BYTES(1, 1, LIMGOSHI_BASE_MAX);
    unsigned in_bucket = 0, in_base = 0;
    for (unsigned i = 0; in_bucket + in_base < table[3] && i < 10000; i++) {
        const uint8_t *id = bytes(card(i));
        size_t k = strlen(card(i));
        uint8_t kind = card_kind(i);
        before();
        if (limgoshi_query(table, n, kind, id, k, &value) != LIMGOSHI_ACCEPTED)
            continue;
        ANSWERS(limgoshi_write_plane(table, n, old_plane, length, &value), LIMGOSHI_ACCEPTED, length);
        ANSWERS(limgoshi_change(table, n, kind, id, k, (uint8_t)(i + 1), &value), LIMGOSHI_ACCEPTED, (uint8_t)i);
        ANSWERS(limgoshi_write_plane(table, n, new_plane, length, &value), LIMGOSHI_ACCEPTED, length);
        before();
        uint64_t answer = limgoshi_make_patch(old_plane, length, new_plane, length, patch, LIMGOSHI_PATCH_BYTES(1, 0, 0), &value);
        size_t size = value == LIMGOSHI_PATCH_BYTES(0, 0, 1) ? LIMGOSHI_PATCH_BYTES(0, 0, 1) : LIMGOSHI_PATCH_BYTES(1, 0, 0);
        after(__LINE__, "limgoshi_make_patch of a changed plan", answer, LIMGOSHI_ACCEPTED, size);
        in_bucket += size == LIMGOSHI_PATCH_BYTES(1, 0, 0);
        in_base += size == LIMGOSHI_PATCH_BYTES(0, 0, 1);
        ANSWERS(limgoshi_plane_lookup(kind, id, k, old_plane, length, &value), LIMGOSHI_ACCEPTED, (uint8_t)i);
        ANSWERS(limgoshi_apply_patch(old_plane, length, patch, size, out, sizeof out, &value), LIMGOSHI_ACCEPTED, length);
        ANSWERS(limgoshi_plane_lookup(kind, id, k, out, length, &value), LIMGOSHI_ACCEPTED, (uint8_t)(i + 1));
        HOLDS(memcmp(out, new_plane, length) == 0);

        ANSWERS(limgoshi_change(table, n, kind, id, k, (uint8_t)(i + 1), &value), LIMGOSHI_ACCEPTED, (uint8_t)(i + 1));
        ANSWERS(limgoshi_write_plane(table, n, old_plane, length, &value), LIMGOSHI_ACCEPTED, length);
        ANSWERS(limgoshi_make_patch(new_plane, length, old_plane, length, patch, sizeof patch, &value), LIMGOSHI_ACCEPTED, LIMGOSHI_PATCH_BYTES(0, 0, 0));
    }
    HOLDS(in_bucket + in_base == table[3] && in_base == LIMGOSHI_BASE_MAX);
}

int main(void)
{
    memset(slashes, '/', sizeof slashes);
    openings();
    identifiers();
    every_kind();
    same_bytes();
    values();
    order();
    desk_plan();
    nulls();
    planes();
    strangers();
    patches();
    damage();
    patch_order();
    full();
    plans();
    totals();
    withdrawn();
    static const char *const names[FUNCTIONS] = {"open", "add", "change", "withdraw", "query", "plan_total", "write_plane", "plane_lookup", "make_patch", "apply_patch"};
    for (int f = 0; f < FUNCTIONS; f++) {
        printf("limgoshi_%s", names[f]);
        for (int cause = 1; cause < NUMBERS; cause++)
            if (given[f][cause])
                printf(" %d", cause);
        printf("\n");
    }
    printf("header: %d answers compared\n", compared);
    return failed;
}
