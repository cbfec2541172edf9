/* Limgoshi: plans for charge cards and vehicles. C and C++, x86-64 Linux.
 *
 * Answers. Each function returns 0, accepted, or the number of the first cause that it meets, and writes the number that goes with it into
 * *value, turned down or not. A call that is turned down leaves the table and the output exactly as they were.
 *
 * Identifiers. An identifier is a kind and some bytes; small letters count as capitals. The same bytes under two kinds are two identifiers, each with
 * a plan of its own. Tables and planes made before there were kinds hold other words. Nothing in them shows that and no call turns them down for it:
 * make them anew from the identifiers and their kinds.
 *
 * Bytes. A kind and a plan are bytes. C and C++ cut any larger number to its lowest 8 bits before the call sees it, and no cause tells that they did: an
 * int of 300 is plan 44, one of 258 is kind 2. gcc and clang warn of such a constant, but of a variable only with -Wconversion, not with -Wall -Wextra:
 * compile with -Wconversion. A cast silences the warning and cuts all the same: test the range before it.
 *
 * Buffers. Any bytes may be handed in as identifier, table, plane, patch or output. Nothing is kept between calls. A pointer whose length is 0 may
 * be NULL; value may not. The buffers of one call must not overlap, and value must not point into one of them.
 *
 * Threads. There is no static data: calls are safe side by side unless one writes a buffer that another uses.
 *
 * Saving a table. It is its numbers, without pointers: store them as they are, in the byte order of the machine, and read them back into any
 * buffer of that length. If a number was changed on the way, the next call that tests the table finds that (cause 4 or 5), or the numbers are those
 * of another sound table, and every call answers for that one.
 *
 * Time. Every call on a table tests the whole of it, but for limgoshi_open and limgoshi_plan_total. The times below are orders of magnitude on a
 * present-day processor; where there are two, for the smallest and the largest table. */
#ifndef LIMGOSHI_H
#define LIMGOSHI_H

#if !defined __x86_64__ || !defined __linux__ || defined __ILP32__
#error "limgoshi.h: x86-64 Linux only, with 64-bit pointers (not x32): the library is built for no other target"
#endif

#include <stddef.h>
#include <stdint.h>

#ifdef __cplusplus
extern "C" {
#endif

#define LIMGOSHI_ID_MAX 36u       /* bytes of an identifier: 1 to 36, letters, digits and * - _ = : + | @ . */
#define LIMGOSHI_PLANS 256u       /* plans: 0 to 255; identifiers are given 0 to 254 */
#define LIMGOSHI_BUCKETS1_MAX 48u /* buckets of level 1: 1 to 48 */
#define LIMGOSHI_BUCKETS2_MAX 32u /* buckets of level 2: 1 to 32 */
#define LIMGOSHI_BASE_MAX 64u     /* entries of the base list: 0 to 64 */

/* The plan that means "call the desk". A plane gives it to an identifier that no bucket holds and the base list lacks. No live identifier has it: an
 * add or change to it is turned down (14), a table in which a live identifier has it is not sound (5), a plane (10) or patch (12) with it in a base
 * entry is wrong. A bucket may still give any number, this one too, to an identifier that is not live: the XOR of the plans of some that are. */
#define LIMGOSHI_CALL_THE_DESK 255u

/* 64-bit numbers of a table with b1 and b2 buckets: 536 to 6,308. */
#define LIMGOSHI_TABLE_NUMBERS(b1, b2) (4u + LIMGOSHI_PLANS + 74u * ((b1) + (b2)) + 128u)

/* Bytes of a plane with b1 and b2 buckets and this many base entries: 142 to 5,930. */
#define LIMGOSHI_PLANE_BYTES(b1, b2, entries) (10u + 66u * ((b1) + (b2)) + 10u * (entries))

/* Bytes of a patch with this many buckets changed, base words gone and base entries new or changed: 22 to 6,598. For one limgoshi_change that is
 * at most one bucket or one entry: 89 bytes at most, and 22 if the plan was that already. */
#define LIMGOSHI_PATCH_BYTES(changes, gone, news) (22u + 67u * (changes) + 9u * (gone) + 10u * (news))

/* Bytes of stack that a call needs at most. Where memcpy and memset are bound lazily, the first call needs about 3,200 more. */
#define LIMGOSHI_STACK_ADD 75000u   /* limgoshi_add */
#define LIMGOSHI_STACK_PATCH 10000u /* limgoshi_make_patch, limgoshi_apply_patch */
#define LIMGOSHI_STACK_LOOKUP 500u  /* limgoshi_plane_lookup, limgoshi_plan_total */
#define LIMGOSHI_STACK 15000u       /* any other */

/* The kinds of identifiers: 1 to 7. */
enum {
    LIMGOSHI_CENTRAL = 1,
    LIMGOSHI_EMAID = 2,
    LIMGOSHI_ISO14443 = 3,
    LIMGOSHI_ISO15693 = 4,
    LIMGOSHI_KEY_CODE = 5,
    LIMGOSHI_LOCAL = 6,
    LIMGOSHI_MAC_ADDRESS = 7
};

/* The causes in the order in which they are tested, but 15 first, 14 after 2 and 9 last of all, each with what *value then is. */
enum {
    LIMGOSHI_ACCEPTED = 0,
    LIMGOSHI_WRONG_LENGTH = 1,     /* identifier of 0 or over 36 bytes: its length */
    LIMGOSHI_WRONG_BYTE = 2,       /* byte of the identifier not allowed: index of the first, from 0 */
    LIMGOSHI_WRONG_BUCKETS = 3,    /* bucket numbers out of range at opening: 0 */
    LIMGOSHI_WRONG_TABLE = 4,      /* table of another length than its bucket numbers give, or these out of range: the length */
    LIMGOSHI_NOT_SOUND = 5,        /* table not sound: 0 */
    LIMGOSHI_LIVE = 6,             /* the identifier is live already: its plan */
    LIMGOSHI_NOT_LIVE = 7,         /* the identifier is not live: 0 */
    LIMGOSHI_FULL = 8,             /* the base list has no room for what the add would send there: 0 */
    LIMGOSHI_SHORT_OUTPUT = 9,     /* output shorter than the plane or patch: the length needed */
    LIMGOSHI_WRONG_PLANE = 10,     /* not a plane: offset of the first record that is wrong or cut, or of the first byte after the last */
    LIMGOSHI_UNLIKE_PLANES = 11,   /* planes that differ in bucket numbers: 0 */
    LIMGOSHI_WRONG_PATCH = 12,     /* not a patch for this plane: offset in the patch, as for 10; a record out of its place is wrong too */
    LIMGOSHI_WRONG_SUM = 13,       /* a sum in the patch is not that of the old plane, or not that of the new one: 0 */
    LIMGOSHI_DESK_PLAN_GIVEN = 14, /* plan LIMGOSHI_CALL_THE_DESK given: 0 */
    LIMGOSHI_WRONG_KIND = 15       /* kind not 1 to 7: 0 */
};

/* The compiler warns where an answer is not looked at. */
#ifdef __GNUC__
#define LIMGOSHI_ANSWER __attribute__((warn_unused_result)) uint64_t
#else
#define LIMGOSHI_ANSWER uint64_t
#endif

/* Opens an empty table with b1 and b2 buckets in a buffer of LIMGOSHI_TABLE_NUMBERS(b1, b2) numbers, whatever these were. Take a bucket
 * for each 50 identifiers, or each 40 where many come and go, 3 of level 1 to 2 of level 2 (README.md, Limits): the numbers are fixed from then on.
 * Value: 0. Causes: 3, 4 (for another length alone). Time: 0.1 to 1 microseconds. Stack: LIMGOSHI_STACK. */
LIMGOSHI_ANSWER limgoshi_open(uint64_t *table, size_t table_len, uint64_t b1, uint64_t b2, uint64_t *value);

/* Adds an identifier with its plan, 0 to 254. Kind and plan are bytes: a larger number is cut before the call sees it.
 * Value: the number of live identifiers. Causes: 15, 1, 2, 14, 4, 5, 6, 8. Time: 5 to 200 microseconds. Stack: LIMGOSHI_STACK_ADD. */
LIMGOSHI_ANSWER limgoshi_add(uint64_t *table, size_t table_len, uint8_t kind, const uint8_t *id, size_t id_len, uint8_t plan,
                             uint64_t *value);

/* Changes the plan of a live identifier, to 0 to 254. Kind and plan are bytes: a larger number is cut before the call sees it.
 * Value: the earlier plan. Causes: 15, 1, 2, 14, 4, 5, 7. Time: 5 to 200 microseconds. Stack: LIMGOSHI_STACK. */
LIMGOSHI_ANSWER limgoshi_change(uint64_t *table, size_t table_len, uint8_t kind, const uint8_t *id, size_t id_len, uint8_t plan,
                                uint64_t *value);

/* Withdraws a live identifier. Planes written from then on do not depend on the plan that it had; see limgoshi_plane_lookup. The kind is a byte: a
 * larger number is cut before the call sees it.
 * Value: the earlier plan. Causes: 15, 1, 2, 4, 5, 7. Time: 5 to 200 microseconds. Stack: LIMGOSHI_STACK. */
LIMGOSHI_ANSWER limgoshi_withdraw(uint64_t *table, size_t table_len, uint8_t kind, const uint8_t *id, size_t id_len, uint64_t *value);

/* Finds the plan of a live identifier. The kind is a byte: a larger number is cut before the call sees it.
 * Value: the plan. Causes: 15, 1, 2, 4, 5, 7. Time: 5 to 200 microseconds. Stack: LIMGOSHI_STACK. */
LIMGOSHI_ANSWER limgoshi_query(const uint64_t *table, size_t table_len, uint8_t kind, const uint8_t *id, size_t id_len, uint64_t *value);

/* Reads how many live identifiers have a plan, from the totals that the table keeps. Only the table's length and bucket numbers are tested: of a table
 * that is not sound the answer is the number that stands there, right or wrong. To have the table tested, make any call that has cause 5, as
 * limgoshi_query for an identifier, live or not. Any plan may be asked for: of a sound table the answer for LIMGOSHI_CALL_THE_DESK is 0.
 * The plan is a byte: a larger number is cut before the call sees it.
 * Value: the number of live identifiers with that plan. Causes: 4. Time: some nanoseconds. Stack: LIMGOSHI_STACK_LOOKUP. */
LIMGOSHI_ANSWER limgoshi_plan_total(const uint64_t *table, size_t table_len, uint8_t plan, uint64_t *value);

/* Writes the plane of a table to the front of out; what lies past it is untouched.
 * Value: the plane's length. Causes: 4, 5, 9. Time: 5 to 200 microseconds. Stack: LIMGOSHI_STACK. */
LIMGOSHI_ANSWER limgoshi_write_plane(const uint64_t *table, size_t table_len, uint8_t *out, size_t out_len, uint64_t *value);

/* Finds the plan that a plane gives an identifier: to a live one its plan, to any other LIMGOSHI_CALL_THE_DESK, or some number where a bucket holds
 * it: the XOR of the plans of some live identifiers of that bucket, 0 if of none. So a withdrawn one may get a plan, by chance its former one, and
 * cannot be told from a live one. The whole plane is checked at each call. The kind is a byte: a larger number is cut before the call sees it.
 * Value: the plan. Causes: 15, 1, 2, 10. Time: 0.1 microseconds. Stack: LIMGOSHI_STACK_LOOKUP. */
LIMGOSHI_ANSWER limgoshi_plane_lookup(uint8_t kind, const uint8_t *id, size_t id_len, const uint8_t *plane, size_t plane_len, uint64_t *value);

/* Makes the patch from an old plane to a new one, for posts that have the old one, to the front of out; what lies past it is untouched.
 * Value: the patch's length. Causes: 10 (old_plane, then new_plane), 11, 9. Time: 1 to 20 microseconds. Stack: LIMGOSHI_STACK_PATCH. */
LIMGOSHI_ANSWER limgoshi_make_patch(const uint8_t *old_plane, size_t old_len, const uint8_t *new_plane, size_t new_len, uint8_t *out,
                                    size_t out_len, uint64_t *value);

/* Applies a patch to the old plane: the new one goes to the front of out, not over the old one; what lies past it is untouched. The new plane never
 * gives cause 10, whoever made the patch. The sums find damage and a patch for another plane; they are no signature.
 * Value: the new plane's length. Causes: 10, 12, 13, 9. Time: 1 to 20 microseconds. Stack: LIMGOSHI_STACK_PATCH. */
LIMGOSHI_ANSWER limgoshi_apply_patch(const uint8_t *old_plane, size_t old_len, const uint8_t *patch, size_t patch_len, uint8_t *out,
                                     size_t out_len, uint64_t *value);

#ifdef __cplusplus
}
#endif

#endif
