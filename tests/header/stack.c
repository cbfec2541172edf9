/* The stack that each call needs: it runs on a stack of its own that was painted with a pattern, and the deepest byte that it wrote is looked for.
 * Tables of several sizes are filled until they are full, so that an add takes every way there is: straight into a bucket, past a bound, words that
 * leave level 1 one by one and several at a time, refused as full. Patches go from the plane of the empty table to that of the full one and back.
 * Prints the largest figures; status 1 if one is above the header's bound. */
#define _GNU_SOURCE
#include <inttypes.h>
#include <stdio.h>
#include <string.h>
#include <ucontext.h>

#include "limgoshi.h"

#define B1_MAX LIMGOSHI_BUCKETS1_MAX
#define B2_MAX LIMGOSHI_BUCKETS2_MAX
#define STACK_BYTES (256u * 1024u)
#define CARDS 6000u

enum { OPEN, ADD, CHANGE, WITHDRAW, QUERY, PLAN_TOTAL, WRITE_PLANE, PLANE_LOOKUP, MAKE_PATCH, APPLY_PATCH, CALLS };
static const struct {
    const char *name;
    size_t bound;
} stated[CALLS] = {
    {"open", LIMGOSHI_STACK},
    {"add", LIMGOSHI_STACK_ADD},
    {"change", LIMGOSHI_STACK},
    {"withdraw", LIMGOSHI_STACK},
    {"query", LIMGOSHI_STACK},
    {"plan_total", LIMGOSHI_STACK_LOOKUP},
    {"write_plane", LIMGOSHI_STACK},
    {"plane_lookup", LIMGOSHI_STACK_LOOKUP},
    {"make_patch", LIMGOSHI_STACK_PATCH},
    {"apply_patch", LIMGOSHI_STACK_PATCH},
};

/* What a call is made with, and what it answers. */
static uint64_t table[LIMGOSHI_TABLE_NUMBERS(B1_MAX, B2_MAX)];
static uint8_t plane[LIMGOSHI_PLANE_BYTES(B1_MAX, B2_MAX, LIMGOSHI_BASE_MAX)], old_plane[sizeof plane], new_plane[sizeof plane];
static uint8_t patch[LIMGOSHI_PATCH_BYTES(B1_MAX + B2_MAX, LIMGOSHI_BASE_MAX, LIMGOSHI_BASE_MAX)];
static size_t numbers, plane_length, old_length, patch_length, room, id_length;
static uint64_t b1, b2, value, cause;
static char id[LIMGOSHI_ID_MAX + 1];
static uint8_t kind, plan;

/* The painted stack, where the call found it, and the most that each call has used. */
static _Alignas(16) unsigned char stack[STACK_BYTES];
static unsigned char *start;
static size_t used[CALLS];
static ucontext_t here, there;
static int status;

/* Makes one call. What this function itself keeps on the stack is counted as the call's. */
static void make_call(int which)
{
    const uint8_t *bytes = (const uint8_t *)id;
    start = __builtin_frame_address(0);
    switch (which) {
    case OPEN: cause = limgoshi_open(table, numbers, b1, b2, &value); break;
    case ADD: cause = limgoshi_add(table, numbers, kind, bytes, id_length, plan, &value); break;
    case CHANGE: cause = limgoshi_change(table, numbers, kind, bytes, id_length, plan, &value); break;
    case WITHDRAW: cause = limgoshi_withdraw(table, numbers, kind, bytes, id_length, &value); break;
    case QUERY: cause = limgoshi_query(table, numbers, kind, bytes, id_length, &value); break;
    case PLAN_TOTAL: cause = limgoshi_plan_total(table, numbers, plan, &value); break;
    case WRITE_PLANE: cause = limgoshi_write_plane(table, numbers, plane, sizeof plane, &value); break;
    case PLANE_LOOKUP: cause = limgoshi_plane_lookup(kind, bytes, id_length, plane, plane_length, &value); break;
    case MAKE_PATCH: cause = limgoshi_make_patch(old_plane, old_length, plane, plane_length, patch, room, &value); break;
    default: cause = limgoshi_apply_patch(old_plane, old_length, patch, patch_length, new_plane, room, &value);
    }
}

/* Makes a call on the painted stack. */
static void call(int which)
{
    getcontext(&there);
    there.uc_stack.ss_sp = stack;
    there.uc_stack.ss_size = sizeof stack;
    there.uc_link = &here;
    makecontext(&there, (void (*)(void))make_call, 1, which);
    swapcontext(&here, &there);
}

/* Notes how deep the calls since the painting went. */
static void note(int which, unsigned char paint)
{
    size_t i = 0;
    while (i < sizeof stack && stack[i] == paint)
        i++;
    size_t depth = (size_t)(start - (stack + i));
    if (depth > used[which])
        used[which] = depth;
    memset(stack, paint, sizeof stack);
}

/* A card of any kind, its identifier as long as it may be. */
static void set_card(unsigned n)
{
    id_length = (size_t)snprintf(id, sizeof id, "Card-%031u", n);
    kind = (uint8_t)(LIMGOSHI_CENTRAL + n % LIMGOSHI_MAC_ADDRESS);
    plan = (uint8_t)(n % LIMGOSHI_CALL_THE_DESK);
}

/* Exchanges the two planes that a patch is made from. */
static void exchange(void)
{
    memcpy(new_plane, plane, sizeof plane);
    memcpy(plane, old_plane, sizeof plane);
    memcpy(old_plane, new_plane, sizeof plane);
    size_t length = plane_length;
    plane_length = old_length;
    old_length = length;
}

/* A patch is made and applied; then the calls that are turned down: output too short, planes unlike or wrong, each byte of the patch wrong or cut off. */
static void patches(unsigned char paint)
{
    room = sizeof patch;
    call(MAKE_PATCH);
    patch_length = (size_t)value;
    room = 0;
    call(MAKE_PATCH);
    old_length--;
    call(MAKE_PATCH);
    old_length++;
    plane[2] = (uint8_t)b2; /* other bucket numbers */
    plane[3] = (uint8_t)b1;
    call(MAKE_PATCH);
    plane[2] = (uint8_t)b1;
    plane[3] = (uint8_t)b2;
    note(MAKE_PATCH, paint);
    room = sizeof new_plane;
    call(APPLY_PATCH);
    if (cause != LIMGOSHI_ACCEPTED || value != plane_length || memcmp(new_plane, plane, plane_length) != 0) {
        printf("stack: a patch was not applied\n");
        status = 1;
    }
    old_length--;
    call(APPLY_PATCH);
    old_length++;
    for (size_t i = 0; i < patch_length; i++) {
        patch[i] ^= 0x80;
        call(APPLY_PATCH);
        patch[i] ^= 0x80;
    }
    room = 0;
    call(APPLY_PATCH);
    for (; patch_length > 0; patch_length--)
        call(APPLY_PATCH);
    note(APPLY_PATCH, paint);
}

/* Every call on every card of a table that is filled until it is full, and on what it leaves; then calls that are turned down. */
static void fill(uint64_t n1, uint64_t n2, unsigned char paint)
{
    unsigned full = 0;
    b1 = n1;
    b2 = n2;
    numbers = LIMGOSHI_TABLE_NUMBERS(n1, n2);
    memset(stack, paint, sizeof stack);
    call(OPEN);
    note(OPEN, paint);
    call(WRITE_PLANE);
    old_length = (size_t)value;
    memcpy(old_plane, plane, old_length);
    note(WRITE_PLANE, paint);
    unsigned cards = 0;
    for (; cards < CARDS && full < 20; cards++) {
        set_card(cards);
        call(ADD);
        full += cause == LIMGOSHI_FULL;
    }
    note(ADD, paint);
    call(WRITE_PLANE);
    plane_length = (size_t)value;
    note(WRITE_PLANE, paint);
    patches(paint);
    exchange();
    patches(paint);
    exchange();
    static const int asked[] = {PLANE_LOOKUP, QUERY, PLAN_TOTAL, CHANGE, WITHDRAW};
    for (size_t k = 0; k < sizeof asked / sizeof *asked; k++) {
        for (unsigned i = 0; i < cards; i += cards / 200 + 1) {
            set_card(i);
            call(asked[k]);
        }
        note(asked[k], paint);
    }
    for (int which = 0; which < CALLS; which++) {
        set_card(0);
        table[4] ^= 1; /* a total: not sound */
        call(which);
        table[4] ^= 1;
        table[4 + LIMGOSHI_PLANS] ^= 1; /* a column of the first bucket: not sound */
        call(which);
        table[4 + LIMGOSHI_PLANS] ^= 1;
        plan = LIMGOSHI_CALL_THE_DESK;
        call(which);
        id[0] = '/';
        call(which);
        id_length = 0;
        call(which);
        kind = 0;
        call(which);
        numbers--;
        call(which);
        numbers++;
        note(which, paint);
    }
    if (full == 0) {
        printf("stack: %" PRIu64 " and %" PRIu64 " buckets did not get full\n", n1, n2);
        status = 1;
    }
}

int main(void)
{
    fill(1, 1, 0xA5);
    fill(1, 1, 0x5A); /* a byte may be written that is just the paint */
    fill(2, 1, 0xA5);
    fill(12, 8, 0x5A);
    fill(B1_MAX, B2_MAX, 0xA5);
    for (size_t k = 0; k < CALLS; k++) {
        printf("stack: %-12s %6zu bytes, at most %6zu\n", stated[k].name, used[k], stated[k].bound);
        if (used[k] == 0 || used[k] > stated[k].bound)
            status = 1;
    }
    return status;
}
