/* Kinds and plans from variables that hold more than a byte, once for each such parameter: eight in all. The compiler must warn of each with -Wconversion
 * and of none without it; run, the calls must see the lowest 8 bits. Status 1 if one does not. */
#include <inttypes.h>
#include <stdio.h>

#include "limgoshi.h"

static uint64_t table[LIMGOSHI_TABLE_NUMBERS(1, 1)], value;
static uint8_t plane[LIMGOSHI_PLANE_BYTES(1, 1, 0)];
static int status;

/* What a call was answered with, and what it should have been. */
static void answered(const char *call, uint64_t cause, uint64_t want)
{
    if (cause == LIMGOSHI_ACCEPTED && value == want)
        return;
    printf("bytes.c: %s: answer %" PRIu64 ", value %" PRIu64 ", and not %d, %" PRIu64 "\n", call, cause, value, LIMGOSHI_ACCEPTED, want);
    status = 1;
}

int main(void)
{
    const uint8_t *id = (const uint8_t *)"Bus-17";
    size_t n = LIMGOSHI_TABLE_NUMBERS(1, 1);
    int kind = 258, plan = 300, other_plan = -213; /* 2, 44 and 43 */
    answered("open", limgoshi_open(table, n, 1, 1, &value), 0);
    answered("add", limgoshi_add(table, n, kind, id, 6, plan, &value), 1);
    answered("query, kind 2", limgoshi_query(table, n, LIMGOSHI_EMAID, id, 6, &value), 44);
    answered("query", limgoshi_query(table, n, kind, id, 6, &value), 44);
    answered("plan_total", limgoshi_plan_total(table, n, plan, &value), 1);
    answered("change", limgoshi_change(table, n, kind, id, 6, other_plan, &value), 44);
    answered("plan_total, plan 43", limgoshi_plan_total(table, n, 43, &value), 1);
    answered("write_plane", limgoshi_write_plane(table, n, plane, sizeof plane, &value), sizeof plane);
    answered("plane_lookup", limgoshi_plane_lookup(kind, id, 6, plane, sizeof plane, &value), 43);
    answered("withdraw", limgoshi_withdraw(table, n, kind, id, 6, &value), 43);
    return status;
}
