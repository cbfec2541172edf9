/* Patches: a depot sends a post what changes from the plane that it has to the new one, and the post applies it.
 * Use: patch make OLD-PLANE NEW-PLANE PATCH
 *      patch apply OLD-PLANE PATCH NEW-PLANE
 *
 * The first two files are read, the third is written: whole, or, if anything is turned down, not at all. A post may give its plane file as both
 * OLD-PLANE and NEW-PLANE.
 * Status 0: the third file is written; 1: a plane or the patch is turned down; 2: wrong use, or a file that cannot be read or written. */
#define _POSIX_C_SOURCE 200809L
#include <inttypes.h>
#include <stdbool.h>
#include <stdio.h>
#include <string.h>

#include "limgoshi.h"
#include "write_file.h"

/* The longest patch; every plane is shorter. */
#define LONGEST LIMGOSHI_PATCH_BYTES(LIMGOSHI_BUCKETS1_MAX + LIMGOSHI_BUCKETS2_MAX, LIMGOSHI_BASE_MAX, LIMGOSHI_BASE_MAX)

/* A file that is read, as far as one byte past the longest patch: what is longer is wrong at that byte or before. */
struct input {
    const char *name;
    uint8_t bytes[LONGEST + 1];
    size_t length;
};

static struct input old, other; /* the old plane; the new one, or the patch */
static uint8_t result[LONGEST];

static bool read_file(const char *name, struct input *input)
{
    FILE *file = fopen(name, "rb");
    if (file == NULL) {
        perror(name);
        return false;
    }
    input->name = name;
    input->length = fread(input->bytes, 1, sizeof input->bytes, file);
    bool right = !ferror(file);
    if (!right)
        perror(name);
    fclose(file);
    return right;
}

/* Whether a file is a plane: the lookup of any identifier checks the whole of it. */
static bool is_plane(const struct input *input)
{
    uint64_t plan;
    return limgoshi_plane_lookup(LIMGOSHI_CENTRAL, (const uint8_t *)"A", 1, input->bytes, input->length, &plan) == LIMGOSHI_ACCEPTED;
}

/* Says why a call was turned down. */
static void say_cause(uint64_t cause, uint64_t value)
{
    switch (cause) {
    case LIMGOSHI_WRONG_PLANE: /* the old plane is tested first */
        fprintf(stderr, "%s: not a plane, or damaged: wrong at offset %" PRIu64 "\n", is_plane(&old) ? other.name : old.name, value);
        break;
    case LIMGOSHI_UNLIKE_PLANES:
        fprintf(stderr, "%s: has other bucket numbers than %s: the whole plane must be sent\n", other.name, old.name);
        break;
    case LIMGOSHI_WRONG_PATCH:
        fprintf(stderr, "%s: not a patch for %s, or damaged: wrong at offset %" PRIu64 "\n", other.name, old.name, value);
        break;
    case LIMGOSHI_WRONG_SUM:
        fprintf(stderr, "%s: a patch for another plane than %s, or damaged: a sum does not fit\n", other.name, old.name);
        break;
    default:
        fprintf(stderr, "patch: turned down with cause %" PRIu64 ", value %" PRIu64 "\n", cause, value);
    }
}

int main(int argc, char **argv)
{
    bool make = argc == 5 && strcmp(argv[1], "make") == 0;
    bool apply = argc == 5 && strcmp(argv[1], "apply") == 0;
    if (!make && !apply) {
        fprintf(stderr, "use: patch make OLD-PLANE NEW-PLANE PATCH\n     patch apply OLD-PLANE PATCH NEW-PLANE\n");
        return 2;
    }
    if (!read_file(argv[2], &old) || !read_file(argv[3], &other))
        return 2;

    uint64_t value, cause;
    if (make)
        cause = limgoshi_make_patch(old.bytes, old.length, other.bytes, other.length, result, sizeof result, &value);
    else
        cause = limgoshi_apply_patch(old.bytes, old.length, other.bytes, other.length, result, sizeof result, &value);
    if (cause != LIMGOSHI_ACCEPTED) {
        say_cause(cause, value);
        return 1;
    }
    if (!write_file(argv[4], result, (size_t)value))
        return 2;
    printf("%" PRIu64 " bytes\n", value);
    return 0;
}
