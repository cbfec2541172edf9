/* A charging post: reads a plane file and prints the plan of each identifier given, or that the driver should call the desk.
 * Use: post PLANE-FILE KIND:IDENTIFIER..
 *
 * KIND is one digit; a colon may also stand in the identifier.
 * Status 0: one of these is printed for each; 1: an identifier or the plane is turned down; 2: wrong use, or a file that cannot be read or written. */
#include <inttypes.h>
#include <stdio.h>
#include <string.h>

#include "limgoshi.h"

/* The longest plane, and one byte more to find a file that is longer. */
static uint8_t plane[LIMGOSHI_PLANE_BYTES(LIMGOSHI_BUCKETS1_MAX, LIMGOSHI_BUCKETS2_MAX, LIMGOSHI_BASE_MAX) + 1];

/* Says why a lookup was turned down. */
static void say_cause(const char *file, const char *asked, uint64_t cause, uint64_t value)
{
    switch (cause) {
    case LIMGOSHI_WRONG_KIND:
        fprintf(stderr, "%s: kind is none of 1 Central, 2 eMAID, 3 ISO14443, 4 ISO15693, 5 KeyCode, 6 Local, 7 MacAddress\n", asked);
        break;
    case LIMGOSHI_WRONG_LENGTH:
        fprintf(stderr, "%s: identifier of %" PRIu64 " bytes: 1 to %u are allowed\n", asked, value, LIMGOSHI_ID_MAX);
        break;
    case LIMGOSHI_WRONG_BYTE:
        fprintf(stderr, "%s: byte %" PRIu64 " of the identifier is not allowed: letters, digits and * - _ = : + | @ . are\n", asked, value + 1);
        break;
    case LIMGOSHI_WRONG_PLANE:
        fprintf(stderr, "%s: not a plane, or damaged: wrong at offset %" PRIu64 "\n", file, value);
        break;
    default:
        fprintf(stderr, "%s: turned down with cause %" PRIu64 ", value %" PRIu64 "\n", asked, cause, value);
    }
}

int main(int argc, char **argv)
{
    int status = 0;
    if (argc < 3) {
        fprintf(stderr, "use: post PLANE-FILE KIND:IDENTIFIER..\n");
        return 2;
    }
    FILE *file = fopen(argv[1], "rb");
    if (file == NULL) {
        perror(argv[1]);
        return 2;
    }
    size_t length = fread(plane, 1, sizeof plane, file);
    if (ferror(file)) {
        perror(argv[1]);
        return 2;
    }
    fclose(file);
    if (length == sizeof plane) {
        fprintf(stderr, "%s: longer than any plane\n", argv[1]);
        return 1;
    }

    for (int i = 2; i < argc; i++) {
        const char *asked = argv[i];
        if (asked[0] < '0' || asked[0] > '9' || asked[1] != ':') {
            fprintf(stderr, "%s: not KIND:IDENTIFIER with one digit from 1 to 7 as kind\n", asked);
            status = 1;
            continue;
        }
        uint8_t kind = (uint8_t)(asked[0] - '0');
        const char *id = asked + 2;
        uint64_t value;
        uint64_t cause = limgoshi_plane_lookup(kind, (const uint8_t *)id, strlen(id), plane, length, &value);
        if (cause != LIMGOSHI_ACCEPTED) {
            say_cause(argv[1], asked, cause, value);
            status = 1;
        } else if (value == LIMGOSHI_CALL_THE_DESK) {
            printf("%s call the desk\n", asked);
        } else {
            printf("%s plan %" PRIu64 "\n", asked, value);
        }
    }
    if (fflush(stdout) != 0) {
        perror("post");
        return 2;
    }
    return status;
}
