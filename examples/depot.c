/* A depot: opens a table, adds the cards of a text file, writes the plane file and prints how many cards each plan has.
 * Use: depot B1 B2 CARDS-FILE PLANE-FILE
 *
 * A line of the cards file is a kind, one space, an identifier, one space, a plan and a line feed, and nothing else. A last line without line feed
 * is refused, since a file that was cut may end in a wrong plan. If any line is refused, no plane is written and an older plane file stays as it was.
 * Status 0: the plane is written; 1: cards refused; 2: wrong use, or a file that cannot be read or written. */
#define _POSIX_C_SOURCE 200809L
#include <inttypes.h>
#include <stdbool.h>
#include <stdio.h>
#include <string.h>

#include "limgoshi.h"
#include "write_file.h"

#define LINE_ROOM 80u /* no right line is as long */

static uint64_t table[LIMGOSHI_TABLE_NUMBERS(LIMGOSHI_BUCKETS1_MAX, LIMGOSHI_BUCKETS2_MAX)];
static uint8_t plane[LIMGOSHI_PLANE_BYTES(LIMGOSHI_BUCKETS1_MAX, LIMGOSHI_BUCKETS2_MAX, LIMGOSHI_BASE_MAX)];

/* A decimal number without sign or leading zeros, at most `most`; -1 if the text is anything else. */
static int read_number(const char *text, size_t length, int most)
{
    int n = 0;
    if (length == 0 || (length > 1 && text[0] == '0'))
        return -1;
    for (size_t i = 0; i < length; i++) {
        if (text[i] < '0' || text[i] > '9')
            return -1;
        n = 10 * n + (text[i] - '0');
        if (n > most)
            return -1;
    }
    return n;
}

/* Reads a line without its line feed: the bytes that there is room for, and the whole length. *end is the line feed, or EOF. */
static size_t read_line(FILE *file, char line[LINE_ROOM], int *end)
{
    size_t length = 0;
    while ((*end = getc(file)) != EOF && *end != '\n') {
        if (length < LINE_ROOM)
            line[length] = (char)*end;
        length++;
    }
    return length;
}

/* A card: a kind, an identifier in the line that it was read from, and a plan. */
struct card {
    uint8_t kind;
    const char *id;
    size_t id_length;
    uint8_t plan;
};

/* Parts a line into a card. Returns what is wrong with it, or NULL. */
static const char *read_card(const char *line, size_t length, int end, struct card *card)
{
    if (end == EOF)
        return length == 0 ? "no cards" : "no line feed at the end: is the file cut?";
    if (length == 0)
        return "line is empty";
    if (length > LINE_ROOM)
        return "line is too long";
    if (line[length - 1] == '\r')
        return "carriage return at the end: a line ends in a line feed alone";
    const char *last = line + length;
    const char *first = memchr(line, ' ', length);
    const char *second = first == NULL ? NULL : memchr(first + 1, ' ', (size_t)(last - first - 1));
    if (second == NULL)
        return "less than two spaces: a line is a kind, an identifier and a plan, parted by single spaces";
    size_t plan_length = (size_t)(last - second - 1);
    if (memchr(second + 1, ' ', plan_length) != NULL)
        return "more than two spaces: a line is a kind, an identifier and a plan, parted by single spaces";
    if (first != line + 1 || line[0] < '0' || line[0] > '9')
        return "kind is not one digit from 1 to 7";
    card->kind = (uint8_t)(line[0] - '0');
    card->id = first + 1;
    card->id_length = (size_t)(second - card->id);
    if (plan_length == 0)
        return "no plan after the space";
    int n = read_number(second + 1, plan_length, UINT8_MAX);
    if (n < 0)
        return "plan is not a decimal number from 0 to 254 (no sign, no leading zeros, nothing after it)";
    card->plan = (uint8_t)n;
    return NULL;
}

/* Says why a card was turned down. */
static void say_cause(uint64_t cause, uint64_t value)
{
    switch (cause) {
    case LIMGOSHI_WRONG_KIND:
        fprintf(stderr, "kind is none of 1 Central, 2 eMAID, 3 ISO14443, 4 ISO15693, 5 KeyCode, 6 Local, 7 MacAddress\n");
        break;
    case LIMGOSHI_WRONG_LENGTH:
        fprintf(stderr, "identifier of %" PRIu64 " bytes: 1 to %u are allowed\n", value, LIMGOSHI_ID_MAX);
        break;
    case LIMGOSHI_WRONG_BYTE:
        fprintf(stderr, "byte %" PRIu64 " of the identifier is not allowed: letters, digits and * - _ = : + | @ . are\n", value + 1);
        break;
    case LIMGOSHI_DESK_PLAN_GIVEN:
        fprintf(stderr, "plan %u means \"call the desk\": a card is given 0 to %u\n", LIMGOSHI_CALL_THE_DESK, LIMGOSHI_CALL_THE_DESK - 1);
        break;
    case LIMGOSHI_LIVE:
        fprintf(stderr, "identifier was given before, with plan %" PRIu64 " (capitals make no difference)\n", value);
        break;
    case LIMGOSHI_FULL:
        fprintf(stderr, "no room: take a bucket for each 50 cards, 3 at level 1 (B1) to 2 at level 2 (B2)\n");
        break;
    default:
        fprintf(stderr, "turned down with cause %" PRIu64 ", value %" PRIu64 "\n", cause, value);
    }
}

/* Adds the cards of a file, and says of each line that is refused where it is and what is wrong. True if none is. */
static bool add_cards(FILE *file, const char *name, size_t numbers)
{
    bool right = true;
    for (unsigned long at = 1;; at++) {
        char line[LINE_ROOM];
        int end;
        size_t length = read_line(file, line, &end);
        if (ferror(file) || (end == EOF && length == 0 && at > 1))
            return right;
        struct card card;
        uint64_t value;
        const char *wrong = read_card(line, length, end, &card);
        if (wrong != NULL) {
            fprintf(stderr, "%s:%lu: %s\n", name, at, wrong);
            right = false;
            continue;
        }
        uint64_t cause = limgoshi_add(table, numbers, card.kind, (const uint8_t *)card.id, card.id_length, card.plan, &value);
        if (cause != LIMGOSHI_ACCEPTED) {
            fprintf(stderr, "%s:%lu: ", name, at);
            say_cause(cause, value);
            right = false;
        }
    }
}

/* Prints the number of cards of each plan that has any. Returns the cause if a question is turned down. */
static uint64_t print_totals(size_t numbers)
{
    for (unsigned plan = 0; plan < LIMGOSHI_PLANS; plan++) {
        uint64_t total;
        uint64_t cause = limgoshi_plan_total(table, numbers, (uint8_t)plan, &total);
        if (cause != LIMGOSHI_ACCEPTED)
            return cause;
        if (total > 0)
            printf("plan %u: %" PRIu64 "\n", plan, total);
    }
    return LIMGOSHI_ACCEPTED;
}

int main(int argc, char **argv)
{
    uint64_t value;
    if (argc != 5) {
        fprintf(stderr, "use: depot B1 B2 CARDS-FILE PLANE-FILE\n");
        return 2;
    }
    int b1 = read_number(argv[1], strlen(argv[1]), LIMGOSHI_BUCKETS1_MAX);
    int b2 = read_number(argv[2], strlen(argv[2]), LIMGOSHI_BUCKETS2_MAX);
    if (b1 < 1 || b2 < 1) {
        fprintf(stderr, "depot: B1 is a number from 1 to %u, B2 from 1 to %u\n", LIMGOSHI_BUCKETS1_MAX, LIMGOSHI_BUCKETS2_MAX);
        return 2;
    }
    size_t numbers = LIMGOSHI_TABLE_NUMBERS((size_t)b1, (size_t)b2);
    uint64_t cause = limgoshi_open(table, numbers, (uint64_t)b1, (uint64_t)b2, &value);
    if (cause != LIMGOSHI_ACCEPTED) {
        fprintf(stderr, "depot: open: cause %" PRIu64 "\n", cause);
        return 1;
    }

    FILE *cards = fopen(argv[3], "r");
    if (cards == NULL) {
        perror(argv[3]);
        return 2;
    }
    bool right = add_cards(cards, argv[3], numbers);
    if (ferror(cards)) {
        perror(argv[3]);
        return 2;
    }
    fclose(cards);
    if (!right) {
        fprintf(stderr, "depot: cards refused: %s is not written\n", argv[4]);
        return 1;
    }

    cause = limgoshi_write_plane(table, numbers, plane, sizeof plane, &value);
    if (cause != LIMGOSHI_ACCEPTED) {
        fprintf(stderr, "depot: plane: cause %" PRIu64 "\n", cause);
        return 1;
    }
    if (!write_file(argv[4], plane, (size_t)value))
        return 2;
    printf("%" PRIu64 " bytes\n", value);
    cause = print_totals(numbers);
    if (cause != LIMGOSHI_ACCEPTED) {
        fprintf(stderr, "depot: totals: cause %" PRIu64 "\n", cause);
        return 1;
    }
    return 0;
}
