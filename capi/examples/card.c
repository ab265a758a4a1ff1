/* Keeps a card by the lines of standard input, `hear FIELD NUMBER`, `read FIELD`, `confirm FIELD`,
   `undo` and `shot`, and prints for each the text read out, the angles, `ok`, or the refusal.

   usage: card [EDITION]    the edition of the Sun's series, a number; else the short one */
#include "fieldbook.h"

#include <inttypes.h>
#include <stdio.h>
#include <stdlib.h>
#include <string.h>

/* The most digits of a number, so that 64 bits hold it, and bytes of a field's text. */
enum { MOST_DIGITS = 18, LONGEST_TEXT = 15 };

/* More than the longest call has: a longer line is cut short, and still is no call. */
enum { ROOM = 64 };

static int64_t card[FIELDBOOK_CARD_WORDS];

/* Reads the next line, without its end; returns whether there was one. */
static int read_line(char line[ROOM])
{
    size_t length = 0;
    int c;
    while ((c = getchar()) != '\n' && c != EOF)
        if (length < ROOM - 1)
            line[length++] = c == '\0' ? '?' : (char)c; /* a NUL would end the text */
    line[length] = '\0';
    return c != EOF || length != 0;
}

/* Whether a line is a word and so many numbers, one space before each, which n then has. A number is
   an optional - and digits. */
static int is_call(const char *line, const char *word, int count, int64_t n[2])
{
    size_t length = strlen(word);
    if (strncmp(line, word, length) != 0)
        return 0;
    line += length;
    for (int i = 0; i < count; i++) {
        if (*line++ != ' ')
            return 0;
        size_t digits = strspn(line + (*line == '-'), "0123456789");
        if (digits == 0 || digits > MOST_DIGITS)
            return 0;
        char *end;
        n[i] = strtoll(line, &end, 10);
        line = end;
    }
    return *line == '\0';
}

/* Prints a refusal; returns whether there was one. */
static int refused(uint64_t refusal)
{
    if (refusal != FIELDBOOK_ANSWERED)
        printf("no %" PRIu64 "\n", refusal);
    return refusal != FIELDBOOK_ANSWERED;
}

static void print_done(uint64_t refusal)
{
    if (!refused(refusal))
        puts("ok");
}

static void print_text(int64_t field)
{
    uint8_t text[LONGEST_TEXT];
    struct fieldbook_read_answer a =
        fieldbook_card_read(card, FIELDBOOK_CARD_WORDS, field, text, sizeof text, 0);
    if (!refused(a.refusal))
        printf("%.*s\n", (int)a.length, (const char *)text);
}

static void print_shot(struct fieldbook_options options)
{
    struct fieldbook_shot_answer a = fieldbook_card_shot(card, FIELDBOOK_CARD_WORDS, options);
    if (!refused(a.refusal))
        printf("az %" PRIu64 " zd %" PRIu64 " ha %" PRIu64 " s %" PRIu64 "\n", a.azimuth,
               a.zenith_distance, a.hour_angle, a.longitude);
}

int main(int argc, char **argv)
{
    struct fieldbook_options options = FIELDBOOK_DEFAULTS;
    char line[ROOM];
    int64_t n[2];
    if (argc > 1)
        options.edition = strtoll(argv[1], NULL, 10);
    fieldbook_card_fresh(card, FIELDBOOK_CARD_WORDS);
    while (read_line(line)) {
        if (is_call(line, "hear", 2, n))
            print_done(fieldbook_card_hear(card, FIELDBOOK_CARD_WORDS, n[0], n[1]));
        else if (is_call(line, "read", 1, n))
            print_text(n[0]);
        else if (is_call(line, "confirm", 1, n))
            print_done(fieldbook_card_confirm(card, FIELDBOOK_CARD_WORDS, n[0]));
        else if (is_call(line, "undo", 0, n))
            print_done(fieldbook_card_undo(card, FIELDBOOK_CARD_WORDS));
        else if (is_call(line, "shot", 0, n))
            print_shot(options);
        else
            puts("no 14"); /* as the session refuses a line */
    }
    return 0;
}
