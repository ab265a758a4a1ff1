/* The field book for C: the functions of the static library libcapi.a (`rt lib` in crates/capi).
   Each is proved, and docs/PROMISES.md says what that means. They keep nothing between two calls, not even a
   card, whose words the caller keeps; they take any numbers, and may be called by several threads at once. Of
   the caller's memory they touch what is lent to them and no more. The choice reads its two lists, many shots
   read one list and write to the other, the card's calls read and write its words, a reading writes to a buffer
   besides, and the shot from a card only reads; the single shot, the pointing and the editions are lent
   nothing.

   Header and library belong together. The linker compares neither how many numbers a function takes nor how
   many members its options have, and code compiled with the header of another version would hand over some of
   them in the wrong place: compile everything that includes this file again with each new library. */
#ifndef FIELDBOOK_H
#define FIELDBOOK_H

#include <stddef.h>
#include <stdint.h>

#ifdef __cplusplus
extern "C" {
#endif

/* Why there is no answer, in the order of the tests, which is not everywhere that of the numbers: where
   several apply, a call gives the first of this list. */
enum fieldbook_refusal {
    FIELDBOOK_ANSWERED = 0,
    FIELDBOOK_NO_CARD = 100,     /* the words lent are no card; a number of this interface alone */
    FIELDBOOK_NOT_CONFIRMED = 1, /* a shot from a card with a field that is not confirmed */
    FIELDBOOK_NO_DATE = 2,       /* no such date, or not in 1976 to 2049 */
    FIELDBOOK_NO_TIME = 3,       /* hour, minute or millisecond not allowed */
    FIELDBOOK_NO_DUT1 = 4,       /* DUT1 out of range */
    FIELDBOOK_NO_DELTA_T = 17,   /* delta T out of range */
    FIELDBOOK_NO_POSITION = 5,   /* latitude or longitude out of range */
    FIELDBOOK_NO_BODY = 6,       /* body neither 1 nor 2 */
    FIELDBOOK_NO_EDITION = 19,   /* edition neither 1 nor 2, for Polaris too */
    FIELDBOOK_BELOW_HORIZON = 7, /* the body is below the horizon */
    FIELDBOOK_NEAR_ZENITH = 8,   /* the body is too near the zenith for an azimuth */
    FIELDBOOK_NO_LIST = 16,      /* a list of results empty or longer than 64 */
    FIELDBOOK_NO_ANGLE = 15,     /* a horizontal angle or a result not in 0 to 12,959,999,999 */

    /* of the card's other calls, which meet none of the above but 100 */
    FIELDBOOK_NO_FIELD = 9,        /* field not 1 to 11 */
    FIELDBOOK_EMPTY_FIELD = 10,    /* nothing to read: the field is empty */
    FIELDBOOK_NO_ROOM = 11,        /* the text does not fit into the buffer from the place on */
    FIELDBOOK_NOT_READ = 12,       /* nothing to confirm: the field is not in the state read */
    FIELDBOOK_TOO_LARGE = 13,      /* a number not in -9,999,999 to 9,999,999 */
    FIELDBOOK_NOTHING_TO_UNDO = 18 /* nothing heard since the card was fresh or the last undo */
};

/* A shot's answer, its angles in units of 0.0001 second of arc, 0 to 12,959,999,999. Check the
   refusal first: a refused shot has no angles, and what stands for them is 0. No answered shot has
   the azimuth 0: due north is 1. */
struct fieldbook_shot_answer {
    uint64_t refusal;         /* an enum fieldbook_refusal, 0 where the shot is answered */
    uint64_t azimuth;         /* from north, clockwise */
    uint64_t zenith_distance; /* from the zenith, without refraction */
    uint64_t hour_angle;      /* from the meridian, westward */
    uint64_t longitude;       /* the Sun's apparent longitude s; 0 for Polaris */
};

enum fieldbook_body { FIELDBOOK_SUN = 1, FIELDBOOK_POLARIS = 2 };

/* The editions of the Sun's series. The short one has the ellipse, the Moon, Venus and three terms of long
   period. The full one adds Mars, Jupiter and Saturn and a fourth term of long period, and lets one amplitude
   change with the date. Beside a modern theory, every five days from 1976 to 2049 and with delta_t given, the
   Sun's longitude was off by 16.5 seconds of arc at most in the short edition, by 1.9 in the full one
   (docs/accuracy.md). The full one takes 1.2 times the instructions of a single shot of the Sun, 1.4 times those
   of one of many. Polaris is the same by both, at the same cost. */
enum fieldbook_edition { FIELDBOOK_SHORT_EDITION = 1, FIELDBOOK_FULL_EDITION = 2 };

/* How a shot is to be worked, beside its numbers: the last parameter of each call that works one. Any number
   may be given for a member, and one without a meaning is refused.

   Take the defaults, then set what is to be otherwise:

       struct fieldbook_options options = FIELDBOOK_DEFAULTS;
       options.edition = FIELDBOOK_FULL_EDITION;

   Later versions of this header will have more members. Code that starts from the defaults is then compiled
   again as it is, and its answers stay. A member that an initialiser of its own leaves out would be 0, which
   is no option: every shot would be refused. */
struct fieldbook_options {
    int64_t edition; /* an enum fieldbook_edition; by default the short one */
};

#define FIELDBOOK_DEFAULTS {FIELDBOOK_SHORT_EDITION}

/* The shot: where a body stands.

   year, month, day    Gregorian date, UTC, 1976-01-01 to 2049-12-31
   hour, minute        0 to 23, 0 to 59
   millisecond         of the minute, 0 to 59,999; to 60,999 at 23:59 on 30 June or 31 December
   dut1                UT1 - UTC in milliseconds, -900 to 900
   latitude            in 0.1 seconds of arc, north positive, -3,204,000 to 3,204,000
   longitude           in 0.1 seconds of arc, east positive, -6,479,999 to 6,480,000
   body                an enum fieldbook_body
   delta_t             ET - UT1 in milliseconds, 0 to 120,000: how far ephemeris time, by which the
                       bodies move, is ahead of UT1, by which the Earth turns. Since 1984 almanacs
                       and bulletins have TT - UT1, which continues it; that is
                       32,184 + 1,000 (TAI - UTC) - dut1, and while TAI - UTC is 37 s, as since
                       2017, 69,184 - dut1. A whole second of it is 0.04 seconds of arc of the Sun's
                       longitude. 0 is the older rule, in which both times are one: the Sun is then
                       behind by 2 to 3 seconds of arc.
   options             the edition of the Sun's series

   Nothing compares dut1 and delta_t with the date or with each other.

       struct fieldbook_options options = FIELDBOOK_DEFAULTS;
       struct fieldbook_shot_answer a = fieldbook_shot(
           1984, 7, 2, 14, 30, 0, 0, 1224000, -4230000, FIELDBOOK_SUN, 54184, options);
       if (a.refusal != FIELDBOOK_ANSWERED)
           return a.refusal;
       set_out(a.azimuth); */
struct fieldbook_shot_answer fieldbook_shot(int64_t year, int64_t month, int64_t day, int64_t hour,
                                            int64_t minute, int64_t millisecond, int64_t dut1,
                                            int64_t latitude, int64_t longitude, int64_t body,
                                            int64_t delta_t, struct fieldbook_options options);

/* How many numbers a row of many shots has, those of a shot in the order above, year to delta_t; and how many
   words its answer, those of a struct fieldbook_shot_answer. An array of these structs can be lent as the list
   of words. */
enum { FIELDBOOK_SHOT_NUMBERS = 11, FIELDBOOK_SHOT_WORDS = 5 };

/* Many shots: one after the other as fieldbook_shot answers them, a refusal of its own for each row.

   rows                the numbers of the shots, row after row; only read
   rows_count          how many numbers: 11 times the rows
   answers             where the words of the answers go, row after row
   answers_count       how many words there is room for: 5 times the rows
   options             one for all rows

   Returns how many rows were answered: as many as there are whole rows of numbers and room for whole answers.
   Words beyond their answers stay as they were. A pointer must be valid for as many numbers as its count says,
   and is not used where that is 0; the two lists must not overlap, and no other thread may touch them during
   the call.

       int64_t rows[2][FIELDBOOK_SHOT_NUMBERS] = {
           {1984, 7, 2, 14, 30, 0, 0, 1224000, -4230000, FIELDBOOK_SUN, 54184},
           {1984, 7, 2, 14, 31, 0, 0, 1224000, -4230000, FIELDBOOK_SUN, 54184}};
       struct fieldbook_shot_answer answers[2];
       struct fieldbook_options options = FIELDBOOK_DEFAULTS;
       fieldbook_shots(rows[0], 2 * FIELDBOOK_SHOT_NUMBERS, (uint64_t *)answers, 2 * FIELDBOOK_SHOT_WORDS,
                       options);
       if (answers[1].refusal != FIELDBOOK_ANSWERED)
           return answers[1].refusal;
       set_out(answers[1].azimuth); */
uint64_t fieldbook_shots(const int64_t *rows, size_t rows_count, uint64_t *answers, size_t answers_count,
                         struct fieldbook_options options);

/* A pointing's answer. Check the refusal first: a refused pointing has no mark, and what stands for
   it is 0, which is also the azimuth of a mark due north. */
struct fieldbook_pointing_answer {
    uint64_t refusal; /* 2 to 8, 15, 17 or 19 of enum fieldbook_refusal, 0 where the pointing is
                         answered */
    uint64_t mark;    /* azimuth of the mark from north, clockwise, in units of 0.0001 second of arc,
                         0 to 12,959,999,999 */
};

/* The pointing: the azimuth of a reference mark, which is the body's less the horizontal angle,
   reduced to one turn. The first eleven numbers and the options are those of the shot, which is tested
   before the angle.

   angle               horizontal angle, clockwise from the mark to the body, in units of 0.0001
                       second of arc, 0 to 12,959,999,999

       struct fieldbook_options options = FIELDBOOK_DEFAULTS;
       struct fieldbook_pointing_answer a = fieldbook_pointing(
           1984, 7, 2, 14, 30, 0, 0, 1224000, -4230000, FIELDBOOK_SUN, 54184, 1234567890, options);
       if (a.refusal != FIELDBOOK_ANSWERED)
           return a.refusal;
       set_out(a.mark); */
struct fieldbook_pointing_answer fieldbook_pointing(int64_t year, int64_t month, int64_t day,
                                                    int64_t hour, int64_t minute,
                                                    int64_t millisecond, int64_t dut1,
                                                    int64_t latitude, int64_t longitude,
                                                    int64_t body, int64_t delta_t, int64_t angle,
                                                    struct fieldbook_options options);

/* A choice's answer. Check the refusal first: with one, neither list is chosen, list is 1 and count
   is 0. */
struct fieldbook_choice_answer {
    uint64_t refusal; /* 15 or 16 of enum fieldbook_refusal, 0 where a list is chosen */
    uint64_t list;    /* 1 the first list, 2 the second */
    uint64_t count;   /* how many results the list chosen has: all that were lent */
};

/* The choice: of two lists of results the one of smaller spread, the first on a tie. The spread is
   the largest result less the smallest, as plain numbers: results on both sides of north lie far
   apart.

   first, second       results in units of 0.0001 second of arc, each 0 to 12,959,999,999. Each
                       pointer must be valid for as many numbers as its count says, and is not read
                       where that is 0. They are only read; no other thread may change them during
                       the call. The two lists may overlap.
   .._count            how many numbers, 1 to 64

       struct fieldbook_choice_answer a = fieldbook_choice(first, 12, second, 8);
       if (a.refusal != FIELDBOOK_ANSWERED)
           return a.refusal;
       const int64_t *narrower = a.list == 2 ? second : first;
       set_out_all(narrower, a.count); */
struct fieldbook_choice_answer fieldbook_choice(const int64_t *first, size_t first_count,
                                                const int64_t *second, size_t second_count);

/* The answer of both editions, its angles in units of 0.0001 second of arc. Check the refusal first: a refused
   instant has no angles, and what stands for them is 0. */
struct fieldbook_editions_answer {
    uint64_t refusal;       /* 2, 3, 4 or 17 of enum fieldbook_refusal, 0 where the instant is answered */
    uint64_t short_edition; /* the Sun's apparent longitude s by the short edition, 0 to 12,959,999,999 */
    uint64_t full_edition;  /* the same by the full one */
    uint64_t apart;         /* how far the two are apart, the short way round */
    uint64_t bound;         /* the amplitudes that the short edition leaves out at this instant, added up
                               without their signs: apart is never more, which is proved */
};

/* The editions: what leaving terms out of a series costs, for those who teach it. It works the Sun's apparent
   longitude s at an instant by the short edition and by the full one, and tells how far apart they are and how
   far apart they can be at most. Its numbers are the shot's without position and body, year to dut1 and then
   delta_t, with the same limits; it takes no options. A call has about as many instructions as a single shot of
   the Sun.

   The bound is what the terms left out come to where all stand at their largest, on one side: 227,570 for the
   24 terms that the full edition adds, and 122 to 240, growing with the date, for the amplitude that changes
   with it. It is never more than 227,810, which is 22.781 seconds of arc. No instant is known at which they meet
   like that: the most that was found from 1976 to 2049 is 157,299, 15.7 seconds, on 22 March 2020.

       struct fieldbook_editions_answer a = fieldbook_editions(2020, 3, 22, 6, 30, 0, 0, 69184);
       if (a.refusal != FIELDBOOK_ANSWERED)
           return a.refusal;
       show(a.apart, a.bound); */
struct fieldbook_editions_answer fieldbook_editions(int64_t year, int64_t month, int64_t day, int64_t hour,
                                                    int64_t minute, int64_t millisecond, int64_t dut1,
                                                    int64_t delta_t);

/* The card: the eleven numbers of a shot, each heard, read out and confirmed before the shot takes it. It is 25
   words, which the caller keeps and lends; a copy of them is another card.

   word 2(f - 1)       state of field f, 1 to 11, the fields in the order of a shot's numbers above, year to
                       delta_t: 0 empty, 1 heard, 2 read, 3 confirmed
   word 2(f - 1) + 1   its number, -9,999,999 to 9,999,999; 0 where it is empty
   word 22             the field whose latest accepted hearing an undo takes back, 1 to 11; 0 where there is
                       nothing to undo
   words 23, 24        that field's state and number before that hearing, by the same codes; 0 and 0 where there
                       is nothing to undo

   Words that are not of this kind, or not 25, are no card: every call tests that before all else (to make a card
   fresh, the count alone), refuses them by FIELDBOOK_NO_CARD, and writes nothing. On a card each call does what
   is said below, and one that is refused leaves card and buffer as they were.

   As long as these functions alone write the words, from fieldbook_card_fresh on, every confirmed number was
   heard for its field, read out and confirmed, and any other hearing for that field since was refused or undone.
   More cannot be promised of memory that is the caller's: a program that writes to the words itself can put a
   confirmed number there that nobody read out, and no call would notice. That the text of a reading reaches an
   ear is up to the caller as well.

   A pointer must be valid for as many words or bytes as its count says, and is not used where that is 0. Card
   and buffer must not overlap, and no other thread may touch them during the call; shots from one card, which
   only read it, may run at once.

       int64_t card[FIELDBOOK_CARD_WORDS];
       uint8_t text[15];
       fieldbook_card_fresh(card, FIELDBOOK_CARD_WORDS);
       ...
       uint64_t refusal = fieldbook_card_hear(card, FIELDBOOK_CARD_WORDS, 5, 50);
       if (refusal != FIELDBOOK_ANSWERED)
           return refusal;
       struct fieldbook_read_answer a =
           fieldbook_card_read(card, FIELDBOOK_CARD_WORDS, 5, text, sizeof text, 0);
       if (a.refusal != FIELDBOOK_ANSWERED)
           return a.refusal;
       speak(text, a.length);
       if (agreed())
           return fieldbook_card_confirm(card, FIELDBOOK_CARD_WORDS, 5);
       return fieldbook_card_undo(card, FIELDBOOK_CARD_WORDS); */
enum { FIELDBOOK_CARD_WORDS = 25 };

/* A fresh card: every field is empty, and there is nothing to undo. What stood in the words before is not
   looked at, only their count. Returns 0, or 100 with no word written. */
uint64_t fieldbook_card_fresh(int64_t *card, size_t card_count);

/* Hears a number for a field: the field is heard with it, whatever it was before, which is what an undo now
   puts back. Whether the number is in the field's range is for a shot to test. Returns 0, or 100, 9 or 13 of
   enum fieldbook_refusal. */
uint64_t fieldbook_card_hear(int64_t *card, size_t card_count, int64_t field, int64_t number);

/* A reading's answer. */
struct fieldbook_read_answer {
    uint64_t refusal; /* 100, 9, 10 or 11 of enum fieldbook_refusal, 0 where the text is written */
    uint64_t length;  /* of the text, in bytes, 1 to 15; 0 with a refusal */
};

/* Reads a field out: writes its number into the buffer from a place on, 0 being the buffer's front, as it is to
   be spoken, and makes a heard field read; one that is read or confirmed is written again and stays so. The text
   is the decimal digits with a space between any two, "- " before them where the number is negative: 2042 is
   "2 0 4 2", -75 is "- 7 5". No NUL is written behind it, and the buffer's other bytes stay. 15 bytes are room
   for any number of a card. */
struct fieldbook_read_answer fieldbook_card_read(int64_t *card, size_t card_count, int64_t field,
                                                 uint8_t *buffer, size_t buffer_count, size_t place);

/* Confirms a field that is read; it keeps its number. Returns 0, or 100, 9 or 12 of enum fieldbook_refusal. */
uint64_t fieldbook_card_confirm(int64_t *card, size_t card_count, int64_t field);

/* Undoes the latest accepted hearing: its field gets back the state and the number it had before, also where it
   was read or confirmed since; the other fields stay as they are now. Then there is nothing to undo until the
   next accepted hearing. Returns 0, or 100 or 18 of enum fieldbook_refusal. */
uint64_t fieldbook_card_undo(int64_t *card, size_t card_count);

/* The shot with the numbers of a card, which is only read: refused by 100, then by 1 unless every field is
   confirmed, and else answered as fieldbook_shot answers these numbers with the same options. */
struct fieldbook_shot_answer fieldbook_card_shot(const int64_t *card, size_t card_count,
                                                 struct fieldbook_options options);

#ifdef __cplusplus
}
#endif

#endif
