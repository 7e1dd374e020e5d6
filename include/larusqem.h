/*
 * Larusqem: a proved strftime and strptime, for C (C99 and later) and C++ (C++11 and later), on x86-64 Linux.
 *
 *     struct larusqem_reading r = larusqem_strptime("%d %b %Y", 8, "5 Mar 1934", 10);
 *     if (r.number == LARUSQEM_DONE)
 *         printf("%u-%02u-%02u\n", r.year, r.month, r.day);
 *     else
 *         printf("%s, place %u\n", larusqem_sentence(r.number), r.place);
 *
 * `make install` puts this file, the library and larusqem(3) in place; link with `pkg-config --cflags --libs larusqem`. What the functions
 * of the library return, and every entry of every array that they are lent, is proved equal to a definition in crates/larusqem/specs/, for
 * all arguments. What is inline here hands structs to them as words, and is tested. docs/RULES.md has every rule in words.
 *
 * Text is bytes with a length: a zero byte is a byte like any other, ends nothing, and is not put after what is written. A pointer is given
 * with its true length, and an array that is written overlaps no other argument: nothing can check these. Every other argument may be
 * anything. Where a length is 0 nothing is read or written, and the pointer may be NULL (not so for the functions on words, below).
 *
 * The functions are pure: they keep nothing, allocate nothing, read no locale, no time zone and no clock, and have no state of their own.
 * Any number of threads may call them at once, on arrays of their own. A call takes at most 40 KB of stack (by opened elements 2 KB, and 4
 * KB where a reason is asked for), and it always returns. What takes longest is a reading by the plain engine, which examines up to
 * 3,652,059 days one by one (see "Engines"), and a call that adds many thousand sheets to a list (see "Lists of sheets").
 *
 * The calendar is Gregorian from 0001-01-01 to 9999-12-31. The conversions of a format are
 *   %Y %C %y %m %b %h %B %d %e %j %u %w %a %A %U %W %G %g %V %H %k %I %l %p %P %M %S
 *   %z, the zone offset; for the writer alone %s, the seconds from 1970 (see "Zone offsets")
 *   %n %t %%, which are a newline, a tab and the sign
 *   %c %x %X %D %F %R %T %r, composites of the others
 *   %Ec %EC %Ex %EX %Ey %EY %Od %Oe %OH %OI %Om %OM %OS %Ou %OU %OV %Ow %OW %Oy, which mean the plain conversion.
 * The writer takes a flag and a width, 1 to 99, after the %, and the reader neither. A number is filled on the left with blanks by _, with
 * zeros by 0, not at all by -, else with its own fill; a name, %p or %P with blanks, and ^ makes it capitals. Nothing is cut. So the label
 * %_3d%^11B%_6Y has columns of 3, 11 and 6 places: 1934-03-05 is "  5      MARCH  1934" (RULES 4.4 and RULES 5). %z and %s take neither.
 *
 * White space is the bytes 9 to 13 and 32, as for isspace() in the POSIX locale. To the reader each such byte of a format, and so %n and
 * %t, takes all the white space that stands at its place in the text, or none. A number skips white space before it; a name or a zone
 * offset does not. Any other byte of a format must be the next byte of the text. The writer copies every byte but the conversions.
 */
#ifndef LARUSQEM_H
#define LARUSQEM_H

#include <stddef.h>
#include <stdint.h>

#ifdef __cplusplus
extern "C" {
#endif

/* ---- Limits */

/* the most bytes of a format, and of a text */
#define LARUSQEM_LONGEST 1024
/* the most elements that a format opens to: 13 for two bytes, as %c does */
#define LARUSQEM_ELEMENTS 6656
/* the bytes of a buffer that is enough for every writing by a format, or by the elements that it opens to: 256 times %99d has as many */
#define LARUSQEM_WIDEST 25344
/* the entries of a reason: one for each kind of fact that can be named, by its number, and one for 0, which is none */
#define LARUSQEM_KINDS 16
/* the words of a moment, of a reading and of a reason, for the functions on words */
#define LARUSQEM_MOMENT_WORDS 8
#define LARUSQEM_READING_WORDS 20
#define LARUSQEM_REASON_WORDS 33
/* the words of a sheet, for the functions on words */
#define LARUSQEM_SHEET_WORDS 11
/* the most words of a list's array, and how many its table of weeks has: no more and no fewer */
#define LARUSQEM_MOST_SHEETS 65536
#define LARUSQEM_WEEKS 1024

/* ---- Numbers that come back (RULES 3)
 *
 *   no.  meaning                             place                                          what else (reader)
 *   0    done                                writer: bytes written                          day, hour, minute, second,
 *                                            reader: first unread offset of the text        zone offset, each said or
 *                                                                                           unsaid; forms of names
 *   1    format over 1,024 bytes             0
 *   2    moment or sheet not valid           first bad field: 1 year, 2 month, 3 day,
 *                                            4 hour, 5 minute, 6 second, 7 zone offset
 *   3    conversion unknown or unfinished,   offset of the first bad % in the format
 *        or its flag or width not taken,
 *        or %s, for the reader
 *   4    output longer than the buffer       bytes needed
 *   5    text over 1,024 bytes               0
 *   6    text does not match                 text offset
 *   7    number outside its range            text offset of its first digit; of a zone
 *                                            offset that of its sign
 *   8    a kind of fact said again,          text offset of its first digit or letter;
 *        differently                         of a zone offset that of its sign
 *   9    no day or no hour agrees            1 day, 2 hour
 *   10   two or more agree                   1 day, 2 hour                                  the first two, earliest first
 *   11   more days to examine than           the budget
 *        the budget
 *   12   %s with the zone offset unsaid      offset of the first %s in the format
 *   13   day of the sheet unsaid             0
 *   14   list full: its array, or 1,024      0
 *        weeks and not the sheet's
 *   15   what is lent is no list             0
 *        with its table
 *
 * The writer judges 1, 2, 3, 12, 4 in this order; the reader 1, 5, 3, then 6, 7, 8 from left to right, then 11, 9 or 10 for the day, then
 * 9 or 10 for the hour. Text left over is no refusal: a text was read whole only where the place is its length. 11 comes only where a
 * budget is given. Adding to a list judges 13, 2, 15, 14 in this order; the place of its 0 is 0.
 */
enum larusqem_number {
    LARUSQEM_DONE = 0,
    LARUSQEM_FORMAT_TOO_LONG = 1,
    LARUSQEM_BAD_MOMENT = 2,
    LARUSQEM_BAD_CONVERSION = 3,
    LARUSQEM_BUFFER_TOO_SMALL = 4,
    LARUSQEM_TEXT_TOO_LONG = 5,
    LARUSQEM_NO_MATCH = 6,
    LARUSQEM_OUT_OF_RANGE = 7,
    LARUSQEM_CONTRADICTION = 8,
    LARUSQEM_NONE_AGREES = 9,
    LARUSQEM_TWO_AGREE = 10,
    LARUSQEM_OVER_BUDGET = 11,
    LARUSQEM_NO_OFFSET = 12,
    LARUSQEM_NO_DAY = 13,
    LARUSQEM_LIST_FULL = 14,
    LARUSQEM_BAD_LIST = 15
};

/* what a number means, for a message: words without a capital or a full stop */
static inline const char *larusqem_sentence(uint32_t number)
{
    switch (number) {
    case LARUSQEM_DONE:
        return "done";
    case LARUSQEM_FORMAT_TOO_LONG:
        return "the format has more than 1,024 bytes";
    case LARUSQEM_BAD_MOMENT:
        return "the moment or the sheet is not valid";
    case LARUSQEM_BAD_CONVERSION:
        return "a conversion of the format is unknown, unfinished or not for reading, or its flag or width is not taken";
    case LARUSQEM_BUFFER_TOO_SMALL:
        return "the output is longer than the buffer";
    case LARUSQEM_TEXT_TOO_LONG:
        return "the text has more than 1,024 bytes";
    case LARUSQEM_NO_MATCH:
        return "the text does not match the format";
    case LARUSQEM_OUT_OF_RANGE:
        return "a number is outside its range";
    case LARUSQEM_CONTRADICTION:
        return "the same thing is said again, differently";
    case LARUSQEM_NONE_AGREES:
        return "no day or no hour agrees with all that is said";
    case LARUSQEM_TWO_AGREE:
        return "two or more days or hours agree with all that is said";
    case LARUSQEM_OVER_BUDGET:
        return "more days would have to be examined than the budget allows";
    case LARUSQEM_NO_OFFSET:
        return "the seconds from 1970 are to be written, and the zone offset is not said";
    case LARUSQEM_NO_DAY:
        return "the day of the sheet is not said";
    case LARUSQEM_LIST_FULL:
        return "the list is full, or 1,024 weeks are held and the sheet's is not among them";
    case LARUSQEM_BAD_LIST:
        return "what is lent is no list of sheets with its table of weeks";
    default:
        return "no number of this library";
    }
}

/* ---- Forms of names (RULES 6.3)
 *
 * A weekday or a month is read by its full name, by its short form, the first three letters, and by four middle forms that old records
 * have: Sept, Tues, Thur and Thurs; letters may be large or small. The full name is tried first, then the longest of the others: "Tuesd"
 * takes "Tues" and leaves "d". A finished reading gives the form of its last weekday name, by %a or %A, and of its last month name, by
 * %b, %B or %h; a refused one gives none. A number, by %u, %w or %m, is no name and leaves the forms as they are. The writer writes full
 * and short names alone.
 */
enum larusqem_form {
    LARUSQEM_NO_NAME = 0,
    LARUSQEM_FULL_NAME = 1, /* May too, whose short form is the same */
    LARUSQEM_MIDDLE_NAME = 2,
    LARUSQEM_SHORT_NAME = 3
};

/* ---- Zone offsets (RULES 2, RULES 5, RULES 6.6)
 *
 * A zone offset is how many minutes a time is ahead of UTC, -1439 to 1439, or unsaid.
 *   %z   writes a sign, two digits of hours and two of minutes, as +0130 for 90 and -0030 for -30. Zero is +0000; unsaid writes nothing.
 *        It reads a sign, which must stand right there, and four digits, hours to 23 and minutes to 59; -0000 is 0.
 *   %s   takes the offset off and writes the whole seconds from 1970-01-01 00:00:00 UTC, with a minus sign below zero and without filling;
 *        second 60 counts as the next second. Where the offset is unsaid it is refused by 12. The reader refuses it by 3.
 * The day and the hour of a reading are those that the text says: which of them agree does not depend on the offset.
 */

/* ---- What goes in and comes out */

/* how a writing or an opening ended */
struct larusqem_answer {
    uint32_t number;
    uint32_t place;
};

/* a day; 0, 0, 0 where there is none */
struct larusqem_date {
    uint32_t year;
    uint32_t month;
    uint32_t day;
};

/*
 * What is written: year 1 to 9999, month 1 to 12, day 1 to the month's length, hour 0 to 23, minute 0 to 59, second 0 to 60, and a zone
 * offset, -1439 to 1439 minutes, or unsaid. It is unsaid where `offset_said` is 0, and `offset` is then not looked at; with any other
 * number it is said. Who sets one member after the other sets `offset_said` too. An initialiser that ends before it leaves it 0: there is
 * no offset in {{1934, 3, 5}, 7, 8, 9}, nor in {1934, 3, 5, 7, 8, 9}, as programs have it from before there were any. The date is a struct
 * of its own, so that such a program does not compile where it sets `moment.year` and would leave `offset_said` unset.
 */
struct larusqem_moment {
    struct larusqem_date date;
    uint32_t hour;
    uint32_t minute;
    uint32_t second;
    uint32_t offset_said;
    int32_t offset;
};

/*
 * What was read. Whatever the row of its number does not name is 0.
 *
 *   members                  number 0                       number 10, place 1    number 10, place 2      any other number
 *   number, place            0, the first unread offset     10, 1                 10, 2                   the number, the place
 *   year, month, day         the day; 0 0 0 where the       the first of the      0 0 0                   0 0 0
 *                            text says no day               two days
 *   hour_said, hour          1 and the hour, 0 0 if unsaid  0 0                   0 and the first hour    0 0
 *   minute_said, minute      1 and the minute, or 0 0       0 0                   0 0                     0 0
 *   second_said, second      1 and the second, or 0 0       0 0                   0 0                     0 0
 *   other_year, other_month  0 0 0                          the second of the     0 0 0                   0 0 0
 *     and other_day                                         two days
 *   other_hour               0                              0                     the second hour         0
 *   examined                 the days examined              the days examined     the days examined       9: the days examined;
 *                                                                                                         11: the budget; else 0
 *   weekday_form,            the form of the last name      0 0                   0 0                     0 0
 *     month_form             of each, 0 where none is read
 *   offset_said, offset      1 and the zone offset in       0 0                   0 0                     0 0
 *                            minutes, or 0 0
 */
struct larusqem_reading {
    uint32_t number;
    uint32_t place;
    uint32_t year;
    uint32_t month;
    uint32_t day;
    uint32_t hour_said;
    uint32_t hour;
    uint32_t minute_said;
    uint32_t minute;
    uint32_t second_said;
    uint32_t second;
    uint32_t other_year;
    uint32_t other_month;
    uint32_t other_day;
    uint32_t other_hour;
    uint32_t examined;
    uint32_t weekday_form;
    uint32_t month_form;
    uint32_t offset_said;
    int32_t offset;
};

/* ---- Engines (RULES 8.4)
 *
 * The day is looked for among all days of the calendar, up to the second that agrees. Both engines answer the same, shown days included;
 * they differ in time, and in the days that they count as examined:
 *   the skipping one   passes over what cannot agree. It counts the days of those months alone whose year and month agree with all that is
 *                      said of year, century, year in century and month.
 *   the plain one      examines each day in order, and counts them all.
 * Each counts through the second day that agrees, and where there are not two through the last day, 9999-12-31; so the plain one counts
 * 3,652,059 wherever one day agrees, or none. Where nothing that is said bears on the day, and where the reading is refused before the day
 * is judged, no day is examined.
 *
 * The plain engine can be given a budget of days. If it is smaller than what the plain engine would count without one, the reading is
 * refused by 11, with the budget as its place and in `examined`; otherwise the answer is as without a budget. So the time of a call has a
 * bound of the caller's choice: "5 Mar", which is open, needs a budget of 429 days. A text that says one day needs the whole calendar,
 * since no other day may agree. The skipping engine takes no budget.
 */
enum larusqem_engine {
    LARUSQEM_SKIPPING = 0,
    LARUSQEM_PLAIN = 1,
    LARUSQEM_WITHIN = 2 /* the plain one with a budget */
};

/* ---- Reasons (RULES 8.5)
 *
 * A reading that is refused by 9 or 10 has a reason, which is given where it is asked for (struct larusqem_options); it is the same by
 * every engine. With any other number, 11 too, there is none.
 *   9              names the kinds of fact that quarrel: no day, or no hour, agrees with all that is said of them together, and without
 *                  any one of them some does. Each has its words, where the text first says it: a caller can underline these and no more.
 *   10, place 1    the first of year, month and day in which the two days differ
 *   10, place 2    the two hours, which the reading shows
 * The kinds are tried in the order of the enum, and one is left out if none agrees without it either; so it is fixed which are named. Of
 * "Tue 5 Mar 1934" by "%a %d %b %Y" these are the year, 10 to 14, the month, 6 to 9, the day, 4 to 5, and the weekday, 0 to 3; of "30 Feb
 * 1900" the month and the day alone, since no year has it. "5 Mar" by "%d %b" has the part year: 0001-03-05 and 0002-03-05 differ in it.
 *
 * A reason is worked out by the skipping engine, whatever the engine and the budget of the reading: some 0.4 ms at most.
 */
enum larusqem_kind {
    LARUSQEM_YEAR = 1,                 /* %Y */
    LARUSQEM_CENTURY = 2,              /* %C */
    LARUSQEM_YEAR_IN_CENTURY = 3,      /* %y */
    LARUSQEM_MONTH = 4,                /* %m %b %B %h */
    LARUSQEM_DAY = 5,                  /* %d %e */
    LARUSQEM_DAY_OF_YEAR = 6,          /* %j */
    LARUSQEM_WEEKDAY = 7,              /* %a %A %u %w */
    LARUSQEM_SUNDAY_WEEK = 8,          /* %U */
    LARUSQEM_MONDAY_WEEK = 9,          /* %W */
    LARUSQEM_ISO_YEAR = 10,            /* %G */
    LARUSQEM_ISO_YEAR_IN_CENTURY = 11, /* %g */
    LARUSQEM_ISO_WEEK = 12,            /* %V */
    LARUSQEM_HOUR = 13,                /* %H %k */
    LARUSQEM_HOUR_OF_TWELVE = 14,      /* %I %l */
    LARUSQEM_HALF_OF_DAY = 15          /* %p %P */
};

/* the parts of a date, in the order in which two days are compared */
enum larusqem_part {
    LARUSQEM_NO_PART = 0,
    LARUSQEM_YEAR_PART = 1,
    LARUSQEM_MONTH_PART = 2,
    LARUSQEM_DAY_PART = 3
};

/* where words stand in a text: the offset of their first digit or letter, and the offset after their last; 0 0 where there are none */
struct larusqem_extent {
    uint32_t from;
    uint32_t next;
};

/*
 * Why a reading was refused. A kind is named exactly where the `next` of its words is not 0.
 *
 *   members        number 9                                       number 10, place 1    any other number or place
 *   part           0                                              the part              0
 *   words[kind]    of a kind that is named its words, else 0 0    0 0                   0 0
 */
struct larusqem_reason {
    uint32_t part;
    struct larusqem_extent words[LARUSQEM_KINDS];
};

/*
 * How a text is read: by an engine of the enum (any other number is as LARUSQEM_WITHIN); with a budget, which only WITHIN looks at, so that
 * a budget alone does nothing; and where the reason goes, or NULL: not asked for. It takes time only where it is asked for and the reading
 * is refused by 9 or 10. In C an initialiser best names its members, as {.engine = LARUSQEM_WITHIN, .budget = 1000} does: all others are
 * then 0, without a warning. Who sets one member after the other sets `reason` too: it is written through wherever it is not NULL.
 */
struct larusqem_options {
    uint32_t engine;
    uint32_t budget;
    struct larusqem_reason *reason;
};

/* ---- Lists of sheets (RULES 11)
 *
 * A sheet is a dated page: a day, and hour, minute, second and zone offset, each said or unsaid. It is packed into a word of 64 bits: from
 * the most significant on
 *   year 14, month 4, day 5; hour said 1, hour 5; minute said 1, minute 6; second said 1, second 6;
 *   offset said 1, offset plus 1439 in 12; 8 zero bits
 * where what is unsaid is 0. A word is the packing of a sheet exactly if it unpacks to a valid sheet that packs to it. The order of words
 * is the order of dates, then of the rest as packed. 1934-03-05 alone is 0x1e38ca0000000000; no packing is 0.
 *
 * A list is such words in an array that the caller lends, ascending, equal ones allowed. Beside it the caller lends a table of 1,024 words.
 * It has a word for each ISO week that has sheets, in order, always as worked out afresh from the list: from the most significant bit on
 *   ISO year 14, week 6, sheets 44
 * Each array has a count of the words that it holds. Words past a count are not judged, and past the new one not changed: an empty list is
 * two counts of 0, whatever the arrays hold.
 *
 * Adding a sheet keeps every word held and puts in the sheet's own once more, and nothing else; the table is kept with it. It judges, in
 * this order,
 *   13   the day is unsaid
 *   2    a field that is said is not valid; the place is the first such field
 *   15   what is lent is no list with its table: the list's array has over 65,536 words, the table not 1,024, a count lies past the end of
 *        its array, a word of the list is no packing, the list is not ascending, or the table is not as the list gives
 *   14   the array is full, or 1,024 weeks are held and the sheet's is not among them
 * and a refusal leaves both arrays and both counts untouched.
 *
 * Many sheets are added by one call as if one after another, up to the first that is refused, whose index is given; those before it stay
 * added. Judging goes over the whole list, some 4 to 10 ns for a word; such a call judges it once, and with no sheets not at all. So
 * 65,536 sheets in any order are added in some 0.2 s, where a call for each takes more than 10.
 */

/*
 * A sheet: its date, 0 0 0 where the day is unsaid (then it can be added to no list), and hour, minute, second and zone offset, each said
 * where the member before it is not 0; what is unsaid is not looked at. The ranges are those of a moment. Who sets one member after the
 * other sets all four that say; an initialiser that ends before them leaves them 0: {{1934, 3, 5}} is a sheet of that day alone.
 */
struct larusqem_sheet {
    struct larusqem_date date;
    uint32_t hour_said;
    uint32_t hour;
    uint32_t minute_said;
    uint32_t minute;
    uint32_t second_said;
    uint32_t second;
    uint32_t offset_said;
    int32_t offset;
};

/*
 * What is lent: the list's array, of at most LARUSQEM_MOST_SHEETS words, and the table's, of LARUSQEM_WEEKS, with their lengths, and how
 * many words of each are held. {words, words_length, table, LARUSQEM_WEEKS, 0, 0} is an empty list. The arrays overlap nothing.
 */
struct larusqem_list {
    uint64_t *words;
    size_t words_length;
    uint64_t *table;
    size_t table_length;
    uint32_t sheet_count;
    uint32_t week_count;
};

/* how adding many sheets ended: by the refusal of the sheet with this index, or by 0 and 0; the index is then how many there were */
struct larusqem_added {
    uint32_t number;
    uint32_t place;
    uint32_t index;
};

/* an ISO week with sheets: 1934, 10 and how many */
struct larusqem_week {
    uint32_t year;
    uint32_t week;
    uint64_t sheets;
};

/* ---- The functions of the library, on words
 *
 * They are what is proved; the functions below hand them structs. They take a moment, and leave a reading or a reason, as words in the
 * order of the struct's members, all of which are written; a zone offset is a word in two's complement. A format is opened for reading by
 * 0, and for writing by any other number. A text is read by the skipping engine by 0, by the plain one by 1, where the budget is not looked
 * at, and by the plain one with the budget by any other number. Each result is number * 2^32 + place (larusqem_answer_of takes it apart).
 * The two that explain return nothing; they leave the reason of the reading by the skipping engine, which is that of every engine whose
 * budget is enough. No pointer may be NULL.
 */
uint64_t larusqem_strftime_words(const uint8_t *format, size_t format_length, const uint32_t moment[LARUSQEM_MOMENT_WORDS], uint8_t *out,
                                 size_t out_length);
uint64_t larusqem_strptime_words(const uint8_t *format, size_t format_length, const uint8_t *text, size_t text_length, uint32_t engine,
                                 uint32_t budget, uint32_t reading[LARUSQEM_READING_WORDS]);
uint64_t larusqem_open_words(const uint8_t *format, size_t format_length, uint32_t for_writing, uint32_t *elements,
                             size_t elements_length);
uint64_t larusqem_write_words(const uint32_t *elements, size_t elements_length, const uint32_t moment[LARUSQEM_MOMENT_WORDS], uint8_t *out,
                              size_t out_length);
uint64_t larusqem_read_words(const uint32_t *elements, size_t elements_length, const uint8_t *text, size_t text_length, uint32_t engine,
                             uint32_t budget, uint32_t reading[LARUSQEM_READING_WORDS]);
void larusqem_explain_words(const uint8_t *format, size_t format_length, const uint8_t *text, size_t text_length,
                            uint32_t reason[LARUSQEM_REASON_WORDS]);
void larusqem_explain_read_words(const uint32_t *elements, size_t elements_length, const uint8_t *text, size_t text_length,
                                 uint32_t reason[LARUSQEM_REASON_WORDS]);

/*
 * The same of lists. A sheet is words in the order of the struct's members; many are one after the other, and words that are left over
 * after the last eleven are no sheet.
 *   pack     leaves the sheet's word, 0 where it is refused, and returns number * 2^32 + place: 0, 13 or 2
 *   unpack   leaves the sheet and returns 1, or leaves eleven zeros and returns 0 where the word is no packing
 *   week     leaves ISO year, week and sheets of a word of the table, by the bits of any word
 *   list     returns 0, or 15 where what is lent is no list with its table; it takes the two counts, sheets and weeks
 *   add      adds sheets to what is lent; it takes and leaves the two counts, and leaves number, place and index
 */
uint64_t larusqem_pack_words(const uint32_t sheet[LARUSQEM_SHEET_WORDS], uint64_t word[1]);
uint32_t larusqem_unpack_words(uint64_t word, uint32_t sheet[LARUSQEM_SHEET_WORDS]);
void larusqem_week_words(uint64_t word, uint64_t week[3]);
uint32_t larusqem_list_words(const uint64_t *words, size_t words_length, const uint64_t *table, size_t table_length,
                             const uint32_t counts[2]);
void larusqem_add_words(const uint32_t *sheets, size_t sheets_length, uint64_t *words, size_t words_length, uint64_t *table,
                        size_t table_length, uint32_t counts[2], uint32_t added[3]);

/* Each member is the word of its place, and nothing lies between or after them. All members are uint32_t, or int32_t, which may be reached
   as uint32_t too. So the library may reach each of them, and a pointer to the struct serves as one to its words. */
#if defined __cplusplus
#define LARUSQEM_ASSERT(name, fact) static_assert(fact, #name)
#elif defined __STDC_VERSION__ && __STDC_VERSION__ >= 201112L
#define LARUSQEM_ASSERT(name, fact) _Static_assert(fact, #name)
#else
#define LARUSQEM_ASSERT(name, fact) typedef char name[(fact) ? 1 : -1]
#endif
#define LARUSQEM_WORD(name, index, member)                                                                                   \
    LARUSQEM_ASSERT(name##_##member##_is_word_##index, offsetof(struct name, member) == (index) * sizeof(uint32_t) &&       \
                                                           sizeof(((struct name *)0)->member) == sizeof(uint32_t))

LARUSQEM_WORD(larusqem_date, 0, year);
LARUSQEM_WORD(larusqem_date, 1, month);
LARUSQEM_WORD(larusqem_date, 2, day);
LARUSQEM_ASSERT(larusqem_date_is_its_words, sizeof(struct larusqem_date) == 3 * sizeof(uint32_t));
LARUSQEM_ASSERT(larusqem_moment_date_is_from_word_0, offsetof(struct larusqem_moment, date) == 0);
LARUSQEM_WORD(larusqem_moment, 3, hour);
LARUSQEM_WORD(larusqem_moment, 4, minute);
LARUSQEM_WORD(larusqem_moment, 5, second);
LARUSQEM_WORD(larusqem_moment, 6, offset_said);
LARUSQEM_WORD(larusqem_moment, 7, offset);
LARUSQEM_ASSERT(larusqem_moment_is_its_words, sizeof(struct larusqem_moment) == LARUSQEM_MOMENT_WORDS * sizeof(uint32_t));

LARUSQEM_WORD(larusqem_reading, 0, number);
LARUSQEM_WORD(larusqem_reading, 1, place);
LARUSQEM_WORD(larusqem_reading, 2, year);
LARUSQEM_WORD(larusqem_reading, 3, month);
LARUSQEM_WORD(larusqem_reading, 4, day);
LARUSQEM_WORD(larusqem_reading, 5, hour_said);
LARUSQEM_WORD(larusqem_reading, 6, hour);
LARUSQEM_WORD(larusqem_reading, 7, minute_said);
LARUSQEM_WORD(larusqem_reading, 8, minute);
LARUSQEM_WORD(larusqem_reading, 9, second_said);
LARUSQEM_WORD(larusqem_reading, 10, second);
LARUSQEM_WORD(larusqem_reading, 11, other_year);
LARUSQEM_WORD(larusqem_reading, 12, other_month);
LARUSQEM_WORD(larusqem_reading, 13, other_day);
LARUSQEM_WORD(larusqem_reading, 14, other_hour);
LARUSQEM_WORD(larusqem_reading, 15, examined);
LARUSQEM_WORD(larusqem_reading, 16, weekday_form);
LARUSQEM_WORD(larusqem_reading, 17, month_form);
LARUSQEM_WORD(larusqem_reading, 18, offset_said);
LARUSQEM_WORD(larusqem_reading, 19, offset);
LARUSQEM_ASSERT(larusqem_reading_is_its_words, sizeof(struct larusqem_reading) == LARUSQEM_READING_WORDS * sizeof(uint32_t));

LARUSQEM_WORD(larusqem_extent, 0, from);
LARUSQEM_WORD(larusqem_extent, 1, next);
LARUSQEM_ASSERT(larusqem_extent_is_its_words, sizeof(struct larusqem_extent) == 2 * sizeof(uint32_t));
LARUSQEM_WORD(larusqem_reason, 0, part);
LARUSQEM_ASSERT(larusqem_reason_words_are_from_word_1, offsetof(struct larusqem_reason, words) == sizeof(uint32_t));
LARUSQEM_ASSERT(larusqem_reason_is_its_words, sizeof(struct larusqem_reason) == LARUSQEM_REASON_WORDS * sizeof(uint32_t));

LARUSQEM_ASSERT(larusqem_sheet_date_is_from_word_0, offsetof(struct larusqem_sheet, date) == 0);
LARUSQEM_WORD(larusqem_sheet, 3, hour_said);
LARUSQEM_WORD(larusqem_sheet, 4, hour);
LARUSQEM_WORD(larusqem_sheet, 5, minute_said);
LARUSQEM_WORD(larusqem_sheet, 6, minute);
LARUSQEM_WORD(larusqem_sheet, 7, second_said);
LARUSQEM_WORD(larusqem_sheet, 8, second);
LARUSQEM_WORD(larusqem_sheet, 9, offset_said);
LARUSQEM_WORD(larusqem_sheet, 10, offset);
LARUSQEM_ASSERT(larusqem_sheet_is_its_words, sizeof(struct larusqem_sheet) == LARUSQEM_SHEET_WORDS * sizeof(uint32_t));

LARUSQEM_WORD(larusqem_added, 0, number);
LARUSQEM_WORD(larusqem_added, 1, place);
LARUSQEM_WORD(larusqem_added, 2, index);
LARUSQEM_ASSERT(larusqem_added_is_its_words, sizeof(struct larusqem_added) == 3 * sizeof(uint32_t));

#undef LARUSQEM_WORD
#undef LARUSQEM_ASSERT

/* the number and the place of a function on words */
static inline struct larusqem_answer larusqem_answer_of(uint64_t result)
{
    struct larusqem_answer answer;

    answer.number = (uint32_t)(result >> 32);
    answer.place = (uint32_t)result;
    return answer;
}

/* the bytes of a text, and some pointer where there are none */
static inline const uint8_t *larusqem_bytes(const char *text, size_t length)
{
    return (const uint8_t *)(length ? text : "");
}

/* ---- Writing and reading */

/*
 * Writes a moment by a format over the start of `out`. Answers 0 to 4 or 12 of the table. On 0 the first `place` bytes of `out` are the
 * text, and those past them are as they came; on any other number all of `out` is as it came.
 */
static inline struct larusqem_answer larusqem_strftime(const char *format, size_t format_length, struct larusqem_moment moment, char *out,
                                                       size_t out_length)
{
    uint8_t none = 0;

    return larusqem_answer_of(larusqem_strftime_words(larusqem_bytes(format, format_length), format_length, (const uint32_t *)&moment,
                                                      out_length ? (uint8_t *)out : &none, out_length));
}

/* whether a reason is asked for that a reading has; one that is asked for and that it has not is set to 0 */
static inline int larusqem_wants_reason(const struct larusqem_reading *reading, const struct larusqem_options *options)
{
    struct larusqem_reason none = {LARUSQEM_NO_PART, {{0, 0}}};

    if (!options->reason) return 0;
    if (reading->number == LARUSQEM_NONE_AGREES || reading->number == LARUSQEM_TWO_AGREE) return 1;
    *options->reason = none;
    return 0;
}

/* Reads a text by a format and with options: the one day and hour that all that it says fits, or why there is none. Answers 0, 1, 3 or 5
   to 11. Where a reason is asked for, all of it is written, whatever the number. */
static inline struct larusqem_reading larusqem_strptime_with(const char *format, size_t format_length, const char *text,
                                                             size_t text_length, struct larusqem_options options)
{
    struct larusqem_reading reading;

    larusqem_strptime_words(larusqem_bytes(format, format_length), format_length, larusqem_bytes(text, text_length), text_length,
                            options.engine, options.budget, (uint32_t *)&reading);
    if (larusqem_wants_reason(&reading, &options))
        larusqem_explain_words(larusqem_bytes(format, format_length), format_length, larusqem_bytes(text, text_length), text_length,
                               (uint32_t *)options.reason);
    return reading;
}

/* The same by the skipping engine, and without a reason. Answers 0, 1, 3 or 5 to 10. */
static inline struct larusqem_reading larusqem_strptime(const char *format, size_t format_length, const char *text, size_t text_length)
{
    struct larusqem_options skipping = {LARUSQEM_SKIPPING, 0, NULL};

    return larusqem_strptime_with(format, format_length, text, text_length, skipping);
}

/* ---- Formats opened once (RULES 10)
 *
 * An element of an opened format is a number. A byte stands for itself; %n, %t and %% open to the bytes 10, 9 and 37. A conversion is
 *   letter + 256 * (p + 1) + 2^18 * width + 2^25 * flag
 * with a letter of
 *   Y C y m b h B d e j u w a A U W G g V H k I l p P M S z s
 * where p is the offset of its % in the format, 0 to 1022, and where a width, 1 to 99, or a flag's byte, _ - 0 or ^ as belongs to the
 * letter, is 0 if there is none; z and s have neither. Composites are opened: their conversions have the p of the composite. No other entry
 * is an element, nor is any past the first LARUSQEM_ELEMENTS. The elements for reading are those below 2^18, with neither width nor flag,
 * but for those with the letter s.
 */

/* what a format is opened for: flags, widths and %s are taken for writing, and refused for reading */
enum larusqem_use {
    LARUSQEM_FOR_READING = 0,
    LARUSQEM_FOR_WRITING = 1
};

/*
 * Opens a format into elements, once, for any number of calls of larusqem_write, and of larusqem_read and larusqem_read_with where it is
 * opened for reading. Without flags, widths and %s it opens to the same for both. LARUSQEM_ELEMENTS entries are enough for every format,
 * and 13 for every two bytes of this one. Answers, judged in this order: 1 with 0; 3 with the offset of the first bad %; 4 with the number
 * of elements where they do not all fit; 0 with their number. On 0 and 4 the elements are stored, on 3 those before the bad %, each as many
 * as fit, and on 1 none. Every other entry is as it came.
 */
static inline struct larusqem_answer larusqem_open(const char *format, size_t format_length, enum larusqem_use use, uint32_t *elements,
                                                   size_t elements_length)
{
    uint32_t none = 0;

    return larusqem_answer_of(larusqem_open_words(larusqem_bytes(format, format_length), format_length, (uint32_t)use,
                                                  elements_length ? elements : &none, elements_length));
}

/*
 * As larusqem_strftime, by elements that larusqem_open stored. Answers, judged in this order: 2 with the first bad field; 3 with the index
 * of the first entry that is no element; where the zone offset is unsaid, 12 with the p of the first entry that is a %s; 4 with the bytes
 * needed; 0 with the bytes written.
 */
static inline struct larusqem_answer larusqem_write(const uint32_t *elements, size_t elements_length, struct larusqem_moment moment,
                                                    char *out, size_t out_length)
{
    uint32_t no_element = 0;
    uint8_t none = 0;

    return larusqem_answer_of(larusqem_write_words(elements_length ? elements : &no_element, elements_length, (const uint32_t *)&moment,
                                                   out_length ? (uint8_t *)out : &none, out_length));
}

/*
 * As larusqem_strptime_with, by elements that larusqem_open stored. Answers 0, 3 or 5 to 11: 5, then 3, then the others. 3 is for the first
 * entry that is no element for reading; its place is the p of an element for writing alone, one that has a width or a flag or is a %s, and
 * otherwise the entry's index.
 */
static inline struct larusqem_reading larusqem_read_with(const uint32_t *elements, size_t elements_length, const char *text,
                                                         size_t text_length, struct larusqem_options options)
{
    struct larusqem_reading reading;
    uint32_t none = 0;

    larusqem_read_words(elements_length ? elements : &none, elements_length, larusqem_bytes(text, text_length), text_length,
                        options.engine, options.budget, (uint32_t *)&reading);
    if (larusqem_wants_reason(&reading, &options))
        larusqem_explain_read_words(elements_length ? elements : &none, elements_length, larusqem_bytes(text, text_length), text_length,
                                    (uint32_t *)options.reason);
    return reading;
}

/* The same by the skipping engine, and without a reason. Answers 0, 3 or 5 to 10. */
static inline struct larusqem_reading larusqem_read(const uint32_t *elements, size_t elements_length, const char *text, size_t text_length)
{
    struct larusqem_options skipping = {LARUSQEM_SKIPPING, 0, NULL};

    return larusqem_read_with(elements, elements_length, text, text_length, skipping);
}

/* ---- Sheets and lists (RULES 11; see "Lists of sheets" above) */

/* the sheet of a reading: what it says, whether or not text is left over; of one that is refused all members are 0, whatever it shows, so
   that its day is unsaid */
static inline struct larusqem_sheet larusqem_sheet_of(struct larusqem_reading reading)
{
    struct larusqem_sheet sheet = {{0, 0, 0}, 0, 0, 0, 0, 0, 0, 0, 0};

    if (reading.number != LARUSQEM_DONE) return sheet;
    sheet.date.year = reading.year;
    sheet.date.month = reading.month;
    sheet.date.day = reading.day;
    sheet.hour_said = reading.hour_said;
    sheet.hour = reading.hour;
    sheet.minute_said = reading.minute_said;
    sheet.minute = reading.minute;
    sheet.second_said = reading.second_said;
    sheet.second = reading.second;
    sheet.offset_said = reading.offset_said;
    sheet.offset = reading.offset;
    return sheet;
}

/* Packs a sheet into a word, which is 0 where it is refused. Answers 13, then 2, or 0 with the place 0. */
static inline struct larusqem_answer larusqem_pack(struct larusqem_sheet sheet, uint64_t *word)
{
    return larusqem_answer_of(larusqem_pack_words((const uint32_t *)&sheet, word));
}

/* the sheet that a word is the packing of; all members 0 where it is no packing: the year tells, which is 0 in no other sheet here */
static inline struct larusqem_sheet larusqem_unpack(uint64_t word)
{
    struct larusqem_sheet sheet;

    larusqem_unpack_words(word, (uint32_t *)&sheet);
    return sheet;
}

/* the week of a word of the table */
static inline struct larusqem_week larusqem_week_of(uint64_t word)
{
    uint64_t fields[3];
    struct larusqem_week week;

    larusqem_week_words(word, fields);
    week.year = (uint32_t)fields[0];
    week.week = (uint32_t)fields[1];
    week.sheets = fields[2];
    return week;
}

/* Judges what is lent, as adding does: 0, or 15 where it is no list with its table. */
static inline uint32_t larusqem_judge_list(const struct larusqem_list *list)
{
    uint64_t no_word = 0, no_week = 0;
    uint32_t counts[2];

    counts[0] = list->sheet_count;
    counts[1] = list->week_count;
    return larusqem_list_words(list->words_length ? list->words : &no_word, list->words_length, list->table_length ? list->table : &no_week,
                               list->table_length, counts);
}

/*
 * Adds sheets to a list and its table, one after another up to the first that is refused. Answers, judged for each sheet in this order: 13;
 * 2 with the first bad field; 15; 14; and where none is refused 0. The index is that of the refused sheet, or else how many there were;
 * all sheets before it are added, and no other.
 */
static inline struct larusqem_added larusqem_add_sheets(struct larusqem_list *list, const struct larusqem_sheet *sheets, size_t count)
{
    struct larusqem_sheet no_sheet = {{0, 0, 0}, 0, 0, 0, 0, 0, 0, 0, 0};
    uint64_t no_word = 0, no_week = 0;
    uint32_t counts[2];
    struct larusqem_added added;

    counts[0] = list->sheet_count;
    counts[1] = list->week_count;
    larusqem_add_words((const uint32_t *)(count ? sheets : &no_sheet), LARUSQEM_SHEET_WORDS * count,
                       list->words_length ? list->words : &no_word, list->words_length, list->table_length ? list->table : &no_week,
                       list->table_length, counts, (uint32_t *)&added);
    list->sheet_count = counts[0];
    list->week_count = counts[1];
    return added;
}

/* The same of one sheet. Judging goes over the whole list, so many are better added by one call. */
static inline struct larusqem_answer larusqem_add_sheet(struct larusqem_list *list, struct larusqem_sheet sheet)
{
    struct larusqem_added added = larusqem_add_sheets(list, &sheet, 1);
    struct larusqem_answer answer;

    answer.number = added.number;
    answer.place = added.place;
    return answer;
}

/* The same of the sheet of a reading: larusqem_add_reading(&list, larusqem_strptime(..)). One that is refused says no day, and is 13. */
static inline struct larusqem_answer larusqem_add_reading(struct larusqem_list *list, struct larusqem_reading reading)
{
    return larusqem_add_sheet(list, larusqem_sheet_of(reading));
}

/* ---- The calendar (RULES 2). The functions of a date answer 0 where the three are no date of the calendar. */

/* how many days the calendar has: the day number of its last, 3,652,059 */
uint32_t larusqem_days(void);

/* the day number: 0001-01-01 is 1, 9999-12-31 is larusqem_days() */
uint32_t larusqem_day_number(uint32_t year, uint32_t month, uint32_t day);

/* Monday 1 to Sunday 7 */
uint32_t larusqem_weekday(uint32_t year, uint32_t month, uint32_t day);

/* 1 to 366 */
uint32_t larusqem_day_of_year(uint32_t year, uint32_t month, uint32_t day);

/* the ISO 8601 year and week, as %G and %V write them */
uint32_t larusqem_iso_year(uint32_t year, uint32_t month, uint32_t day);
uint32_t larusqem_iso_week(uint32_t year, uint32_t month, uint32_t day);

/* the date of a day number: year * 65536 + month * 256 + day, 0 where no day of the calendar has that number */
uint32_t larusqem_date_word(uint32_t day_number);

/* the same as a struct */
static inline struct larusqem_date larusqem_date_of(uint32_t day_number)
{
    uint32_t word = larusqem_date_word(day_number);
    struct larusqem_date date;

    date.year = word >> 16;
    date.month = (word >> 8) & 255;
    date.day = word & 255;
    return date;
}

/* ---- The version of the library that is linked: major * 65536 + minor * 256 + patch */
uint32_t larusqem_version(void);

#ifdef __cplusplus
}
#endif

#endif
