/* Tests of include/larusqem.h: every function, number, member and limit, through the installed library. It is C99 and C++11 at once.
   VERSION is the version that the library shall have. examples/c/check builds and runs it. */
#include <stdio.h>
#include <string.h>

#include <larusqem.h>

static unsigned checks, failures;

static void check(int holds, const char *fact, int line)
{
    checks++;
    if (holds)
        return;
    failures++;
    fprintf(stderr, "wrappers.c:%d: not so: %s\n", line, fact);
}
#define CHECK(fact) check(fact, #fact, __LINE__)

static const struct larusqem_moment moment = {{1934, 3, 5}, 7, 8, 9, 0, 0};
static uint32_t elements[LARUSQEM_ELEMENTS + 1];
static char out[LARUSQEM_WIDEST];
static char longer[LARUSQEM_LONGEST + 1];

static int answers(struct larusqem_answer a, uint32_t number, uint32_t place) { return a.number == number && a.place == place; }

/* whether all of the buffer is as `fresh` left it, from a place on */
static void fresh(void) { memset(out, '#', sizeof out); }
static int untouched(size_t from)
{
    while (from < sizeof out && out[from] == '#')
        from++;
    return from == sizeof out;
}

static struct larusqem_answer write_by(const char *format, struct larusqem_moment m, size_t room)
{
    fresh();
    return larusqem_strftime(format, strlen(format), m, out, room);
}

static struct larusqem_answer write_opened(const char *format, struct larusqem_moment m, size_t room)
{
    struct larusqem_answer opened = larusqem_open(format, strlen(format), LARUSQEM_FOR_WRITING, elements, LARUSQEM_ELEMENTS);

    fresh();
    return larusqem_write(elements, opened.place, m, out, room);
}

static void sentences(void)
{
    for (uint32_t a = 0; a <= LARUSQEM_BAD_LIST + 1; a++) {
        CHECK(larusqem_sentence(a)[0] != '\0' && strchr(larusqem_sentence(a), '%') == NULL);
        for (uint32_t b = 0; b < a; b++)
            CHECK(strcmp(larusqem_sentence(a), larusqem_sentence(b)) != 0);
    }
    CHECK(strcmp(larusqem_sentence(LARUSQEM_DONE), "done") == 0);
    CHECK(strcmp(larusqem_sentence(UINT32_MAX), larusqem_sentence(LARUSQEM_BAD_LIST + 1)) == 0);
}

static void writing(void)
{
    static const char text[] = "Mon Mar  5 07:08:09 1934";
    static const struct larusqem_moment bad[7] = {
        {{0, 0, 0}, 24, 60, 61, 1, 1440},     {{1900, 13, 30}, 24, 60, 61, 1, 1440}, {{1900, 2, 29}, 24, 60, 61, 1, 1440},
        {{1900, 2, 28}, 24, 60, 61, 1, 1440}, {{1900, 2, 28}, 23, 60, 61, 1, 1440},  {{1900, 2, 28}, 23, 59, 61, 1, 1440},
        {{1900, 2, 28}, 23, 59, 60, 1, 1440}};

    CHECK(answers(write_by("%c", moment, sizeof out), LARUSQEM_DONE, 24) && memcmp(out, text, 24) == 0 && untouched(24));
    CHECK(answers(write_by("%c", moment, 24), LARUSQEM_DONE, 24) && memcmp(out, text, 24) == 0 && untouched(24));
    CHECK(answers(write_by("%c", moment, 23), LARUSQEM_BUFFER_TOO_SMALL, 24) && untouched(0));
    CHECK(answers(write_by("%d\v\f\r", moment, sizeof out), LARUSQEM_DONE, 5) && memcmp(out, "05\v\f\r", 5) == 0 && untouched(5));
    CHECK(answers(write_by("%c%", moment, sizeof out), LARUSQEM_BAD_CONVERSION, 2) && untouched(0));
    CHECK(answers(write_opened("%c", moment, sizeof out), LARUSQEM_DONE, 24) && memcmp(out, text, 24) == 0 && untouched(24));
    CHECK(answers(write_opened("%c", moment, 23), LARUSQEM_BUFFER_TOO_SMALL, 24) && untouched(0));
    for (uint32_t field = 1; field <= 7; field++) {
        CHECK(answers(write_by("%F", bad[field - 1], sizeof out), LARUSQEM_BAD_MOMENT, field) && untouched(0));
        CHECK(answers(write_opened("%F", bad[field - 1], sizeof out), LARUSQEM_BAD_MOMENT, field) && untouched(0));
    }
    fresh();
    CHECK(answers(larusqem_strftime(longer, sizeof longer, moment, out, sizeof out), LARUSQEM_FORMAT_TOO_LONG, 0) && untouched(0));
    CHECK(answers(larusqem_strftime("a\0%d", 4, moment, out, sizeof out), LARUSQEM_DONE, 4) && memcmp(out, "a\0" "05", 4) == 0);
    elements[0] = 'a';
    elements[1] = 256 + '%';
    CHECK(answers(larusqem_write(elements, 2, moment, out, sizeof out), LARUSQEM_BAD_CONVERSION, 1));
    elements[1] = (1u << 18) + 'd';
    CHECK(answers(larusqem_write(elements, 2, moment, out, sizeof out), LARUSQEM_BAD_CONVERSION, 1));
}

/* the number of a conversion whose % has the offset p */
static uint32_t styled(char letter, uint32_t p, uint32_t width, char flag)
{
    return (uint32_t)letter + 256 * (p + 1) + (1u << 18) * width + (1u << 25) * (uint32_t)flag;
}

/* a format with the text that it writes, both ways */
static void writes(const char *format, const char *text, int line)
{
    uint32_t length = (uint32_t)strlen(text);

    check(answers(write_by(format, moment, sizeof out), LARUSQEM_DONE, length) && memcmp(out, text, length) == 0, format, line);
    check(untouched(length), format, line);
    check(answers(write_opened(format, moment, length), LARUSQEM_DONE, length) && memcmp(out, text, length) == 0, format, line);
    check(untouched(length), format, line);
}

static void flags_and_widths(void)
{
    static const char *const bad[] = {"%00d", "%100d", "%5^a",  "%_-d", "%E5y", "%E_y", "%5",  "%_",  "%5E", "%^d",
                                      "%_a",  "%-B",   "%0p",   "%5c",  "%^x",  "%-D",  "%5n", "%0t", "%5%", "%_5Ed"};
    static const char *const taken[] = {"%5m", "%_m", "%-d", "%0e", "%^a", "%3p", "%^P", "%_5Ey", "%-Od"};
    const uint32_t columns[4] = {256 * 1 + 'H', styled('d', 2, 3, '_'), styled('B', 6, 11, '^'), styled('Y', 11, 0, '-')};
    /* a width over 99, no flag, no flag of a number, none of a name, no %, no letter */
    const uint32_t none[6] = {styled('d', 0, 100, 0),  styled('d', 0, 5, '+'), styled('d', 0, 0, '^'),
                              styled('a', 0, 5, '_'), (1u << 18) * 5 + 'd',   styled('%', 0, 5, 0)};
    struct larusqem_reading r;
    size_t i;

    writes("%5m %_5m %-5m %05m", "00003     3 3 00003", __LINE__);
    writes("%-d|%_d|%0e|%1e|%3e|%010Y|%2Y", "5| 5|05| 5|  5|0000001934|1934", __LINE__);
    writes("%3u %_3w %-H:%M", "001   1 7:08", __LINE__);
    writes("%^a|%12B|%^12B|%2B|%P|%^P|%4P|%^4p", "MON|       March|       MARCH|March|am|AM|  am|  AM", __LINE__);
    writes("%_5Ey|%-Oe", "   34|5", __LINE__);
    writes("%_3d%^11B%_6Y", "  5      MARCH  1934", __LINE__);
    for (i = 0; i < sizeof bad / sizeof *bad; i++) {
        CHECK(answers(write_by(bad[i], moment, sizeof out), LARUSQEM_BAD_CONVERSION, 0) && untouched(0));
        CHECK(answers(larusqem_open(bad[i], strlen(bad[i]), LARUSQEM_FOR_WRITING, elements, 8), LARUSQEM_BAD_CONVERSION, 0));
        r = larusqem_strptime(bad[i], strlen(bad[i]), "5", 1);
        CHECK(r.number == LARUSQEM_BAD_CONVERSION && r.place == 0);
    }
    for (i = 0; i < sizeof taken / sizeof *taken; i++) {
        CHECK(write_by(taken[i], moment, sizeof out).number == LARUSQEM_DONE);
        CHECK(answers(larusqem_open(taken[i], strlen(taken[i]), LARUSQEM_FOR_WRITING, elements, 8), LARUSQEM_DONE, 1));
        CHECK(answers(larusqem_open(taken[i], strlen(taken[i]), LARUSQEM_FOR_READING, elements, 8), LARUSQEM_BAD_CONVERSION, 0));
        r = larusqem_strptime(taken[i], strlen(taken[i]), "5", 1);
        CHECK(r.number == LARUSQEM_BAD_CONVERSION && r.place == 0);
    }
    CHECK(larusqem_open_words((const uint8_t *)"%_3d", 4, UINT32_MAX, elements, 8) == 1 && elements[0] == styled('d', 0, 3, '_'));

    elements[4] = 77;
    CHECK(answers(larusqem_open("%H%_3d%^11B%-Y", 14, LARUSQEM_FOR_WRITING, elements, 8), LARUSQEM_DONE, 4));
    CHECK(memcmp(elements, columns, sizeof columns) == 0 && elements[4] == 77);
    CHECK(answers(larusqem_open("%H%_3d%^11B%-Y", 14, LARUSQEM_FOR_READING, elements, 8), LARUSQEM_BAD_CONVERSION, 2));
    r = larusqem_strptime("%H%_3d", 6, "07  5", 5);
    CHECK(r.number == LARUSQEM_BAD_CONVERSION && r.place == 2);
    r = larusqem_read(columns, 4, "07  5      MARCH1934", 20);
    CHECK(r.number == LARUSQEM_BAD_CONVERSION && r.place == 2);
    elements[0] = 'a';
    for (i = 0; i < sizeof none / sizeof *none; i++) {
        elements[1] = none[i];
        CHECK(answers(larusqem_write(elements, 2, moment, out, sizeof out), LARUSQEM_BAD_CONVERSION, 1));
        r = larusqem_read(elements, 2, "a", 1);
        CHECK(r.number == LARUSQEM_BAD_CONVERSION && r.place == 1);
    }
}

static void opening(void)
{
    static const uint32_t expected[8] = {10, 9, 37, 256 * 7 + 'd', 256 * 10 + 'y', 256 * 13 + 'H', ':', 256 * 13 + 'M'};
    static const enum larusqem_use uses[2] = {LARUSQEM_FOR_READING, LARUSQEM_FOR_WRITING};

    for (int i = 0; i < 2; i++) {
        memset(elements, 0, 8 * sizeof *elements);
        elements[8] = 77;
        CHECK(answers(larusqem_open("%n%t%%%Od%Ey%R", 14, uses[i], elements, 8), LARUSQEM_DONE, 8));
        CHECK(memcmp(elements, expected, sizeof expected) == 0 && elements[8] == 77);
        CHECK(answers(larusqem_open("%R%R%R", 6, uses[i], elements, 8), LARUSQEM_BUFFER_TOO_SMALL, 9) && elements[8] == 77);
        CHECK(answers(larusqem_open("%R%Q", 4, uses[i], elements, 8), LARUSQEM_BAD_CONVERSION, 2));
        CHECK(answers(larusqem_open(longer, sizeof longer, uses[i], elements, 8), LARUSQEM_FORMAT_TOO_LONG, 0));
    }
}

static void limits(void)
{
    static char format[LARUSQEM_LONGEST];
    size_t i;

    for (i = 0; i < sizeof format; i++)
        format[i] = "%c"[i % 2];
    CHECK(answers(larusqem_open(format, sizeof format, LARUSQEM_FOR_READING, elements, LARUSQEM_ELEMENTS), LARUSQEM_DONE,
                  LARUSQEM_ELEMENTS));
    CHECK(answers(larusqem_write(elements, LARUSQEM_ELEMENTS, moment, out, sizeof out), LARUSQEM_DONE, 512 * 24));
    elements[LARUSQEM_ELEMENTS] = ' ';
    CHECK(answers(larusqem_write(elements, LARUSQEM_ELEMENTS + 1, moment, out, sizeof out), LARUSQEM_BAD_CONVERSION, LARUSQEM_ELEMENTS));
    for (i = 0; i < sizeof format; i++)
        format[i] = "%99d"[i % 4];
    fresh();
    CHECK(answers(larusqem_strftime(format, sizeof format, moment, out, LARUSQEM_WIDEST - 1), LARUSQEM_BUFFER_TOO_SMALL, LARUSQEM_WIDEST));
    CHECK(untouched(0));
    CHECK(answers(larusqem_strftime(format, sizeof format, moment, out, sizeof out), LARUSQEM_DONE, LARUSQEM_WIDEST));
    i = 0;
    while (i < sizeof out && out[i] == (i % 99 == 98 ? '5' : '0'))
        i++;
    CHECK(i == LARUSQEM_WIDEST);
}

static struct larusqem_reading refusal(uint32_t number, uint32_t place, uint32_t examined)
{
    struct larusqem_reading r;

    memset(&r, 0, sizeof r);
    r.number = number;
    r.place = place;
    r.examined = examined;
    return r;
}

/* a text with the reading that its format shall give it with some options, both ways and on words */
static void reads_by(struct larusqem_options options, const char *format, const char *text, struct larusqem_reading expected, int line)
{
    size_t format_length = strlen(format), text_length = strlen(text);
    struct larusqem_reading anew = larusqem_strptime_with(format, format_length, text, text_length, options), opened;
    struct larusqem_answer answer = larusqem_open(format, format_length, LARUSQEM_FOR_READING, elements, LARUSQEM_ELEMENTS);
    uint32_t words[LARUSQEM_READING_WORDS];

    check(memcmp(&anew, &expected, sizeof expected) == 0, text, line);
    larusqem_strptime_words((const uint8_t *)format, format_length, (const uint8_t *)text, text_length, options.engine, options.budget,
                            words);
    check(memcmp(words, &expected, sizeof expected) == 0, text, line);
    if (answer.number != LARUSQEM_DONE)
        return;
    opened = larusqem_read_with(elements, answer.place, text, text_length, options);
    check(memcmp(&opened, &expected, sizeof expected) == 0, text, line);
    if (options.engine != LARUSQEM_SKIPPING)
        return;
    anew = larusqem_strptime(format, format_length, text, text_length);
    opened = larusqem_read(elements, answer.place, text, text_length);
    check(memcmp(&anew, &expected, sizeof expected) == 0 && memcmp(&opened, &expected, sizeof expected) == 0, text, line);
}

/* the same by every engine: by the plain one with its own count of days, which is also the smallest budget that is enough */
static void reads(const char *format, const char *text, struct larusqem_reading expected, uint32_t plain_count, int line)
{
    struct larusqem_options options = {LARUSQEM_SKIPPING, 0, NULL};

    reads_by(options, format, text, expected, line);
    expected.examined = plain_count;
    options.engine = LARUSQEM_PLAIN;
    reads_by(options, format, text, expected, line);
    options.engine = LARUSQEM_WITHIN;
    options.budget = plain_count;
    reads_by(options, format, text, expected, line);
    options.engine = UINT32_MAX;
    options.budget = plain_count + 1;
    reads_by(options, format, text, expected, line);
    if (plain_count == 0)
        return;
    options.budget = plain_count - 1;
    reads_by(options, format, text, refusal(LARUSQEM_OVER_BUDGET, plain_count - 1, plain_count - 1), line);
    options.engine = LARUSQEM_WITHIN;
    options.budget = 0;
    reads_by(options, format, text, refusal(LARUSQEM_OVER_BUDGET, 0, 0), line);
}

static void reading(void)
{
    static const uint32_t all = 3652059;
    static const struct larusqem_reading whole = {0, 24, 1934, 3, 5, 1, 7, 1, 8, 1, 9, 0, 0, 0, 0, 31, 3, 3, 0, 0};
    static const struct larusqem_reading minute = {0, 2, 0, 0, 0, 0, 0, 1, 8, 0, 0, 0, 0, 0, 0, 0, 0, 0, 0, 0};
    static const struct larusqem_reading ten_bytes = {0, 10, 1934, 3, 5, 0, 0, 0, 0, 0, 0, 0, 0, 0, 0, 31, 0, 3, 0, 0};
    static const struct larusqem_reading twelve_bytes = {0, 12, 1934, 3, 5, 0, 0, 0, 0, 0, 0, 0, 0, 0, 0, 31, 0, 3, 0, 0};
    static const struct larusqem_reading friday = {0, 9, 2010, 1, 1, 0, 0, 0, 0, 0, 0, 0, 0, 0, 0, 3652059, 0, 0, 0, 0};
    static const struct larusqem_reading two_days = {10, 1, 1, 3, 5, 0, 0, 0, 0, 0, 0, 2, 3, 5, 0, 36, 0, 0, 0, 0};
    static const struct larusqem_reading two_hours = {10, 2, 0, 0, 0, 0, 7, 0, 0, 0, 0, 0, 0, 0, 19, 31, 0, 0, 0, 0};
    static const struct larusqem_reading two_hours_alone = {10, 2, 0, 0, 0, 0, 7, 0, 0, 0, 0, 0, 0, 0, 19, 0, 0, 0, 0, 0};
    struct larusqem_reading r;

    reads("%c", "Mon Mar  5 07:08:09 1934", whole, all, __LINE__);
    reads("%M", "08", minute, 0, __LINE__);
    reads("%d %b %Y", "5 Mar 19345", ten_bytes, all, __LINE__);
    reads("%d %b %Y%n", "5 Mar 1934\r\n", twelve_bytes, all, __LINE__);
    reads("%d\v%b\f%Y\r", "5 Mar 1934", ten_bytes, all, __LINE__);
    reads("%G %V %u", "2009 53 5", friday, all, __LINE__);
    reads("%d %Q", "5", refusal(LARUSQEM_BAD_CONVERSION, 3, 0), 0, __LINE__);
    reads("%d %b", "5 Mai", refusal(LARUSQEM_NO_MATCH, 2, 0), 0, __LINE__);
    reads("%H%M", "930", refusal(LARUSQEM_OUT_OF_RANGE, 0, 0), 0, __LINE__);
    reads("%d %e", "5 6", refusal(LARUSQEM_CONTRADICTION, 2, 0), 0, __LINE__);
    reads("%a %d %b %Y", "Tue 5 Mar 1934", refusal(LARUSQEM_NONE_AGREES, 1, 31), all, __LINE__);
    reads("%C %y", "00 00", refusal(LARUSQEM_NONE_AGREES, 1, 0), all, __LINE__);
    reads("%H %p", "7 PM", refusal(LARUSQEM_NONE_AGREES, 2, 0), 0, __LINE__);
    reads("%d %b %Y %H %p", "5 Mar 1934 7 PM", refusal(LARUSQEM_NONE_AGREES, 2, 31), all, __LINE__);
    reads("%d %b", "5 mar", two_days, 429, __LINE__);
    reads("%d %b %Y %I", "5 Mar 1934 07", two_hours, all, __LINE__);
    reads("%I:%M", "07:08", two_hours_alone, 0, __LINE__);
    CHECK(two_days.other_year == 2 && two_days.other_month == 3 && two_days.other_day == 5 && two_hours.other_hour == 19);
    CHECK(two_days.examined == 36 && all == larusqem_days());

    r = larusqem_strptime(longer, sizeof longer, "5", 1);
    CHECK(r.number == LARUSQEM_FORMAT_TOO_LONG && r.place == 0);
    r = larusqem_strptime("%d", 2, longer, sizeof longer);
    CHECK(r.number == LARUSQEM_TEXT_TOO_LONG && r.place == 0);
    elements[0] = 256;
    r = larusqem_read(elements, 1, longer, sizeof longer);
    CHECK(r.number == LARUSQEM_TEXT_TOO_LONG && r.place == 0);
    r = larusqem_read(elements, 1, "5", 1);
    CHECK(r.number == LARUSQEM_BAD_CONVERSION && r.place == 0);
}

/* a day of 1934 that was read to a place, by the skipping engine, with the forms of a weekday's and a month's name */
static struct larusqem_reading named(uint32_t place, uint32_t month, uint32_t day, uint32_t weekday_form, uint32_t month_form)
{
    struct larusqem_reading r = refusal(LARUSQEM_DONE, place, month == 9 ? 30 : 31);

    r.year = 1934;
    r.month = month;
    r.day = day;
    r.weekday_form = weekday_form;
    r.month_form = month_form;
    return r;
}

static void forms(void)
{
    static const uint32_t none = LARUSQEM_NO_NAME, full = LARUSQEM_FULL_NAME, middle = LARUSQEM_MIDDLE_NAME, brief = LARUSQEM_SHORT_NAME;
    static const struct larusqem_options skipping = {LARUSQEM_SKIPPING, 0, NULL};

    reads("%a %d %b %Y", "Tues 4 Sept 1934", named(16, 9, 4, middle, middle), 3652059, __LINE__);
    reads_by(skipping, "%A %d %h %Y", "tHUR 6 SEP 1934", named(15, 9, 6, middle, brief), __LINE__);
    reads_by(skipping, "%a %d %B %Y", "Thurs 10 May 1934", named(17, 5, 10, middle, full), __LINE__);
    reads_by(skipping, "%d %B %Y %A", "6 march 1934 Tuesd", named(17, 3, 6, middle, full), __LINE__);
    reads_by(skipping, "%d %b %Y %a", "8 Mar 1934 THURSDA", named(16, 3, 8, middle, brief), __LINE__);
    reads_by(skipping, "%d %m %Y %u", "8 3 1934 4", named(10, 3, 8, none, none), __LINE__);
    reads_by(skipping, "%a %A %w %d %b %m %Y", "Thurs Thu 4 8 March 3 1934", named(26, 3, 8, brief, full), __LINE__);
    reads_by(skipping, "%d %b %Y", "5 Septem 1934", refusal(LARUSQEM_NO_MATCH, 6, 0), __LINE__);
    reads_by(skipping, "%a %a", "Tues Wed", refusal(LARUSQEM_CONTRADICTION, 5, 0), __LINE__);
    reads("%a %d %b %Y", "Tues 5 Sept 1934", refusal(LARUSQEM_NONE_AGREES, 1, 30), 3652059, __LINE__);
}

/* the moment with a zone offset */
static struct larusqem_moment with(int32_t offset)
{
    struct larusqem_moment m = moment;

    m.offset_said = 1;
    m.offset = offset;
    return m;
}

/* a zone offset with its five bytes: they are written, and read, by every engine; where it is unsaid nothing is written */
static void spells(const char *text, int32_t offset, int line)
{
    struct larusqem_moment m = with(offset);
    struct larusqem_reading r = refusal(LARUSQEM_DONE, 5, 0);

    check(answers(write_by("%z", m, sizeof out), LARUSQEM_DONE, 5) && memcmp(out, text, 5) == 0 && untouched(5), text, line);
    check(answers(write_opened("%z", m, 5), LARUSQEM_DONE, 5) && memcmp(out, text, 5) == 0 && untouched(5), text, line);
    check(answers(write_by("%z", m, 4), LARUSQEM_BUFFER_TOO_SMALL, 5) && untouched(0), text, line);
    m.offset_said = UINT32_MAX;
    check(answers(write_by("%z", m, 5), LARUSQEM_DONE, 5) && memcmp(out, text, 5) == 0, text, line);
    m.offset_said = 0;
    check(answers(write_by("%z", m, sizeof out), LARUSQEM_DONE, 0) && untouched(0), text, line);
    r.offset_said = 1;
    r.offset = offset;
    reads("%z", text, r, 0, line);
}

/* a moment with the number that %s writes for it */
static void counts(uint32_t year, uint32_t month, uint32_t day, const uint32_t time[3], int32_t offset, const char *text, int line)
{
    struct larusqem_moment m = {{year, month, day}, time[0], time[1], time[2], 1, offset};
    uint32_t length = (uint32_t)strlen(text);

    check(answers(write_by("%s", m, sizeof out), LARUSQEM_DONE, length) && memcmp(out, text, length) == 0 && untouched(length), text, line);
    check(answers(write_opened("%s", m, length), LARUSQEM_DONE, length) && memcmp(out, text, length) == 0, text, line);
    check(answers(write_by("%s", m, length - 1), LARUSQEM_BUFFER_TOO_SMALL, length) && untouched(0), text, line);
}

static void offsets(void)
{
    static const char *const bad[] = {"%5z", "%_z", "%-z", "%0z", "%^z", "%5s", "%_s", "%-s", "%0s", "%^s", "%Ez", "%Oz", "%Es", "%Os"};
    static const int32_t wrong[] = {1440, -1440, INT32_MAX, INT32_MIN};
    static const uint32_t midnight[3] = {0, 0, 0}, morning[3] = {7, 8, 9}, late[3] = {23, 59, 59}, latest[3] = {23, 59, 60};
    const uint32_t both[2] = {styled('z', 0, 0, 0), styled('s', 3, 0, 0)};
    struct larusqem_reading r;
    struct larusqem_moment m;
    size_t i;

    spells("+0000", 0, __LINE__);
    spells("+0130", 90, __LINE__);
    spells("-0030", -30, __LINE__);
    spells("+2359", 1439, __LINE__);
    spells("-2359", -1439, __LINE__);
    for (i = 0; i < sizeof wrong / sizeof *wrong; i++) {
        m = with(wrong[i]);
        CHECK(answers(write_by("%F", m, sizeof out), LARUSQEM_BAD_MOMENT, 7) && untouched(0));
        CHECK(answers(write_opened("%F", m, sizeof out), LARUSQEM_BAD_MOMENT, 7) && untouched(0));
        CHECK(answers(write_by("%F%Q", m, sizeof out), LARUSQEM_BAD_MOMENT, 7) && untouched(0));
        m.offset_said = 0;
        CHECK(answers(write_by("%F", m, sizeof out), LARUSQEM_DONE, 10));
    }

    counts(1970, 1, 1, midnight, 0, "0", __LINE__);
    counts(1970, 1, 1, midnight, 1, "-60", __LINE__);
    counts(1969, 12, 31, late, 0, "-1", __LINE__);
    counts(1969, 12, 31, latest, 0, "0", __LINE__);
    counts(1934, 3, 5, morning, 90, "-1130610111", __LINE__);
    counts(1934, 3, 5, morning, -30, "-1130602911", __LINE__);
    counts(2016, 12, 31, latest, 0, "1483228800", __LINE__);
    counts(1, 1, 1, midnight, 1439, "-62135683140", __LINE__);
    counts(9999, 12, 31, latest, -1439, "253402387140", __LINE__);

    /* 12 stands between 3 and 4, with the first %s of all */
    CHECK(answers(write_by("%z %s %s", moment, 0), LARUSQEM_NO_OFFSET, 3) && untouched(0));
    CHECK(answers(write_opened("%z %s %s", moment, 0), LARUSQEM_NO_OFFSET, 3) && untouched(0));
    CHECK(answers(write_by("%s %Q", moment, 0), LARUSQEM_BAD_CONVERSION, 3) && untouched(0));
    CHECK(answers(write_by("%c %s", with(0), 0), LARUSQEM_BUFFER_TOO_SMALL, 36) && untouched(0));

    CHECK(answers(larusqem_open("%z %s", 5, LARUSQEM_FOR_WRITING, elements, 8), LARUSQEM_DONE, 3));
    CHECK(elements[0] == both[0] && elements[1] == ' ' && elements[2] == both[1]);
    CHECK(answers(larusqem_open("%z %s", 5, LARUSQEM_FOR_READING, elements, 8), LARUSQEM_BAD_CONVERSION, 3));
    CHECK(answers(larusqem_open("%z", 2, LARUSQEM_FOR_READING, elements, 8), LARUSQEM_DONE, 1) && elements[0] == both[0]);
    reads("%z %s", "+0130 0", refusal(LARUSQEM_BAD_CONVERSION, 3, 0), 0, __LINE__);
    r = larusqem_read(both, 2, "+0130", 5);
    CHECK(r.number == LARUSQEM_BAD_CONVERSION && r.place == 3 && !r.offset_said);
    for (i = 0; i < sizeof bad / sizeof *bad; i++) {
        CHECK(answers(write_by(bad[i], with(0), sizeof out), LARUSQEM_BAD_CONVERSION, 0) && untouched(0));
        CHECK(answers(larusqem_open(bad[i], 3, LARUSQEM_FOR_WRITING, elements, 8), LARUSQEM_BAD_CONVERSION, 0));
        reads(bad[i], "+0130", refusal(LARUSQEM_BAD_CONVERSION, 0, 0), 0, __LINE__);
    }
    elements[0] = 'a';
    for (i = 0; i < 4; i++) {
        elements[1] = styled("zs"[i % 2], 0, i / 2 ? 5 : 0, i / 2 ? 0 : '_');
        CHECK(answers(larusqem_write(elements, 2, with(0), out, sizeof out), LARUSQEM_BAD_CONVERSION, 1));
        r = larusqem_read(elements, 2, "a", 1);
        CHECK(r.number == LARUSQEM_BAD_CONVERSION && r.place == 1);
    }

    r = refusal(LARUSQEM_DONE, 5, 0);
    r.offset_said = 1;
    reads("%z", "-0000", r, 0, __LINE__);
    reads("%z", "+00000", r, 0, __LINE__);
    r.place = 11;
    reads("%z %z", "+0000 -0000", r, 0, __LINE__);
    r = named(16, 3, 5, 0, 0);
    r.offset_said = 1;
    r.offset = -720;
    reads("%F %z", "1934-03-05 -1200", r, 3652059, __LINE__);
    reads("%z", " +0130", refusal(LARUSQEM_NO_MATCH, 0, 0), 0, __LINE__);
    reads("a %z", "a  0130", refusal(LARUSQEM_NO_MATCH, 3, 0), 0, __LINE__);
    reads("%z", "+013", refusal(LARUSQEM_NO_MATCH, 0, 0), 0, __LINE__);
    reads("%z", "+01:30", refusal(LARUSQEM_NO_MATCH, 0, 0), 0, __LINE__);
    reads("%z", "", refusal(LARUSQEM_NO_MATCH, 0, 0), 0, __LINE__);
    reads("%d %z", "5 +2400", refusal(LARUSQEM_OUT_OF_RANGE, 2, 0), 0, __LINE__);
    reads("%d %z", "5 -0060", refusal(LARUSQEM_OUT_OF_RANGE, 2, 0), 0, __LINE__);
    reads("%z %z", "+0130 -0130", refusal(LARUSQEM_CONTRADICTION, 6, 0), 0, __LINE__);
    reads("%z %z", "+0130 +2400", refusal(LARUSQEM_OUT_OF_RANGE, 6, 0), 0, __LINE__);
    reads("%a %F %z", "Tue 1934-03-05 +0130", refusal(LARUSQEM_NONE_AGREES, 1, 31), 3652059, __LINE__);
}

/* a reason in words: each kind that has any, with its numbers, then the part; empty where every member is 0 */
static const char *shown(const struct larusqem_reason *reason)
{
    static char words[LARUSQEM_KINDS * 40];
    char *end = words;

    *end = '\0';
    for (unsigned kind = 0; kind < LARUSQEM_KINDS; kind++)
        if (reason->words[kind].from != 0 || reason->words[kind].next != 0)
            end += sprintf(end, "%u: %u to %u; ", kind, reason->words[kind].from, reason->words[kind].next);
    if (reason->part != LARUSQEM_NO_PART)
        sprintf(end, "part %u; ", reason->part);
    return words;
}

/* a text with the reason that its format shall give it with an engine and a budget, both ways and on words; the reading is as without */
static struct larusqem_reading explains_by(uint32_t engine, uint32_t budget, const char *format, const char *text, const char *expected,
                                           int line)
{
    const uint8_t *format_bytes = (const uint8_t *)format, *text_bytes = (const uint8_t *)text;
    size_t format_length = strlen(format), text_length = strlen(text);
    struct larusqem_reason reason;
    struct larusqem_options options = {engine, budget, NULL};
    struct larusqem_reading plainly = larusqem_strptime_with(format, format_length, text, text_length, options), explained;
    struct larusqem_answer opened = larusqem_open(format, format_length, LARUSQEM_FOR_READING, elements, LARUSQEM_ELEMENTS);
    uint32_t words[LARUSQEM_REASON_WORDS];

    options.reason = &reason;
    memset(&reason, 255, sizeof reason);
    explained = larusqem_strptime_with(format, format_length, text, text_length, options);
    check(memcmp(&explained, &plainly, sizeof plainly) == 0 && strcmp(shown(&reason), expected) == 0, text, line);
    /* on words it is asked for by itself, whatever a budget refuses */
    memset(words, 255, sizeof words);
    larusqem_explain_words(format_bytes, format_length, text_bytes, text_length, words);
    check(plainly.number == LARUSQEM_OVER_BUDGET || memcmp(words, &reason, sizeof words) == 0, text, line);
    if (opened.number != LARUSQEM_DONE)
        return plainly;
    memset(&reason, 255, sizeof reason);
    explained = larusqem_read_with(elements, opened.place, text, text_length, options);
    check(memcmp(&explained, &plainly, sizeof plainly) == 0 && strcmp(shown(&reason), expected) == 0, text, line);
    memset(words, 255, sizeof words);
    larusqem_explain_read_words(elements, opened.place, text_bytes, text_length, words);
    check(plainly.number == LARUSQEM_OVER_BUDGET || memcmp(words, &reason, sizeof words) == 0, text, line);
    return plainly;
}

/* the same by every engine; within a budget that is too small there is no reason */
static void explains(const char *format, const char *text, uint32_t number, uint32_t place, const char *expected, int line)
{
    struct larusqem_reading r = explains_by(LARUSQEM_SKIPPING, 0, format, text, expected, line);
    uint32_t count = explains_by(LARUSQEM_PLAIN, 0, format, text, expected, line).examined;

    check(r.number == number && r.place == place, text, line);
    explains_by(LARUSQEM_WITHIN, count, format, text, expected, line);
    if (count == 0)
        return;
    r = explains_by(LARUSQEM_WITHIN, count - 1, format, text, "", line);
    check(r.number == LARUSQEM_OVER_BUDGET && r.place == count - 1, text, line);
}

static void reasons(void)
{
    static const enum larusqem_kind kinds[] = {
        LARUSQEM_YEAR,        LARUSQEM_CENTURY,  LARUSQEM_YEAR_IN_CENTURY, LARUSQEM_MONTH,          LARUSQEM_DAY,
        LARUSQEM_DAY_OF_YEAR, LARUSQEM_WEEKDAY,  LARUSQEM_SUNDAY_WEEK,     LARUSQEM_MONDAY_WEEK,    LARUSQEM_ISO_YEAR,
        LARUSQEM_ISO_YEAR_IN_CENTURY, LARUSQEM_ISO_WEEK, LARUSQEM_HOUR,    LARUSQEM_HOUR_OF_TWELVE, LARUSQEM_HALF_OF_DAY};
    struct larusqem_reason reason;
    struct larusqem_options options = {LARUSQEM_SKIPPING, 0, &reason};
    struct larusqem_reading r;

    CHECK(sizeof kinds / sizeof *kinds == LARUSQEM_KINDS - 1);
    for (unsigned i = 0; i < sizeof kinds / sizeof *kinds; i++)
        CHECK((unsigned)kinds[i] == i + 1);
    CHECK(LARUSQEM_YEAR_PART == 1 && LARUSQEM_MONTH_PART == 2 && LARUSQEM_DAY_PART == 3);

    explains("%a %d %b %Y", "Tue 5 Mar 1934", 9, 1, "1: 10 to 14; 4: 6 to 9; 5: 4 to 5; 7: 0 to 3; ", __LINE__);
    explains(" %a %d %b %Y", "  Tue 5 Mar 1934", 9, 1, "1: 12 to 16; 4: 8 to 11; 5: 6 to 7; 7: 2 to 5; ", __LINE__);
    explains("%d %b %Y %H:%M", "29 Feb 1900 07:08", 9, 1, "1: 7 to 11; 4: 3 to 6; 5: 0 to 2; ", __LINE__);
    explains("%d %b %Y", "30 Feb 1900", 9, 1, "4: 3 to 6; 5: 0 to 2; ", __LINE__);
    explains("%C %y %d %b %Y", "19 33 5 Mar 1934", 9, 1, "1: 12 to 16; 3: 3 to 5; ", __LINE__);
    explains("%G %V %u", "2016 53 7", 9, 1, "10: 0 to 4; 12: 5 to 7; ", __LINE__);
    explains("%C %y", "00 00", 9, 1, "2: 0 to 2; 3: 3 to 5; ", __LINE__);
    explains("%a %u %d %b %Y", "Tue 2 5 Mar 1934", 9, 1, "1: 12 to 16; 4: 8 to 11; 5: 6 to 7; 7: 0 to 3; ", __LINE__);
    explains("%m %j", "5 64", 9, 1, "4: 0 to 1; 6: 2 to 4; ", __LINE__);
    explains("%U %W", "10\t 12", 9, 1, "8: 0 to 2; 9: 4 to 6; ", __LINE__);
    explains("%g %V", "0 53", 9, 1, "11: 0 to 1; 12: 2 to 4; ", __LINE__);
    explains("%H %p", "7 PM", 9, 2, "13: 0 to 1; 15: 2 to 4; ", __LINE__);
    explains("%H %I %p", "07 8 AM", 9, 2, "13: 0 to 2; 14: 3 to 4; ", __LINE__);
    explains("%d %b %Y %H %p", "5 Mar 1934 7 PM", 9, 2, "13: 11 to 12; 15: 13 to 15; ", __LINE__);
    explains("%d %b", "5 mar", 10, 1, "part 1; ", __LINE__);
    explains("%d %Y", "5 1934", 10, 1, "part 2; ", __LINE__);
    explains("%b %Y", "Mar 1934", 10, 1, "part 3; ", __LINE__);
    explains("%a", "Mon", 10, 1, "part 3; ", __LINE__);
    explains("%I:%M", "07:08", 10, 2, "", __LINE__);
    explains("%p", "PM", 10, 2, "", __LINE__);

    explains("%d %b %Y", "5 Mar 19345", 0, 10, "", __LINE__);
    explains("", "Tue", 0, 0, "", __LINE__);
    explains("%d %Q", "30", 3, 3, "", __LINE__);
    explains("%d %b", "30 Mai", 6, 3, "", __LINE__);
    explains("%H%M", "930", 7, 0, "", __LINE__);
    explains("%d %b %e", "30 Feb 31", 8, 7, "", __LINE__);

    r = larusqem_strptime_with("%a %d %b %Y", 11, "Tue 5 Mar 1934", 14, options);
    CHECK(r.number == LARUSQEM_NONE_AGREES && reason.words[LARUSQEM_MONTH].from == 6 && reason.words[LARUSQEM_MONTH].next == 9);
    r = larusqem_strptime_with(longer, sizeof longer, "30", 2, options);
    CHECK(r.number == LARUSQEM_FORMAT_TOO_LONG && shown(&reason)[0] == '\0');
    memset(&reason, 255, sizeof reason);
    r = larusqem_strptime_with("%d", 2, longer, sizeof longer, options);
    CHECK(r.number == LARUSQEM_TEXT_TOO_LONG && shown(&reason)[0] == '\0');
    memset(&reason, 255, sizeof reason);
    elements[0] = 256;
    r = larusqem_read_with(elements, 1, "30", 2, options);
    CHECK(r.number == LARUSQEM_BAD_CONVERSION && r.place == 0 && shown(&reason)[0] == '\0');
}

/* a sheet beside its word, by the bits of each field */
struct packing {
    struct larusqem_sheet sheet;
    uint64_t word;
};

static uint64_t day_word(uint32_t year, uint32_t month, uint32_t day)
{
    return (uint64_t)year << 50 | (uint64_t)month << 46 | (uint64_t)day << 41;
}

static const uint64_t hour_said = (uint64_t)1 << 40, minute_said = (uint64_t)1 << 34, second_said = 1u << 27, offset_said = 1u << 20;

static struct larusqem_sheet day_sheet(uint32_t year, uint32_t month, uint32_t day)
{
    struct larusqem_sheet sheet = {{year, month, day}, 0, 0, 0, 0, 0, 0, 0, 0};

    return sheet;
}

static int same_sheet(struct larusqem_sheet a, struct larusqem_sheet b) { return memcmp(&a, &b, sizeof a) == 0; }

static void packing(void)
{
    const uint64_t night = day_word(1934, 3, 5);
    const struct packing good[] = {
        {{{1934, 3, 5}, 0, 0, 0, 0, 0, 0, 0, 0}, night},
        {{{1, 1, 1}, 1, 0, 0, 0, 0, 0, 0, 0}, day_word(1, 1, 1) + hour_said},
        {{{1934, 3, 5}, 1, 7, 0, 0, 0, 0, 0, 0}, night + hour_said + ((uint64_t)7 << 35)},
        {{{1934, 3, 5}, 0, 0, 1, 8, 0, 0, 0, 0}, night + minute_said + ((uint64_t)8 << 28)},
        {{{1934, 3, 5}, 0, 0, 0, 0, 1, 9, 0, 0}, night + second_said + (9u << 21)},
        {{{1934, 3, 5}, 0, 0, 0, 0, 0, 0, 1, -1439}, night + offset_said},
        {{{1934, 3, 5}, 0, 0, 0, 0, 0, 0, 1, 0}, night + offset_said + (1439u << 8)},
        {{{1934, 3, 5}, 1, 7, 1, 8, 1, 9, 1, 90},
         night + hour_said + ((uint64_t)7 << 35) + minute_said + ((uint64_t)8 << 28) + second_said + (9u << 21) + offset_said +
             (1529u << 8)},
        {{{9999, 12, 31}, 1, 23, 1, 59, 1, 60, 1, 1439},
         day_word(9999, 12, 31) + hour_said + ((uint64_t)23 << 35) + minute_said + ((uint64_t)59 << 28) + second_said + (60u << 21) +
             offset_said + (2878u << 8)}};
    static const struct larusqem_sheet bad[7] = {
        {{0, 13, 32}, 1, 24, 1, 60, 1, 61, 1, 1440},    {{1900, 13, 32}, 1, 24, 1, 60, 1, 61, 1, 1440},
        {{1900, 2, 29}, 1, 24, 1, 60, 1, 61, 1, 1440},  {{1900, 2, 28}, 1, 24, 1, 60, 1, 61, 1, 1440},
        {{1900, 2, 28}, 1, 23, 1, 60, 1, 61, 1, -1440}, {{1900, 2, 28}, 1, 23, 1, 59, 1, 61, 1, -1440},
        {{1900, 2, 28}, 1, 23, 1, 59, 1, 60, 1, -1440}};
    /* no day, a bad one, fields that are not said and not 0, numbers out of range, each of the zero bits */
    const uint64_t none[] = {0,
                             hour_said,
                             day_word(0, 3, 5),
                             day_word(1934, 2, 29),
                             day_word(10000, 3, 5),
                             night + ((uint64_t)7 << 35),
                             night + hour_said + ((uint64_t)24 << 35),
                             night + ((uint64_t)1 << 28),
                             night + minute_said + ((uint64_t)60 << 28),
                             night + (1u << 21),
                             night + second_said + (61u << 21),
                             night + (1439u << 8),
                             night + offset_said + (2879u << 8),
                             night + 1,
                             night + 128,
                             UINT64_MAX};
    const struct larusqem_sheet no_sheet = day_sheet(0, 0, 0);
    struct larusqem_sheet sheet;
    struct larusqem_week week;
    uint32_t words[LARUSQEM_SHEET_WORDS], unsaid[LARUSQEM_SHEET_WORDS] = {1934, 3, 5, 0, 99, 0, 99, 0, 99, 0, 9999};
    uint64_t word, week_words[3];
    size_t i;

    CHECK(night == 0x1e38ca0000000000);
    for (i = 0; i < sizeof good / sizeof *good; i++) {
        word = 77;
        CHECK(answers(larusqem_pack(good[i].sheet, &word), LARUSQEM_DONE, 0) && word == good[i].word);
        CHECK(same_sheet(larusqem_unpack(good[i].word), good[i].sheet));
        /* the struct is its words */
        memset(words, 255, sizeof words);
        CHECK(larusqem_unpack_words(good[i].word, words) == 1 && memcmp(words, &good[i].sheet, sizeof words) == 0);
        CHECK(words[0] == good[i].sheet.date.year && words[4] == good[i].sheet.hour && words[9] == good[i].sheet.offset_said);
        CHECK((int32_t)words[10] == good[i].sheet.offset);
        word = 77;
        CHECK(larusqem_pack_words(words, &word) == 0 && word == good[i].word);
    }
    for (i = 0; i < sizeof none / sizeof *none; i++) {
        memset(words, 255, sizeof words);
        CHECK(larusqem_unpack_words(none[i], words) == 0 && memcmp(words, &no_sheet, sizeof words) == 0);
        CHECK(same_sheet(larusqem_unpack(none[i]), no_sheet));
    }
    for (i = 0; i < 7; i++) {
        word = 77;
        CHECK(answers(larusqem_pack(bad[i], &word), LARUSQEM_BAD_MOMENT, (uint32_t)i + 1) && word == 0);
    }
    word = 77;
    CHECK(answers(larusqem_pack(no_sheet, &word), LARUSQEM_NO_DAY, 0) && word == 0);
    sheet = bad[0];
    sheet.date = no_sheet.date;
    CHECK(answers(larusqem_pack(sheet, &word), LARUSQEM_NO_DAY, 0));
    CHECK(answers(larusqem_pack(day_sheet(0, 3, 5), &word), LARUSQEM_BAD_MOMENT, 1));
    /* what is unsaid is not looked at, and any number but 0 says */
    CHECK(larusqem_pack_words(unsaid, &word) == 0 && word == night);
    unsaid[3] = UINT32_MAX;
    unsaid[4] = 7;
    CHECK(larusqem_pack_words(unsaid, &word) == 0 && word == good[2].word);

    week = larusqem_week_of(((uint64_t)2009 << 50) + ((uint64_t)53 << 44) + 3);
    CHECK(week.year == 2009 && week.week == 53 && week.sheets == 3);
    week = larusqem_week_of(UINT64_MAX);
    CHECK(week.year == 16383 && week.week == 63 && week.sheets == ((uint64_t)1 << 44) - 1);
    larusqem_week_words(((uint64_t)1934 << 50) + ((uint64_t)10 << 44) + 1, week_words);
    CHECK(week_words[0] == 1934 && week_words[1] == 10 && week_words[2] == 1);
}

static void sheets_of_readings(void)
{
    const char *const text = "5 Mar 1934 07:08:09 +0130";
    struct larusqem_sheet sheet = {{1934, 3, 5}, 1, 7, 1, 8, 1, 9, 1, 90};

    CHECK(same_sheet(larusqem_sheet_of(larusqem_strptime("%d %b %Y %T %z", 14, text, strlen(text))), sheet));
    CHECK(same_sheet(larusqem_sheet_of(larusqem_strptime("%d %b %Y", 8, text, strlen(text))), day_sheet(1934, 3, 5)));
    sheet.date = day_sheet(0, 0, 0).date;
    CHECK(same_sheet(larusqem_sheet_of(larusqem_strptime("%T %z", 5, text + 11, 14)), sheet));
    /* a refused reading shows two days or two hours, or nothing; none of them is the sheet's */
    CHECK(same_sheet(larusqem_sheet_of(larusqem_strptime("%d %b", 5, "5 Mar", 5)), day_sheet(0, 0, 0)));
    CHECK(same_sheet(larusqem_sheet_of(larusqem_strptime("%d %b %Y %I", 11, "5 Mar 1934 7", 12)), day_sheet(0, 0, 0)));
    CHECK(same_sheet(larusqem_sheet_of(larusqem_strptime("%d %b", 5, "5 Mai", 5)), day_sheet(0, 0, 0)));
}

static uint64_t list_words[LARUSQEM_MOST_SHEETS + 1], list_table[LARUSQEM_WEEKS + 1];
static uint64_t words_before[LARUSQEM_MOST_SHEETS + 1], table_before[LARUSQEM_WEEKS + 1];

/* an empty list in an array of so many words, each entry of both arrays another */
static struct larusqem_list empty_list(size_t room)
{
    struct larusqem_list list = {list_words, room, list_table, LARUSQEM_WEEKS, 0, 0};
    size_t i;

    for (i = 0; i <= LARUSQEM_MOST_SHEETS; i++)
        list_words[i] = 1000 + i;
    for (i = 0; i <= LARUSQEM_WEEKS; i++)
        list_table[i] = 2000 + i;
    return list;
}

/* adding many sheets ends so; where none of them is added, both arrays and both counts are as they were */
static void adds(struct larusqem_list *list, const struct larusqem_sheet *sheets, size_t count, uint32_t number, uint32_t place,
                 uint32_t index, int line)
{
    uint32_t sheet_count = list->sheet_count, week_count = list->week_count;
    struct larusqem_added added;

    memcpy(words_before, list_words, sizeof list_words);
    memcpy(table_before, list_table, sizeof list_table);
    added = larusqem_add_sheets(list, sheets, count);
    check(added.number == number && added.place == place && added.index == index, "number, place and index", line);
    check(list->sheet_count == sheet_count + index, "how many sheets are added", line);
    if (index != 0)
        return;
    check(list->week_count == week_count && memcmp(words_before, list_words, sizeof list_words) == 0 &&
              memcmp(table_before, list_table, sizeof list_table) == 0,
          "untouched", line);
}

/* a list that is no list with its table: 15, by judging it and by adding a sheet; after 13 and 2, and before 14 */
static void no_list(struct larusqem_list list, int line)
{
    struct larusqem_sheet night = day_sheet(1934, 3, 5), no_day = day_sheet(0, 0, 0), bad = day_sheet(1934, 2, 29);

    check(larusqem_judge_list(&list) == LARUSQEM_BAD_LIST, "judged by 15", line);
    adds(&list, &night, 1, LARUSQEM_BAD_LIST, 0, 0, line);
    adds(&list, &no_day, 1, LARUSQEM_NO_DAY, 0, 0, line);
    adds(&list, &bad, 1, LARUSQEM_BAD_MOMENT, 3, 0, line);
    adds(&list, &night, 0, LARUSQEM_DONE, 0, 0, line);
}

static void lists(void)
{
    const struct larusqem_sheet some[5] = {
        {{2010, 1, 1}, 0, 0, 0, 0, 0, 0, 0, 0}, {{1934, 3, 5}, 1, 7, 0, 0, 0, 0, 0, 0}, {{1934, 3, 11}, 0, 0, 0, 0, 0, 0, 0, 0},
        {{1934, 3, 5}, 0, 0, 0, 0, 0, 0, 0, 0}, {{1934, 3, 5}, 1, 7, 0, 0, 0, 0, 0, 0}};
    const uint64_t night = day_word(1934, 3, 5), morning = night + hour_said + ((uint64_t)7 << 35);
    const uint64_t week_10 = ((uint64_t)1934 << 50) + ((uint64_t)10 << 44), week_53 = ((uint64_t)2009 << 50) + ((uint64_t)53 << 44);
    struct larusqem_sheet sheets[4] = {some[0], some[1], day_sheet(1934, 3, 0), day_sheet(0, 0, 0)};
    struct larusqem_list list = empty_list(6), damaged;
    struct larusqem_reading r;
    uint32_t counts[2] = {0, 0}, added[3], words[LARUSQEM_SHEET_WORDS * 2];
    size_t i;

    /* 2010-01-01 is in week 53 of 2009, and 1934-03-11 a Sunday of week 10 */
    CHECK(larusqem_judge_list(&list) == LARUSQEM_DONE);
    adds(&list, some, 5, LARUSQEM_DONE, 0, 5, __LINE__);
    CHECK(list_words[0] == night && list_words[1] == morning && list_words[2] == morning && list_words[3] == day_word(1934, 3, 11));
    CHECK(list_words[4] == day_word(2010, 1, 1) && list_words[5] == 1005);
    CHECK(list.week_count == 2 && list_table[0] == week_10 + 4 && list_table[1] == week_53 + 1 && list_table[2] == 2002);
    CHECK(larusqem_judge_list(&list) == LARUSQEM_DONE);

    /* one by one, and from a reading; then the array is full */
    r = larusqem_strptime("%F", 2, "1934-03-12", 10);
    CHECK(answers(larusqem_add_reading(&list, larusqem_strptime("%d %b", 5, "5 Mar", 5)), LARUSQEM_NO_DAY, 0) && list.sheet_count == 5);
    CHECK(answers(larusqem_add_sheet(&list, day_sheet(1934, 13, 1)), LARUSQEM_BAD_MOMENT, 2) && list.sheet_count == 5);
    CHECK(answers(larusqem_add_reading(&list, r), LARUSQEM_DONE, 0) && list.sheet_count == 6 && list.week_count == 3);
    CHECK(list_words[4] == day_word(1934, 3, 12) && list_words[5] == day_word(2010, 1, 1) && list_words[6] == 1006);
    CHECK(list_table[1] == week_10 + ((uint64_t)1 << 44) + 1 && list_table[2] == week_53 + 1 && list_table[3] == 2003);
    adds(&list, some, 1, LARUSQEM_LIST_FULL, 0, 0, __LINE__);
    adds(&list, &sheets[3], 1, LARUSQEM_NO_DAY, 0, 0, __LINE__);
    adds(&list, &sheets[2], 1, LARUSQEM_BAD_MOMENT, 3, 0, __LINE__);

    /* each thing that makes it no list with its table, also where it is full */
    damaged = list;
    damaged.words_length = LARUSQEM_MOST_SHEETS + 1;
    no_list(damaged, __LINE__);
    damaged.words_length = LARUSQEM_MOST_SHEETS;
    CHECK(larusqem_judge_list(&damaged) == LARUSQEM_DONE);
    damaged = list;
    damaged.words_length = 5;
    no_list(damaged, __LINE__);
    damaged = list;
    damaged.sheet_count = 7;
    no_list(damaged, __LINE__);
    damaged.sheet_count = 5;
    no_list(damaged, __LINE__);
    damaged = list;
    for (i = LARUSQEM_WEEKS - 1; i <= LARUSQEM_WEEKS + 1; i += 2) {
        damaged.table_length = i;
        no_list(damaged, __LINE__);
    }
    damaged = list;
    damaged.week_count = 2;
    no_list(damaged, __LINE__);
    damaged.week_count = 4;
    no_list(damaged, __LINE__);
    damaged.week_count = LARUSQEM_WEEKS + 1;
    no_list(damaged, __LINE__);
    list_words[5] += 1;
    no_list(list, __LINE__);
    list_words[5] -= 1;
    list_words[1] = night;
    list_words[0] = morning;
    no_list(list, __LINE__);
    list_words[0] = night;
    CHECK(larusqem_judge_list(&list) == LARUSQEM_DONE);
    list_table[2] += 1;
    no_list(list, __LINE__);

    /* many, up to the first refusal: those before it stay added */
    list = empty_list(4);
    adds(&list, sheets, 4, LARUSQEM_BAD_MOMENT, 3, 2, __LINE__);
    CHECK(list_words[0] == morning && list_words[1] == day_word(2010, 1, 1) && list_words[2] == 1002 && list.week_count == 2);
    adds(&list, sheets + 3, 1, LARUSQEM_NO_DAY, 0, 0, __LINE__);
    adds(&list, some, 5, LARUSQEM_LIST_FULL, 0, 2, __LINE__);
    CHECK(list.sheet_count == 4 && list_words[1] == morning && list_words[3] == day_word(2010, 1, 1) && list_words[4] == 1004);

    /* 1,024 weeks, and one more; a sheet of a week that is among them is added */
    list = empty_list(LARUSQEM_MOST_SHEETS);
    for (i = 0; i < LARUSQEM_WEEKS; i++)
        CHECK(larusqem_add_sheet(&list, day_sheet(1000 + (uint32_t)i, 6, 15)).number == LARUSQEM_DONE);
    CHECK(list.sheet_count == LARUSQEM_WEEKS && list.week_count == LARUSQEM_WEEKS && list_table[LARUSQEM_WEEKS] == 2000 + LARUSQEM_WEEKS);
    sheets[0] = day_sheet(1934, 6, 15);
    sheets[1] = day_sheet(1934, 3, 5);
    adds(&list, sheets, 2, LARUSQEM_LIST_FULL, 0, 1, __LINE__);
    adds(&list, sheets + 1, 1, LARUSQEM_LIST_FULL, 0, 0, __LINE__);
    CHECK(larusqem_judge_list(&list) == LARUSQEM_DONE);

    /* on words: what is left over after the last eleven is no sheet, and the struct of an answer is its words */
    list = empty_list(6);
    memset(words, 255, sizeof words);
    memcpy(words, some, sizeof *some);
    larusqem_add_words(words, LARUSQEM_SHEET_WORDS * 2 - 1, list_words, 6, list_table, LARUSQEM_WEEKS, counts, added);
    CHECK(added[0] == 0 && added[1] == 0 && added[2] == 1 && counts[0] == 1 && counts[1] == 1 && list_words[0] == day_word(2010, 1, 1));
    CHECK(larusqem_list_words(list_words, 6, list_table, LARUSQEM_WEEKS, counts) == 0);
    larusqem_add_words(words, LARUSQEM_SHEET_WORDS * 2, list_words, 6, list_table, LARUSQEM_WEEKS, counts, added);
    CHECK(added[0] == LARUSQEM_BAD_MOMENT && added[1] == 1 && added[2] == 1 && counts[0] == 2);
}

/* NULL with length 0, for every pointer */
static void nulls(void)
{
    struct larusqem_reason reason;
    struct larusqem_options options = {LARUSQEM_SKIPPING, 0, &reason};
    struct larusqem_reading r;
    struct larusqem_list list;
    struct larusqem_added added;

    CHECK(answers(larusqem_strftime(NULL, 0, moment, NULL, 0), LARUSQEM_DONE, 0));
    CHECK(answers(larusqem_strftime("%F", 2, moment, NULL, 0), LARUSQEM_BUFFER_TOO_SMALL, 10));
    CHECK(answers(larusqem_open(NULL, 0, LARUSQEM_FOR_READING, NULL, 0), LARUSQEM_DONE, 0));
    CHECK(answers(larusqem_open("%F", 2, LARUSQEM_FOR_READING, NULL, 0), LARUSQEM_BUFFER_TOO_SMALL, 5));
    CHECK(answers(larusqem_write(NULL, 0, moment, NULL, 0), LARUSQEM_DONE, 0));
    elements[0] = 256 + 'd';
    CHECK(answers(larusqem_write(elements, 1, moment, NULL, 0), LARUSQEM_BUFFER_TOO_SMALL, 2));
    r = larusqem_strptime(NULL, 0, NULL, 0);
    CHECK(r.number == LARUSQEM_DONE && r.place == 0 && r.year == 0 && !r.hour_said && !r.minute_said && !r.second_said && !r.offset_said);
    r = larusqem_strptime("%d", 2, NULL, 0);
    CHECK(r.number == LARUSQEM_NO_MATCH && r.place == 0);
    r = larusqem_read(NULL, 0, NULL, 0);
    CHECK(r.number == LARUSQEM_DONE && r.place == 0 && r.year == 0);
    r = larusqem_read(elements, 1, NULL, 0);
    CHECK(r.number == LARUSQEM_NO_MATCH && r.place == 0);
    memset(&reason, 255, sizeof reason);
    r = larusqem_strptime_with(NULL, 0, NULL, 0, options);
    CHECK(r.number == LARUSQEM_DONE && r.place == 0 && shown(&reason)[0] == '\0');
    memset(&reason, 255, sizeof reason);
    r = larusqem_read_with(NULL, 0, NULL, 0, options);
    CHECK(r.number == LARUSQEM_DONE && r.place == 0 && shown(&reason)[0] == '\0');

    list = empty_list(0);
    list.words = NULL;
    CHECK(larusqem_judge_list(&list) == LARUSQEM_DONE);
    CHECK(answers(larusqem_add_sheet(&list, day_sheet(1934, 3, 5)), LARUSQEM_LIST_FULL, 0));
    added = larusqem_add_sheets(&list, NULL, 0);
    CHECK(added.number == LARUSQEM_DONE && added.place == 0 && added.index == 0);
    list.table = NULL;
    list.table_length = 0;
    CHECK(larusqem_judge_list(&list) == LARUSQEM_BAD_LIST);
    CHECK(answers(larusqem_add_sheet(&list, day_sheet(1934, 3, 5)), LARUSQEM_BAD_LIST, 0));
}

static int is_date(struct larusqem_date date, uint32_t year, uint32_t month, uint32_t day)
{
    return date.year == year && date.month == month && date.day == day;
}

static void calendar(void)
{
    uint32_t version = larusqem_version();
    char said[40];

    CHECK(larusqem_days() == 3652059);
    CHECK(larusqem_day_number(1, 1, 1) == 1 && larusqem_day_number(9999, 12, 31) == larusqem_days());
    CHECK(is_date(larusqem_date_of(1), 1, 1, 1) && is_date(larusqem_date_of(larusqem_days()), 9999, 12, 31));
    CHECK(is_date(larusqem_date_of(0), 0, 0, 0) && is_date(larusqem_date_of(larusqem_days() + 1), 0, 0, 0));
    CHECK(is_date(larusqem_date_of(larusqem_day_number(2000, 2, 29) + 1), 2000, 3, 1));
    CHECK(larusqem_weekday(1934, 3, 5) == 1 && larusqem_weekday(2017, 1, 1) == 7 && larusqem_weekday(9999, 12, 31) == 5);
    CHECK(larusqem_day_of_year(1934, 3, 5) == 64 && larusqem_day_of_year(2000, 12, 31) == 366);
    CHECK(larusqem_iso_year(2017, 1, 1) == 2016 && larusqem_iso_week(2017, 1, 1) == 52);
    CHECK(larusqem_iso_year(2010, 1, 1) == 2009 && larusqem_iso_week(2010, 1, 1) == 53);
    CHECK(larusqem_day_number(1900, 2, 29) == 0 && larusqem_weekday(1900, 2, 29) == 0 && larusqem_day_of_year(1900, 2, 29) == 0);
    CHECK(larusqem_iso_year(1900, 2, 29) == 0 && larusqem_iso_week(1900, 2, 29) == 0);

    snprintf(said, sizeof said, "%u.%u.%u", version >> 16, (version >> 8) & 255, version & 255);
    CHECK(strcmp(said, VERSION) == 0);
}

int main(void)
{
    memset(longer, 'x', sizeof longer);
    sentences();
    writing();
    flags_and_widths();
    opening();
    limits();
    reading();
    forms();
    offsets();
    reasons();
    packing();
    sheets_of_readings();
    lists();
    nulls();
    calendar();
    printf("%u checks, %u failed\n", checks, failures);
    return failures != 0;
}
