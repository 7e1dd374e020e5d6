/* Ratios of the library's time to the C library's, to chrono's, to the same loop in C, or to its own without a reason. What a row compares
   is measured in this run (race.h). */
#include "race.h"

#include "larusqem.h"

#define DATES 1000
#define ROUNDS 100
#define SCANS 15

static void fail(const char *what, const char *format, const char *text) {
    fprintf(stderr, "bench: %s: `%s`, `%s`\n", what, format, text);
    exit(1);
}

static struct tm dates[DATES];
static struct larusqem_moment moments[DATES];
static volatile uint64_t sink;

/* dates of the years 1000 to 9999 with zone offsets, for both libraries; the C library's have weekday and day of the year filled in */
static void make_dates(void) {
    for (int i = 0; i < DATES; i++) {
        struct tm t = {0};
        t.tm_year = (int)(1000 + below(8999)) - 1900;
        t.tm_mday = 1 + (int)below(365);
        t.tm_hour = (int)below(24);
        t.tm_min = (int)below(60);
        t.tm_sec = (int)below(60);
        timegm(&t);
        dates[i] = t;
        moments[i] = (struct larusqem_moment){{(uint32_t)(t.tm_year + 1900), (uint32_t)(t.tm_mon + 1), (uint32_t)t.tm_mday},
                                              (uint32_t)t.tm_hour, (uint32_t)t.tm_min, (uint32_t)t.tm_sec, 1, 0};
    }
    for (int i = 0; i < DATES; i++) {
        moments[i].offset = (int32_t)below(2879) - 1439;
        dates[i].tm_gmtoff = 60L * moments[i].offset;
    }
}

/* the format of the row, its elements, and the texts to read by it */
static const char *format;
static size_t format_length;
static uint32_t elements[LARUSQEM_ELEMENTS], element_count;
static char texts[DATES][64];
static size_t text_lengths[DATES];
static char out[256];

static void open_format(const char *f, enum larusqem_use use) {
    format = f;
    format_length = strlen(f);
    element_count = larusqem_open(f, format_length, use, elements, LARUSQEM_ELEMENTS).place;
}

/* a row of a table against the C library: its time, ours with the format opened each time, and ours with it opened once */
static void row_to_c(void (*theirs)(void), void (*opened_anew)(void), void (*opened_once)(void)) {
    struct racer r[] = {{theirs, 0}, {opened_anew, 0}, {opened_once, 0}};
    race(r, COUNT(r), ROUNDS);
    double c = r[0].best / DATES, anew = r[1].best / DATES, once = r[2].best / DATES;
    printf("| `%s` | %.0f ns | %.0f ns | %.2f | %.0f ns | %.2f |\n", format, c, anew, anew / c, once, once / c);
}

/* ---- writing */

static void write_theirs(void) {
    for (int i = 0; i < DATES; i++) sink += strftime(out, sizeof out, format, &dates[i]);
}

static void write_anew(void) {
    for (int i = 0; i < DATES; i++) sink += larusqem_strftime(format, format_length, moments[i], out, sizeof out).place;
}

static void write_opened(void) {
    for (int i = 0; i < DATES; i++) sink += larusqem_write(elements, element_count, moments[i], out, sizeof out).place;
}

/* %s of the C library goes by the local zone: there, the seconds from 1970 by a zone offset take timegm and snprintf */
static int is_seconds(void) { return strcmp(format, "%s") == 0; }

static size_t put_seconds(char *to, size_t room, const struct tm *date) {
    struct tm t = *date;
    return (size_t)snprintf(to, room, "%lld", (long long)timegm(&t) - date->tm_gmtoff);
}

static void write_their_seconds(void) {
    for (int i = 0; i < DATES; i++) sink += put_seconds(out, sizeof out, &dates[i]);
}

/* ends the program where the two libraries do not write the same for a date */
static void check_writing(void) {
    char theirs[256];
    for (int i = 0; i < DATES; i++) {
        size_t length = is_seconds() ? put_seconds(theirs, sizeof theirs, &dates[i]) : strftime(theirs, sizeof theirs, format, &dates[i]);
        struct larusqem_answer a = larusqem_strftime(format, format_length, moments[i], out, sizeof out);
        if (a.number != LARUSQEM_DONE || a.place != length || memcmp(theirs, out, length) != 0)
            fail("not written as the C library writes it", format, theirs);
    }
}

static void writing(void) {
    static const char *formats[] = {"%c", "%F %T", "%F %T %z", "%s", "%G-W%V-%u", "%A %d %B %Y", "%-d %^b %_5Y"};
    printf("| write | C library (`%%s`: timegm and snprintf) | ours, format opened each time | ratio | ours, opened once | ratio |\n"
           "|---|---|---|---|---|---|\n");
    for (size_t k = 0; k < COUNT(formats); k++) {
        open_format(formats[k], LARUSQEM_FOR_WRITING);
        check_writing();
        row_to_c(is_seconds() ? write_their_seconds : write_theirs, write_anew, write_opened);
    }
    printf("\n");
}

/* ---- reading */

static void read_theirs(void) {
    for (int i = 0; i < DATES; i++) {
        struct tm t;
        memset(&t, 0, sizeof t);
        sink += (uint64_t)(strptime(texts[i], format, &t) - texts[i]);
    }
}

static void read_theirs_to_time(void) {
    for (int i = 0; i < DATES; i++) {
        struct tm t;
        memset(&t, 0, sizeof t);
        strptime(texts[i], format, &t);
        sink += (uint64_t)timegm(&t);
    }
}

static void read_anew(void) {
    for (int i = 0; i < DATES; i++) sink += larusqem_strptime(format, format_length, texts[i], text_lengths[i]).place;
}

static void read_opened(void) {
    for (int i = 0; i < DATES; i++) sink += larusqem_read(elements, element_count, texts[i], text_lengths[i]).place;
}

#ifdef WITH_CHRONO
void *chrono_open(const char *format, size_t length);
int64_t chrono_read(const void *items, const char *text, size_t length);
static void *chrono_items;

static void read_chrono(void) {
    for (int i = 0; i < DATES; i++) sink += (uint64_t)chrono_read(chrono_items, texts[i], text_lengths[i]);
}
#endif

/* readings with nothing to judge by day or hour, and one that judges the hour */
static void reading_clocks(void) {
    static const struct { const char *format, *text; } cases[] = {
        {"%M:%S", "08:09"}, {"month %n%M min", "month   8 min"}, {"%H:%M:%S", "07:08:09"}, {"%z", "+0130"}};
    printf("| read, no day to judge | C library | ours, format opened each time | ratio | ours, opened once | ratio |\n");
    printf("|---|---|---|---|---|---|\n");
    for (size_t k = 0; k < COUNT(cases); k++) {
        open_format(cases[k].format, LARUSQEM_FOR_READING);
        for (int i = 0; i < DATES; i++) text_lengths[i] = strlen(strcpy(texts[i], cases[k].text));
        row_to_c(read_theirs, read_anew, read_opened);
    }
    printf("\n");
}

/* ends the program where a text is not read as the date and time that it was written for, by any of them */
static void check_reading(void) {
    for (int i = 0; i < DATES; i++) {
        struct tm t = dates[i], theirs = {0};
        struct larusqem_reading r = larusqem_read(elements, element_count, texts[i], text_lengths[i]);
        t.tm_sec = 0;
        if (r.number != LARUSQEM_DONE || r.year != moments[i].date.year || r.month != moments[i].date.month ||
            r.day != moments[i].date.day || r.hour != moments[i].hour || r.minute != moments[i].minute ||
            (r.offset_said && r.offset != moments[i].offset))
            fail("not read back", format, texts[i]);
        if (!strptime(texts[i], format, &theirs) || timegm(&theirs) != timegm(&t))
            fail("not read back by the C library", format, texts[i]);
#ifdef WITH_CHRONO
        if (chrono_read(chrono_items, texts[i], text_lengths[i]) != timegm(&t)) fail("not read back by chrono", format, texts[i]);
#endif
    }
}

/* readings with their conclusion: the day is judged, and theirs made a time */
static void reading_dates(void) {
    static const char *formats[] = {"%d %b %Y %H:%M",    "%Y-%m-%d %H:%M",    "%Y-%m-%d %H:%M %z",
                                    "%a %d %b %Y %H:%M", "%A %d %B %Y %H:%M", "%d %b %Y %I:%M %p"};
    printf("| read, day and time | C library, strptime and timegm | chrono, opened once | ours, format opened each time | "
           "to C | to chrono | ours, opened once | to C | to chrono |\n|---|---|---|---|---|---|---|---|---|\n");
    for (size_t k = 0; k < COUNT(formats); k++) {
        struct racer r[] = {{read_theirs_to_time, 0},
                            {read_anew, 0},
                            {read_opened, 0},
#ifdef WITH_CHRONO
                            {read_chrono, 0}
#endif
        };
        open_format(formats[k], LARUSQEM_FOR_READING);
        for (int i = 0; i < DATES; i++) text_lengths[i] = strftime(texts[i], sizeof texts[i], format, &dates[i]);
#ifdef WITH_CHRONO
        chrono_items = chrono_open(format, format_length);
#endif
        check_reading();
        race(r, COUNT(r), ROUNDS);
        double c = r[0].best / DATES, anew = r[1].best / DATES, once = r[2].best / DATES;
#ifdef WITH_CHRONO
        double ch = r[3].best / DATES;
        printf("| `%s` | %.0f ns | %.0f ns | %.0f ns | %.2f | %.2f | %.0f ns | %.2f | %.2f |\n", format, c, ch, anew, anew / c, anew / ch,
               once, once / c, once / ch);
#else
        printf("| `%s` | %.0f ns | not installed | %.0f ns | %.2f | | %.0f ns | %.2f | |\n", format, c, anew, anew / c, once, once / c);
#endif
    }
    printf("\n");
}

/* the forms of a weekday and a month; the C library takes no middle one, so all three are ours */
static const struct { const char *text; uint32_t form; } named[] = {{"Thu 6 Sep 1934", LARUSQEM_SHORT_NAME},
                                                                    {"Thurs 6 Sept 1934", LARUSQEM_MIDDLE_NAME},
                                                                    {"Thursday 6 September 1934", LARUSQEM_FULL_NAME}};

static void read_named(size_t k) {
    size_t length = strlen(named[k].text);
    for (int i = 0; i < DATES; i++) sink += larusqem_read(elements, element_count, named[k].text, length).place;
}

static void read_short(void) { read_named(0); }
static void read_middle(void) { read_named(1); }
static void read_full(void) { read_named(2); }

static void reading_forms(void) {
    struct racer r[] = {{read_short, 0}, {read_middle, 0}, {read_full, 0}};
    open_format("%a %d %b %Y", LARUSQEM_FOR_READING);
    for (size_t k = 0; k < COUNT(named); k++) {
        struct larusqem_reading reading = larusqem_read(elements, element_count, named[k].text, strlen(named[k].text));
        if (reading.number != LARUSQEM_DONE || reading.weekday_form != named[k].form || reading.month_form != named[k].form)
            fail("not read in its form", format, named[k].text);
    }
    race(r, COUNT(r), ROUNDS);
    double s = r[0].best / DATES, m = r[1].best / DATES, f = r[2].best / DATES;
    printf("| read, opened once | short names | middle forms | to short | full names | to short |\n|---|---|---|---|---|---|\n");
    printf("| `%s` | %.0f ns | %.0f ns | %.2f | %.0f ns | %.2f |\n\n", format, s, m, m / s, f, f / s);
}

/* what a reason costs where it is asked for, and where it is not */
static struct larusqem_options options;
static struct larusqem_reason reason;

static void read_by_options(struct larusqem_reason *asked_for) {
    options.reason = asked_for;
    for (int i = 0; i < DATES; i++) sink += larusqem_read_with(elements, element_count, texts[i], text_lengths[i], options).place;
}

static void read_unasked(void) { read_by_options(NULL); }
static void read_explained(void) { read_by_options(&reason); }

static void read_anew_explained(void) {
    options.reason = &reason;
    for (int i = 0; i < DATES; i++) sink += larusqem_strptime_with(format, format_length, texts[i], text_lengths[i], options).place;
}

static void reading_reasons(void) {
    static const struct { const char *format, *text; uint32_t number; } cases[] = {
        {"%d %b %Y %H:%M", "5 Mar 1934 07:08", LARUSQEM_DONE},
        {"%d %b %Y", "29 Feb 1900", LARUSQEM_NONE_AGREES},
        {"%a %d %b %Y", "Tue 5 Mar 1934", LARUSQEM_NONE_AGREES},
        {"%d %b", "5 Mar", LARUSQEM_TWO_AGREE}};
    printf("| read, and why it is refused | number | opened once | with options, no reason asked for | ratio | with its reason | ratio | "
           "opened each time | with its reason | ratio |\n|---|---|---|---|---|---|---|---|---|---|\n");
    for (size_t k = 0; k < COUNT(cases); k++) {
        struct racer r[] = {{read_opened, 0}, {read_unasked, 0}, {read_explained, 0}, {read_anew, 0}, {read_anew_explained, 0}};
        open_format(cases[k].format, LARUSQEM_FOR_READING);
        for (int i = 0; i < DATES; i++) text_lengths[i] = strlen(strcpy(texts[i], cases[k].text));
        if (larusqem_read(elements, element_count, texts[0], text_lengths[0]).number != cases[k].number)
            fail("another number", format, texts[0]);
        race(r, COUNT(r), ROUNDS);
        double once = r[0].best / DATES, unasked = r[1].best / DATES, why = r[2].best / DATES, anew = r[3].best / DATES;
        double anew_why = r[4].best / DATES;
        printf("| `%s` (`%s`) | %u | %.0f ns | %.0f ns | %.2f | %.0f ns | %.2f | %.0f ns | %.0f ns | %.2f |\n", texts[0], format,
               cases[k].number, once, unasked, unasked / once, why, why / once, anew, anew_why, anew_why / anew);
    }
    printf("\n");
}

/* ---- the slowest readings, without and with their reasons: of every set of kinds 1 to 12 a set of facts that agrees with a day, three of
   which one fact is another day's, and two of which each is another day's; ten times as many where the kinds are three or fewer */

#define SETS 4095
#define KEPT 40
/* the longest that a reason should take, in ns */
#define AIM 5e6

static const char letters[] = "YCymdjuUWGgV";

struct timed {
    char format[64], text[64];
    struct larusqem_reading reading;
    struct larusqem_reason reason;
    double best;
};

static int by_time(const void *a, const void *b) {
    double x = ((const struct timed *)a)->best, y = ((const struct timed *)b)->best;
    return (x < y) - (x > y);
}

/* the best of some readings by a format, in ns, with the reason where there is a place for it */
static double best_reading(const char *f, const char *text, struct larusqem_reading *reading, struct larusqem_reason *why, int rounds) {
    double best = 1e18;
    size_t length = strlen(text);
    open_format(f, LARUSQEM_FOR_READING);
    options.reason = why;
    for (int round = 0; round < rounds; round++) {
        double start = now();
        *reading = larusqem_read_with(elements, element_count, text, length, options);
        double took = now() - start;
        if (took < best) best = took;
    }
    return best;
}

static void time_reading(struct timed *t, int rounds) { t->best = best_reading(t->format, t->text, &t->reading, NULL, rounds); }
static void time_reason(struct timed *t, int rounds) { t->best = best_reading(t->format, t->text, &t->reading, &t->reason, rounds); }

/* a day of any year, or about the end of one of those at a century's or the calendar's ends */
static struct larusqem_date any_day(void) {
    static const uint32_t years[] = {1, 9999, 100, 400, 2000, 1999, 9900, 9899};
    uint32_t last;
    if (below(2)) return larusqem_date_of(1 + below(larusqem_days()));
    last = larusqem_day_number(years[below(COUNT(years))], 12, 31);
    return larusqem_date_of(last - below(4));
}

/* says what a conversion shows for a day, and a blank */
static void say(struct timed *t, char letter, struct larusqem_date d) {
    char conversion[] = {'%', letter, ' ', 0};
    size_t length = strlen(t->text);
    struct larusqem_moment m = {.date = d};
    strcat(t->format, conversion);
    t->text[length + larusqem_strftime(conversion, 3, m, t->text + length, 16).place] = 0;
}

/* the first ones are measured again, in turns, and put in order */
static void measure_again(struct timed *first, size_t count, int rounds, void (*measure)(struct timed *, int)) {
    for (int round = 0; round < rounds; round++)
        for (struct timed *t = first; t < first + count; t++) {
            double best = t->best;
            measure(t, 1);
            if (best < t->best) t->best = best;
        }
    qsort(first, count, sizeof *first, by_time);
}

/* of all sets the slowest stand first: many are measured some times more, lest other work on the machine chose them, those kept often */
static void settle(struct timed *worst, void (*measure)(struct timed *, int)) {
    qsort(worst, SETS, sizeof *worst, by_time);
    measure_again(worst, 25 * KEPT, 5, measure);
    measure_again(worst, KEPT, ROUNDS, measure);
}

/* the kinds that quarrel, by their conversions, and how long it took to find them */
static void print_reason(const struct larusqem_reason *why, double took) {
    for (int k = 0; k < 12; k++)
        if (why->words[k + 1].next != 0) printf("`%%%c` ", letters[k]);
    printf("| %.2f | %.3f |\n", took / 1e3, took / AIM);
}

static void print_reasons(const struct timed *worst) {
    for (const struct timed *t = worst; t < worst + 5; t++) {
        printf("| `%s` | `%s` | %u | ", t->text, t->format, t->reading.number);
        print_reason(&t->reason, t->best);
    }
}

/* adds kinds that are not said, one at a time and with the numbers of any day, as long as no day agrees and the reason takes longer */
static void add_kinds(struct timed *t) {
    for (int kinds = 0; kinds < 12; kinds++) {
        struct timed slowest = *t;
        for (const char *letter = letters; *letter; letter++)
            for (int turn = 0; turn < 30 && !strchr(t->format, *letter); turn++) {
                struct timed more = *t;
                say(&more, *letter, any_day());
                time_reason(&more, 3);
                if (more.reading.number == LARUSQEM_NONE_AGREES && more.best > slowest.best) slowest = more;
            }
        if (slowest.best == t->best) return;
        *t = slowest;
    }
}

/* the same behind minutes, as many as a text has room for: the words are looked for from the beginning, kind by kind */
static void print_far_reason(const struct timed *t) {
    static char long_format[LARUSQEM_LONGEST + 1], long_text[LARUSQEM_LONGEST + 1];
    struct larusqem_reading reading;
    size_t count = (LARUSQEM_LONGEST - sizeof t->text) / 2;
    for (size_t i = 0; i < count; i++) {
        strcat(long_format, "%M");
        strcat(long_text, "08");
    }
    strcat(long_format, t->format);
    strcat(long_text, t->text);
    double took = best_reading(long_format, long_text, &reading, &reason, ROUNDS);
    printf("| the first behind %zu times `08` | and as often `%%M` | %u | ", count, reading.number);
    print_reason(&reason, took);
}

static void slowest(void) {
    static struct timed readings[SETS], reasons[SETS];
    double sum = 0, reason_sum = 0;
    int count = 0;
    for (uint32_t set = 1; set <= SETS; set++) {
        uint32_t kinds = (uint32_t)__builtin_popcount(set);
        for (int turn = 0; turn < (kinds <= 3 ? 60 : 6); turn++) {
            struct timed t = {.best = 0};
            struct larusqem_date day = any_day();
            uint32_t quarrel = turn % 6 ? below(kinds) : kinds;
            for (int k = 0; k < 12; k++)
                if (set >> k & 1) say(&t, letters[k], quarrel-- && turn % 6 <= 3 ? day : any_day());
            time_reading(&t, 3);
            sum += t.best;
            if (t.best > readings[set - 1].best) readings[set - 1] = t;
            time_reason(&t, 3);
            reason_sum += t.best;
            if (t.best > reasons[set - 1].best) reasons[set - 1] = t;
            count++;
        }
    }
    settle(readings, time_reading);
    printf("| the slowest of %d readings, of each format one (mean of all %.2f microseconds) | format | number | days examined | "
           "microseconds |\n|---|---|---|---|---|\n", count, sum / count / 1e3);
    for (struct timed *t = readings; t < readings + 5; t++)
        printf("| `%s` | `%s` | %u | %u | %.2f |\n", t->text, t->format, t->reading.number, t->reading.examined, t->best / 1e3);
    settle(reasons, time_reason);
    printf("\n| the slowest of the same with their reasons (mean of all %.2f microseconds) | format | number | kinds that quarrel | "
           "microseconds | to the aim of 5 ms |\n|---|---|---|---|---|---|\n", reason_sum / count / 1e3);
    print_reasons(reasons);
    for (size_t i = 0; i < KEPT; i++) add_kinds(&reasons[i]);
    measure_again(reasons, KEPT, ROUNDS, time_reason);
    printf("\n| the slowest that are made of the first %d by adding kinds | format | number | kinds that quarrel | microseconds | "
           "to the aim of 5 ms |\n|---|---|---|---|---|---|\n", KEPT);
    print_reasons(reasons);
    print_far_reason(reasons);
    printf("\n");
}

/* ---- the plain engine: the same loop in C, each day examined whole and in order, the budget looked at before each day */

/* at each kind 1 to 12: 0 unsaid, else one more than the number */
struct facts {
    uint32_t said[13];
};

static int leap(uint32_t y) { return y % 4 == 0 && (y % 100 != 0 || y % 400 == 0); }

static uint32_t length_of(uint32_t y, uint32_t m) {
    static const uint32_t lengths[13] = {0, 31, 28, 31, 30, 31, 30, 31, 31, 30, 31, 30, 31};
    return m == 2 && leap(y) ? 29 : lengths[m];
}

/* the year and the week of a day's Thursday */
static uint32_t iso(uint32_t kind, uint32_t y, uint32_t number, uint32_t before) {
    uint32_t thursday = number + 4 - ((number + 6) % 7 + 1), start = before, end = before + (leap(y) ? 366 : 365);
    if (thursday <= before) start = before - (leap(--y) ? 366 : 365);
    else if (end < thursday) start = end, y++;
    return kind == 10 ? y : kind == 11 ? y % 100 : (thursday - start + 6) / 7;
}

static int other(const struct facts *f, uint32_t kind, uint32_t number) { return f->said[kind] && f->said[kind] - 1 != number; }

static int agrees(const struct facts *f, int iso_said, uint32_t y, uint32_t m, uint32_t d, uint32_t number, uint32_t before) {
    if (other(f, 1, y)) return 0;
    if (other(f, 2, y / 100)) return 0;
    if (other(f, 3, y % 100)) return 0;
    if (other(f, 4, m)) return 0;
    if (other(f, 5, d)) return 0;
    if (other(f, 6, number - before)) return 0;
    if (other(f, 7, (number + 6) % 7 + 1)) return 0;
    if (other(f, 8, number / 7 - before / 7)) return 0;
    if (other(f, 9, (number + 6) / 7 - (before + 6) / 7)) return 0;
    if (!iso_said) return 1;
    for (uint32_t kind = 10; kind <= 12; kind++)
        if (f->said[kind] && f->said[kind] - 1 != iso(kind, y, number, before)) return 0;
    return 1;
}

/* the days examined, or the budget where that is used up before; at most two days that agree */
__attribute__((noipa)) static uint32_t search(const struct facts *f, uint32_t budget, uint32_t hits[2]) {
    uint32_t number = 0, n = 0;
    int iso_said = f->said[10] || f->said[11] || f->said[12];
    for (uint32_t y = 1; y <= 9999; y++) {
        uint32_t before = number;
        for (uint32_t m = 1; m <= 12; m++)
            for (uint32_t d = 1, last = length_of(y, m); d <= last; d++) {
                if (number == budget) return budget;
                number++;
                if (!agrees(f, iso_said, y, m, d, number, before)) continue;
                hits[n++] = number;
                if (n == 2) return number;
            }
    }
    return number;
}

static struct facts facts;

static void scan_c(void) {
    uint32_t hits[2];
    sink += search(&facts, larusqem_days(), hits);
}

static void scan_plain(void) {
    struct larusqem_options plain = {.engine = LARUSQEM_PLAIN};
    sink += larusqem_read_with(elements, element_count, texts[0], text_lengths[0], plain).place;
}

static void scan_within(void) {
    struct larusqem_options within = {.engine = LARUSQEM_WITHIN, .budget = larusqem_days()};
    sink += larusqem_read_with(elements, element_count, texts[0], text_lengths[0], within).place;
}

static void scanning(void) {
    static const struct { const char *what, *format, *text; struct facts facts; } cases[] = {
        {"a complete date", "%d %b %Y", "5 Mar 1934", {{[1] = 1935, [4] = 4, [5] = 6}}},
        {"day and month that no year has", "%d %m", "30 2", {{[4] = 3, [5] = 31}}},
        {"day and weekday of a month, none", "%d %m %a", "30 2 Mon", {{[4] = 3, [5] = 31, [7] = 2}}},
        {"%U and %W that never meet", "%U %W", "10 12", {{[8] = 11, [9] = 13}}},
        {"ISO year, week and weekday", "%G %V %u", "2009 53 5", {{[7] = 6, [10] = 2010, [12] = 54}}},
        {"week %V 53 in March, none", "%V %m", "53 3", {{[4] = 4, [12] = 54}}},
        {"%g and %V, none", "%g %V", "0 53", {{[11] = 1, [12] = 54}}},
    };
    printf("| plain search of %u days | the same loop in C | ours, the whole reading | ratio | with a budget | ratio | ns for a day | "
           "the skipping engine |\n|---|---|---|---|---|---|---|---|\n", larusqem_days());
    for (size_t k = 0; k < COUNT(cases); k++) {
        struct racer r[] = {{scan_c, 0}, {scan_plain, 0}, {scan_within, 0}};
        struct timed skipping = {.best = 0};
        struct larusqem_options plain = {.engine = LARUSQEM_PLAIN};
        uint32_t hits[2];
        facts = cases[k].facts;
        open_format(cases[k].format, LARUSQEM_FOR_READING);
        text_lengths[0] = strlen(strcpy(texts[0], cases[k].text));
        uint32_t examined = larusqem_read_with(elements, element_count, texts[0], text_lengths[0], plain).examined;
        if (examined != search(&facts, UINT32_MAX, hits)) fail("the loop in C examined another number of days", format, texts[0]);
        race(r, COUNT(r), SCANS);
        strcpy(skipping.format, format);
        strcpy(skipping.text, texts[0]);
        time_reading(&skipping, ROUNDS);
        double c = r[0].best / 1e6, p = r[1].best / 1e6, w = r[2].best / 1e6;
        printf("| %s (`%s`) | %.2f ms | %.2f ms | %.2f | %.2f ms | %.2f | %.2f | %.2f microseconds |\n", cases[k].what, texts[0], c, p,
               p / c, w, w / c, r[1].best / examined, skipping.best / 1e3);
    }
    printf("\n");
}

int main(void) {
    make_dates();
    writing();
    reading_clocks();
    reading_dates();
    reading_forms();
    reading_reasons();
    slowest();
    scanning();
    return 0;
}
