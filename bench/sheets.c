/* Lists of sheets: the library's time to that of the same two arrays kept in C, by binary search and memmove, and what judging a list
   costs. What a row compares is measured in this run (race.h). */
#include "race.h"

#include "larusqem.h"

#define SHEETS 65536
#define WEEKS 1024
#define WORDS 11
#define ROUNDS 5
#define JUDGINGS 50
/* the aims: ns for so many sheets in random order by one call, and for judging a word */
#define AIM_ADDED 2e9
#define AIM_JUDGED 20

void larusqem_add_words(const uint32_t *sheets, size_t sheets_length, uint64_t *words, size_t words_length, uint64_t *weeks,
                        size_t weeks_length, uint32_t counts[2], uint32_t answer[3]);
uint32_t larusqem_list_words(const uint64_t *words, size_t words_length, const uint64_t *weeks, size_t weeks_length,
                             const uint32_t counts[2]);

/* the two arrays, how many words of each are held, and the last answer: number, place, index */
struct list {
    uint64_t words[SHEETS], weeks[WEEKS];
    uint32_t counts[2], answer[3];
};

static uint32_t sheets[SHEETS][WORDS];
static size_t sheet_count;
static struct list ours, theirs;
static volatile uint32_t sink;

static void fail(const char *what, const char *of) {
    fprintf(stderr, "bench: %s: %s\n", what, of);
    exit(1);
}

/* ---- the same in C */

static int leap(uint32_t y) { return y % 4 == 0 && (y % 100 != 0 || y % 400 == 0); }

static uint32_t length_of(uint32_t y, uint32_t m) {
    static const uint32_t lengths[13] = {0, 31, 28, 31, 30, 31, 30, 31, 31, 30, 31, 30, 31};
    return m == 2 && leap(y) ? 29 : lengths[m];
}

/* a said field that is not valid, by its place, or 0; the day is said */
static uint32_t bad_field(const uint32_t *s) {
    if (s[0] < 1 || s[0] > 9999) return 1;
    if (s[1] < 1 || s[1] > 12) return 2;
    if (s[2] < 1 || s[2] > length_of(s[0], s[1])) return 3;
    if (s[3] && s[4] > 23) return 4;
    if (s[5] && s[6] > 59) return 5;
    if (s[7] && s[8] > 60) return 6;
    if (s[9] && ((int32_t)s[10] < -1439 || (int32_t)s[10] > 1439)) return 7;
    return 0;
}

static uint64_t pack(const uint32_t *s) {
    uint64_t word = (uint64_t)s[0] << 50 | (uint64_t)s[1] << 46 | (uint64_t)s[2] << 41;
    if (s[3]) word |= (uint64_t)1 << 40 | (uint64_t)s[4] << 35;
    if (s[5]) word |= (uint64_t)1 << 34 | (uint64_t)s[6] << 28;
    if (s[7]) word |= (uint64_t)1 << 27 | (uint64_t)s[8] << 21;
    if (s[9]) word |= (uint64_t)1 << 20 | (uint64_t)((int32_t)s[10] + 1439) << 8;
    return word;
}

/* whether a word is a packing; its year, month and day */
static int unpack(uint64_t word, uint32_t s[WORDS]) {
    s[0] = (uint32_t)(word >> 50), s[1] = word >> 46 & 15, s[2] = word >> 41 & 31;
    s[3] = word >> 40 & 1, s[4] = word >> 35 & 31;
    s[5] = word >> 34 & 1, s[6] = word >> 28 & 63;
    s[7] = word >> 27 & 1, s[8] = word >> 21 & 63;
    s[9] = word >> 20 & 1, s[10] = (word >> 8 & 4095) - 1439;
    return !bad_field(s) && pack(s) == word;
}

/* the days of the years before */
static uint32_t days_before(uint32_t y) { return 365 * (y - 1) + (y - 1) / 4 - (y - 1) / 100 + (y - 1) / 400; }

/* a word of the week table without its sheets: the year and the week of a day's Thursday */
static uint64_t week_of(uint32_t y, uint32_t m, uint32_t d) {
    static const uint32_t passed[13] = {0, 0, 31, 59, 90, 120, 151, 181, 212, 243, 273, 304, 334};
    uint32_t start = days_before(y), number = start + passed[m] + (m > 2 && leap(y)) + d;
    uint32_t thursday = number + 4 - ((number + 6) % 7 + 1);
    if (thursday <= start) start = days_before(--y);
    else if (thursday > start + 365 + (uint32_t)leap(y)) start = days_before(++y);
    return (uint64_t)y << 50 | (uint64_t)((thursday - start + 6) / 7) << 44;
}

/* how many of the words, which ascend, are not greater than this one */
static uint32_t search(const uint64_t *words, uint32_t count, uint64_t word) {
    uint32_t low = 0, high = count;
    while (low < high) {
        uint32_t middle = (low + high) / 2;
        if (words[middle] <= word) low = middle + 1;
        else high = middle;
    }
    return low;
}

static void insert(uint64_t *words, uint32_t *count, uint32_t place, uint64_t word) {
    memmove(words + place + 1, words + place, (*count - place) * sizeof *words);
    words[place] = word;
    ++*count;
}

/* 13 or 2, 14, or 0; the list is not judged */
static uint32_t add(const uint32_t *s, struct list *l) {
    if (!(s[0] | s[1] | s[2])) return 13;
    if ((l->answer[1] = bad_field(s))) return 2;
    uint64_t word = pack(s), week = week_of(s[0], s[1], s[2]), most = ((uint64_t)1 << 44) - 1;
    uint32_t place = search(l->weeks, l->counts[1], week | most);
    int held = place > 0 && (l->weeks[place - 1] | most) == (week | most);
    if (l->counts[0] == SHEETS || (!held && l->counts[1] == WEEKS)) return 14;
    if (held) l->weeks[place - 1]++;
    else insert(l->weeks, &l->counts[1], place, week + 1);
    insert(l->words, &l->counts[0], search(l->words, l->counts[0], word), word);
    return 0;
}

static void add_theirs(void) {
    uint32_t index = 0, number = 0;
    memset(theirs.counts, 0, sizeof theirs.counts);
    memset(theirs.answer, 0, sizeof theirs.answer);
    while (index < sheet_count && !(number = add(sheets[index], &theirs))) index++;
    theirs.answer[0] = number;
    theirs.answer[2] = index;
}

/* 15 or 0: every word, their order, and the table */
static uint32_t judge(const struct list *l) {
    uint64_t before = 0, week = 0, counted = 0;
    uint32_t weeks = 0, s[WORDS];
    for (uint32_t i = 0; i < l->counts[0]; i++) {
        uint64_t word = l->words[i];
        if (word < before || !unpack(word, s)) return 15;
        /* the week is that of the day before, or another */
        if (word >> 41 != before >> 41) {
            uint64_t other = week_of(s[0], s[1], s[2]);
            if (other != week) {
                if (week && (weeks == l->counts[1] || l->weeks[weeks++] != week + counted)) return 15;
                week = other;
                counted = 0;
            }
        }
        counted++;
        before = word;
    }
    if (week && (weeks == l->counts[1] || l->weeks[weeks++] != week + counted)) return 15;
    return weeks == l->counts[1] ? 0 : 15;
}

static void judge_theirs(void) { sink = judge(&ours); }

/* ---- ours */

static void add_ours(void) {
    memset(ours.counts, 0, sizeof ours.counts);
    larusqem_add_words(sheets[0], WORDS * sheet_count, ours.words, SHEETS, ours.weeks, WEEKS, ours.counts, ours.answer);
}

static uint32_t judged(void) { return larusqem_list_words(ours.words, SHEETS, ours.weeks, WEEKS, ours.counts); }

static void judge_ours(void) { sink = judged(); }

/* ---- the rows */

/* a sheet of a day, counted from Monday 1930-01-06; each other field is said three times of four */
static void make_sheet(uint32_t *s, uint32_t day) {
    struct tm t = {.tm_year = 30, .tm_mon = 0, .tm_mday = 6 + (int)day};
    timegm(&t);
    s[0] = (uint32_t)t.tm_year + 1900, s[1] = (uint32_t)t.tm_mon + 1, s[2] = (uint32_t)t.tm_mday;
    for (int flag = 3; flag < WORDS; flag += 2) s[flag] = below(4) > 0;
    s[4] = below(24), s[6] = below(60), s[8] = below(61);
    s[10] = below(2879) - 1439;
}

/* ends the program where the two lists are not the same, or not sound */
static void check(const char *what) {
    add_theirs();
    add_ours();
    if (memcmp(&ours, &theirs, sizeof ours) != 0) fail("not the list that C makes", what);
    if (ours.answer[0] || ours.answer[2] != sheet_count || ours.counts[0] != sheet_count) fail("not all sheets were added", what);
    if (judged() || judge(&ours)) fail("no sound list", what);
}

static int compare_sheets(const void *a, const void *b) {
    uint64_t one = pack(a), other = pack(b);
    return one < other ? -1 : one > other;
}

static void row_added(const char *what) {
    struct racer r[] = {{add_theirs, 0}, {add_ours, 0}};
    check(what);
    race(r, COUNT(r), ROUNDS);
    double c = r[0].best, o = r[1].best;
    printf("| %s | %.0f ms | %.0f ms | %.2f | %.0f ns | %.3f |\n", what, c / 1e6, o / 1e6, o / c, o / SHEETS, o / AIM_ADDED);
}

static void adding(void) {
    printf("| add 65,536 sheets of 1,024 weeks by one call | binary search and memmove in C | ours | ratio | ours for a sheet | "
           "to the aim of 2 s |\n|---|---|---|---|---|---|\n");
    sheet_count = SHEETS;
    for (size_t i = 0; i < SHEETS; i++) make_sheet(sheets[i], below(7 * WEEKS));
    row_added("in random order");
    qsort(sheets, SHEETS, sizeof sheets[0], compare_sheets);
    row_added("in the order of the list");
    printf("\n");
}

static void row_judged(const char *what) {
    struct racer r[] = {{judge_theirs, 0}, {judge_ours, 0}};
    check(what);
    race(r, COUNT(r), JUDGINGS);
    double c = r[0].best / (double)sheet_count, o = r[1].best / (double)sheet_count;
    printf("| %s | %.1f ns | %.1f ns | %.2f | %.2f |\n", what, c, o, o / c, o / AIM_JUDGED);
}

static void judging(void) {
    printf("| judge a list, for a word | C | ours | ratio | to the aim of 20 ns |\n|---|---|---|---|---|\n");
    sheet_count = SHEETS;
    for (size_t i = 0; i < SHEETS; i++) make_sheet(sheets[i], below(10));
    qsort(sheets, SHEETS, sizeof sheets[0], compare_sheets);
    row_judged("65,536 sheets of 10 days");
    sheet_count = 7 * WEEKS;
    for (uint32_t i = 0; i < 7 * WEEKS; i++) make_sheet(sheets[i], i);
    row_judged("7,168 sheets of 1,024 weeks, each of another day");
    printf("\n");
}

int main(void) {
    adding();
    judging();
    return 0;
}
