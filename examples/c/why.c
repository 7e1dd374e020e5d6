/* why FORMAT TEXT: reads a text and says why it is refused: marks the words that quarrel and names them, or names what is missing. */
#include <inttypes.h>
#include <stdio.h>
#include <string.h>

#include <larusqem.h>

static const char *const kinds[LARUSQEM_KINDS] = {
    "", "year", "century", "year in century", "month", "day", "day of year", "weekday", "Sunday week", "Monday week", "ISO year",
    "ISO year in century", "ISO week", "hour", "hour of twelve", "half of day"};
static const char *const parts[] = {"", "year", "month", "day"};

/* the kind that is named whose words stand at an offset, 0 where there is none */
static uint32_t kind_at(const struct larusqem_reason *reason, uint32_t at)
{
    uint32_t kind = LARUSQEM_KINDS - 1;

    while (kind != 0 && (at < reason->words[kind].from || reason->words[kind].next <= at))
        kind--;
    return kind;
}

/* a mark under each byte of the words that quarrel, and the words, in the order of the text */
static void print_quarrel(const char *what, const char *text, const struct larusqem_reason *reason)
{
    uint32_t length = (uint32_t)strlen(text), marked = 0;
    const char *between = "";

    for (uint32_t at = 0; at < length; at++)
        if (kind_at(reason, at) != 0) {
            printf("%*s", (int)(at + 1 - marked), "^");
            marked = at + 1;
        }
    printf("\nno %s agrees with all of ", what);
    for (uint32_t at = 0; at < length; at++) {
        uint32_t kind = kind_at(reason, at);
        struct larusqem_extent words = reason->words[kind];

        if (kind != 0 && words.from == at) {
            printf("%s%s %.*s", between, kinds[kind], (int)(words.next - words.from), text + words.from);
            between = ", ";
        }
    }
    printf("\n");
}

static void print_missing(struct larusqem_reading r, const struct larusqem_reason *reason)
{
    if (reason->part != LARUSQEM_NO_PART)
        printf("the %s is missing: %04" PRIu32 "-%02" PRIu32 "-%02" PRIu32 " or %04" PRIu32 "-%02" PRIu32 "-%02" PRIu32 "\n",
               parts[reason->part], r.year, r.month, r.day, r.other_year, r.other_month, r.other_day);
    else
        printf("%s is missing: hour %" PRIu32 " or %" PRIu32 "\n", r.other_hour == r.hour + 12 ? "AM or PM" : "the hour", r.hour,
               r.other_hour);
}

int main(int count, char **words)
{
    struct larusqem_reason reason;
    struct larusqem_options options = {.engine = LARUSQEM_SKIPPING, .reason = &reason};
    struct larusqem_reading r;

    if (count != 3) {
        fprintf(stderr, "usage: why FORMAT TEXT\n");
        return 1;
    }
    r = larusqem_strptime_with(words[1], strlen(words[1]), words[2], strlen(words[2]), options);
    printf("%s\n", words[2]);
    if (r.number == LARUSQEM_NONE_AGREES)
        print_quarrel(r.place == 1 ? "day" : "hour", words[2], &reason);
    else if (r.number == LARUSQEM_TWO_AGREE)
        print_missing(r, &reason);
    else
        printf("%s, place %" PRIu32 "\n", larusqem_sentence(r.number), r.place);
    return 0;
}
