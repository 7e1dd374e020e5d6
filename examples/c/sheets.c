/* sheets FORMAT: reads each line by the format, and prints the sheets in the order of their dates, then how many each ISO week has. */
#include <inttypes.h>
#include <stdio.h>
#include <string.h>

#include <larusqem.h>

/* sheets that were read and wait to be added, many by one call, with the number of the line of each */
enum { PAGE = 1000 };
static struct larusqem_sheet sheets[PAGE];
static unsigned lines[PAGE];

static uint64_t words[LARUSQEM_MOST_SHEETS], table[LARUSQEM_WEEKS];

static void leave_out(unsigned line, uint32_t number, uint32_t place)
{
    fprintf(stderr, "sheets: line %u is left out: %s, place %" PRIu32 "\n", line, larusqem_sentence(number), place);
}

/* two digits, or -- where they are unsaid */
static void print_two(char before, uint32_t said, uint32_t number)
{
    if (said)
        printf("%c%02" PRIu32, before, number);
    else
        printf("%c--", before);
}

static void print_sheet(uint64_t word)
{
    struct larusqem_sheet s = larusqem_unpack(word);

    printf("%016" PRIx64 " %04" PRIu32 "-%02" PRIu32 "-%02" PRIu32, word, s.date.year, s.date.month, s.date.day);
    print_two(' ', s.hour_said, s.hour);
    print_two(':', s.minute_said, s.minute);
    print_two(':', s.second_said, s.second);
    if (s.offset_said)
        printf(" offset %" PRId32, s.offset);
    printf("\n");
}

/* adds them all; where a call ends at a sheet that is refused, those after it by another */
static void add_page(struct larusqem_list *list, size_t count)
{
    size_t at = 0;

    while (at < count) {
        struct larusqem_added added = larusqem_add_sheets(list, sheets + at, count - at);

        at += added.index;
        if (added.number != LARUSQEM_DONE)
            leave_out(lines[at++], added.number, added.place);
    }
}

int main(int count, char **arguments)
{
    struct larusqem_list list = {words, LARUSQEM_MOST_SHEETS, table, LARUSQEM_WEEKS, 0, 0};
    char text[LARUSQEM_LONGEST + 3];
    size_t waiting = 0;

    if (count != 2) {
        fprintf(stderr, "usage: sheets FORMAT\n");
        return 1;
    }
    for (unsigned line = 1; fgets(text, sizeof text, stdin); line++) {
        size_t length = strcspn(text, "\n");
        struct larusqem_reading r = larusqem_strptime(arguments[1], strlen(arguments[1]), text, length);

        if (r.number == LARUSQEM_DONE) {
            sheets[waiting] = larusqem_sheet_of(r);
            lines[waiting++] = line;
        } else {
            leave_out(line, r.number, r.place);
        }
        if (waiting == PAGE) {
            add_page(&list, waiting);
            waiting = 0;
        }
        /* of a line that is too long, the rest */
        while (length == sizeof text - 1 && fgets(text, sizeof text, stdin))
            length = strcspn(text, "\n");
    }
    add_page(&list, waiting);
    for (uint32_t i = 0; i < list.sheet_count; i++)
        print_sheet(list.words[i]);
    for (uint32_t i = 0; i < list.week_count; i++) {
        struct larusqem_week week = larusqem_week_of(list.table[i]);

        printf("%04" PRIu32 "-W%02" PRIu32 " %" PRIu64 "\n", week.year, week.week, week.sheets);
    }
    return 0;
}
