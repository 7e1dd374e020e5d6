/* kiosk BUDGET FORMAT TEXT: reads a text within a budget of days and, where that is too small, by the skipping engine. */
#include <inttypes.h>
#include <stdio.h>
#include <string.h>

#include <larusqem.h>

static void print_reading(const char *how, struct larusqem_reading r)
{
    printf("%s: ", how);
    if (r.number != LARUSQEM_DONE)
        printf("%s", larusqem_sentence(r.number));
    else if (r.year == 0)
        printf("no day is said");
    else
        printf("%04" PRIu32 "-%02" PRIu32 "-%02" PRIu32, r.year, r.month, r.day);
    printf(" (days examined: %" PRIu32 ")\n", r.examined);
}

int main(int count, char **words)
{
    struct larusqem_options within = {.engine = LARUSQEM_WITHIN};
    struct larusqem_reading r;

    if (count != 4 || sscanf(words[1], "%" SCNu32, &within.budget) != 1) {
        fprintf(stderr, "usage: kiosk BUDGET FORMAT TEXT\n");
        return 1;
    }
    r = larusqem_strptime_with(words[2], strlen(words[2]), words[3], strlen(words[3]), within);
    print_reading("within the budget", r);
    if (r.number == LARUSQEM_OVER_BUDGET)
        print_reading("by the skipping engine", larusqem_strptime(words[2], strlen(words[2]), words[3], strlen(words[3])));
    return 0;
}
