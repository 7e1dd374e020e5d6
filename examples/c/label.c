/* label FORMAT: writes each date that it reads, YYYY-MM-DD, by the format, in which flags and widths make columns. */
#include <inttypes.h>
#include <stdio.h>
#include <string.h>

#include <larusqem.h>

int main(int count, char **words)
{
    static char out[LARUSQEM_WIDEST];
    struct larusqem_moment day = {{0, 0, 0}, 0, 0, 0, 0, 0};

    if (count != 2) {
        fprintf(stderr, "usage: label FORMAT\n");
        return 1;
    }
    while (scanf("%" SCNu32 "-%" SCNu32 "-%" SCNu32, &day.date.year, &day.date.month, &day.date.day) == 3) {
        struct larusqem_answer written = larusqem_strftime(words[1], strlen(words[1]), day, out, sizeof out);

        if (written.number != LARUSQEM_DONE) {
            fprintf(stderr, "label: %s, place %" PRIu32 "\n", larusqem_sentence(written.number), written.place);
            return 1;
        }
        fwrite(out, 1, written.place, stdout);
        putchar('\n');
    }
    if (!feof(stdin)) {
        fprintf(stderr, "label: what follows is no date\n");
        return 1;
    }
    return 0;
}
