/* seconds FORMAT: writes before each line that it reads, by a format with %z, the seconds from 1970-01-01 00:00:00 UTC to what it says. */
#include <inttypes.h>
#include <stdio.h>
#include <string.h>

#include <larusqem.h>

static int refuse(unsigned line, const char *why, uint32_t place)
{
    fprintf(stderr, "seconds: line %u: %s, place %" PRIu32 "\n", line, why, place);
    return 1;
}

int main(int count, char **words)
{
    char text[LARUSQEM_LONGEST + 3], out[12];

    if (count != 2) {
        fprintf(stderr, "usage: seconds FORMAT\n");
        return 1;
    }
    for (unsigned line = 1; fgets(text, sizeof text, stdin); line++) {
        size_t length = strcspn(text, "\n");
        struct larusqem_reading r = larusqem_strptime(words[1], strlen(words[1]), text, length);
        struct larusqem_moment moment = {{r.year, r.month, r.day}, r.hour, r.minute, r.second, r.offset_said, r.offset};
        struct larusqem_answer written;

        if (r.number != LARUSQEM_DONE)
            return refuse(line, larusqem_sentence(r.number), r.place);
        if (r.place != length || !r.hour_said || !r.minute_said)
            return refuse(line, "no whole reading with an hour and a minute", r.place);
        /* a second that is not said is 0, the minute's first; no day is 2, and no zone offset is 12 */
        written = larusqem_strftime("%s", 2, moment, out, sizeof out);
        if (written.number != LARUSQEM_DONE)
            return refuse(line, larusqem_sentence(written.number), written.place);
        printf("%.*s %.*s\n", (int)written.place, out, (int)length, text);
    }
    return 0;
}
