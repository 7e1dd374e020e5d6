/* Writes and reads dates with Larusqem. After `make install` and `ldconfig`:
   cc -std=c99 example.c $(pkg-config --cflags --libs larusqem) -o example && ./example
   After `make install PREFIX=/p`, with PKG_CONFIG_PATH=/p/lib/pkgconfig in the environment and -Wl,-rpath,/p/lib on the line. */
#include <inttypes.h>
#include <stdio.h>
#include <string.h>

#include <larusqem.h>

static void print_date(uint32_t year, uint32_t month, uint32_t day)
{
    printf(" %04" PRIu32 "-%02" PRIu32 "-%02" PRIu32, year, month, day);
}

static void print_refusal(uint32_t number, uint32_t place)
{
    printf("%s (number %" PRIu32 ", place %" PRIu32 ")", larusqem_sentence(number), number, place);
}

static void write_one(const char *format, struct larusqem_moment moment, size_t room)
{
    char out[64];
    struct larusqem_answer written = larusqem_strftime(format, strlen(format), moment, out, room);

    printf("write by \"%s\": ", format);
    if (written.number == LARUSQEM_DONE)
        printf("\"%.*s\"", (int)written.place, out);
    else
        print_refusal(written.number, written.place);
    printf("\n");
}

/* in which form a name stood: old records have "Sept", "Tues", "Thur" and "Thurs" */
static void print_form(const char *name, uint32_t form)
{
    static const char *const forms[] = {"full", "middle", "short"};

    if (form != LARUSQEM_NO_NAME)
        printf(", %s %s", name, forms[form - LARUSQEM_FULL_NAME]);
}

static void print_reading(const char *text, struct larusqem_reading r)
{
    printf("read \"%s\":", text);
    switch (r.number) {
    case LARUSQEM_DONE:
        if (r.year != 0)
            print_date(r.year, r.month, r.day);
        if (r.hour_said)
            printf(" hour %" PRIu32, r.hour);
        if (r.minute_said)
            printf(" minute %" PRIu32, r.minute);
        if (r.second_said)
            printf(" second %" PRIu32, r.second);
        if (r.offset_said)
            printf(" offset %" PRId32, r.offset);
        print_form("weekday", r.weekday_form);
        print_form("month", r.month_form);
        if (r.place < strlen(text))
            printf(", and \"%s\" is left over", text + r.place);
        break;
    case LARUSQEM_TWO_AGREE:
        if (r.place == 1) {
            print_date(r.year, r.month, r.day);
            printf(" or");
            print_date(r.other_year, r.other_month, r.other_day);
        } else {
            printf(" hour %" PRIu32 " or %" PRIu32, r.hour, r.other_hour);
        }
        printf(", ");
        print_refusal(r.number, r.place);
        break;
    default:
        printf(" ");
        print_refusal(r.number, r.place);
    }
    printf("\n");
}

static void read_one(const char *format, const char *text)
{
    printf("by \"%s\" ", format);
    print_reading(text, larusqem_strptime(format, strlen(format), text, strlen(text)));
}

/* A format is opened once, then used for many lines: how many elements it has, 0 where it is refused. */
static uint32_t open_one(const char *format, enum larusqem_use use, uint32_t elements[LARUSQEM_ELEMENTS])
{
    struct larusqem_answer opened = larusqem_open(format, strlen(format), use, elements, LARUSQEM_ELEMENTS);

    printf("open \"%s\" for %s: ", format, use == LARUSQEM_FOR_WRITING ? "writing" : "reading");
    if (opened.number != LARUSQEM_DONE) {
        print_refusal(opened.number, opened.place);
        printf("\n");
        return 0;
    }
    printf("%" PRIu32 " elements\n", opened.place);
    return opened.place;
}

static void read_list(const char *format, const char *const *texts, size_t count)
{
    static uint32_t elements[LARUSQEM_ELEMENTS];
    uint32_t length = open_one(format, LARUSQEM_FOR_READING, elements);

    for (size_t i = 0; length != 0 && i < count; i++)
        print_reading(texts[i], larusqem_read(elements, length, texts[i], strlen(texts[i])));
}

static void write_labels(const char *format, const struct larusqem_moment *moments, size_t count)
{
    static uint32_t elements[LARUSQEM_ELEMENTS];
    static char out[LARUSQEM_WIDEST];
    uint32_t length = open_one(format, LARUSQEM_FOR_WRITING, elements);

    for (size_t i = 0; length != 0 && i < count; i++) {
        struct larusqem_answer written = larusqem_write(elements, length, moments[i], out, sizeof out);

        if (written.number == LARUSQEM_DONE)
            printf("|%.*s|", (int)written.place, out);
        else
            print_refusal(written.number, written.place);
        printf("\n");
    }
}

int main(void)
{
    static const char *const margins[] = {"5 Mar 1934 07:08", "29 Feb 1900 07:08", "5 mar 34 07:08", "5 Mar 1934 7:8 or later",
                                          "5 Sept 1934 07:08"};
    struct larusqem_moment spring = {{1934, 3, 5}, 7, 8, 9, 0, 0};
    struct larusqem_moment abroad = {{1934, 3, 5}, 7, 8, 9, 1, 90};
    struct larusqem_moment new_year = {{2017, 1, 1}, 0, 0, 0, 0, 0};
    struct larusqem_moment no_day = {{1900, 2, 29}, 0, 0, 0, 0, 0};
    struct larusqem_moment labels[] = {
        {{1934, 3, 5}, 7, 8, 9, 0, 0}, {{1934, 11, 30}, 12, 0, 0, 0, 0}, {{987, 9, 1}, 23, 59, 60, 0, 0}};
    uint32_t number = larusqem_day_number(1934, 3, 5);
    struct larusqem_date next = larusqem_date_of(number + 1);

    write_one("%c", spring, 64);
    write_one("%F is %G-W%V-%u", new_year, 64);
    write_one("%c", spring, 23);
    write_one("%F", no_day, 64);
    write_one("100%", spring, 64);
    write_one("%F %T %z is %s", abroad, 64);
    write_one("%F %T %z is %s", spring, 64);

    read_one("%a %b %e %T %Y", "Mon Mar  5 07:08:09 1934");
    read_one("%G %V %u", "2009 53 5");
    read_one("%d %b", "5 mar");
    read_one("%I:%M", "07:08");
    read_one("%a %d %b %Y", "Tue 5 Mar 1934");
    read_one("%d %e", "5 6");
    read_one("%d %b %Y %H:%M %z", "5 Mar 1934 07:08 -0030");
    read_one("%d %b %Y %H:%M %z", "5 Mar 1934 07:08 +0060");

    read_list("%d %b %Y %H:%M", margins, sizeof margins / sizeof *margins);
    read_list("%d %b %Q", margins, 1);
    read_list("%_3d%^11B%_6Y", margins, 1);
    write_labels("%_3d%^11B%_6Y", labels, sizeof labels / sizeof *labels);
    write_labels("%-d.%-m.%-Y, %-I %^P", labels, sizeof labels / sizeof *labels);
    write_labels("%d %5c", labels, 1);

    printf("1934-03-05 is day %" PRIu32 " of the calendar and %" PRIu32 " of its year,", number, larusqem_day_of_year(1934, 3, 5));
    printf(" weekday %" PRIu32 " of week %" PRIu32, larusqem_weekday(1934, 3, 5), larusqem_iso_week(1934, 3, 5));
    printf(" of %" PRIu32 "; the next day is", larusqem_iso_year(1934, 3, 5));
    print_date(next.year, next.month, next.day);
    printf("\n");
    return 0;
}
