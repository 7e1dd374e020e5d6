#!/usr/bin/env python3
"""What the program every_day must write, by Python's datetime module and none of our code.

Made by:   python3 tests/every_day.py > crates/every_day/stdout

One line for each century of years (0 to 99, 100 to 199, .., 9900 to 9999): its last year and a digest of all its days. Of each day the
digest takes eleven values, in this order: year, month, day, day of the year, weekday (Monday 1 to Sunday 7), %U, %W, %G, %g, %V and the
day number. %U and %W are counted, Sunday by Sunday and Monday by Monday, from 1 January on.
"""
import datetime
import sys

M = 4294967291  # prime
P = 2654435761


def days_of(year):
    """The values of every day of a year, in order."""
    day = datetime.date(year, 1, 1).toordinal()
    last = datetime.date(year, 12, 31).toordinal()
    day_of_year = sundays = mondays = 0
    while day <= last:
        date = datetime.date.fromordinal(day)
        weekday = date.weekday() + 1
        day_of_year += 1
        sundays += weekday == 7
        mondays += weekday == 1
        iso_year, iso_week, _ = date.isocalendar()
        yield (date.year, date.month, date.day, day_of_year, weekday, sundays, mondays,
               iso_year, iso_year % 100, iso_week, date.toordinal())
        day += 1


def main():
    days = 0
    for century in range(100):
        digest = 0
        for year in range(max(100 * century, 1), 100 * century + 100):
            for values in days_of(year):
                days += 1
                for value in values:
                    digest = (digest * P + value) % M
        print("%04d %010d" % (100 * century + 99, digest))
    assert days == datetime.date.max.toordinal() == 3652059


if __name__ == "__main__":
    if len(sys.argv) != 1:
        sys.exit("usage: python3 tests/every_day.py")
    main()
