"""01, "The calendar everyone agrees on": days counted from 1970-01-01, by a walk and by a formula."""

from bisect import bisect_right

COMMON = (31, 28, 31, 30, 31, 30, 31, 31, 30, 31, 30, 31)
LEAP = (31, 29, 31, 30, 31, 30, 31, 31, 30, 31, 30, 31)
CYCLE_YEARS, CYCLE_DAYS = 400, 146_097


def month_lengths(year):
    return LEAP if year % 4 == 0 and (year % 100 != 0 or year % 400 == 0) else COMMON


def next_day(year, month, day):
    if day < month_lengths(year)[month - 1]:
        return year, month, day + 1
    return (year, month + 1, 1) if month < 12 else (year + 1, 1, 1)


def previous_day(year, month, day):
    if day > 1:
        return year, month, day - 1
    year, month = (year, month - 1) if month > 1 else (year - 1, 12)
    return year, month, month_lengths(year)[month - 1]


def walk_months():
    """The first day of each month of the 400 years from 1970 on, by month lengths alone."""
    starts, months, day = [], [], 0
    for year in range(1970, 1970 + CYCLE_YEARS):
        for month, length in enumerate(month_lengths(year), 1):
            starts.append(day)
            months.append((year, month))
            day += length
    assert day == CYCLE_DAYS
    return starts, months


STARTS, MONTHS = walk_months()


def date_of(count):
    """The date a number of days from 1970-01-01: whole cycles, then the walk by months."""
    cycle, rest = divmod(count, CYCLE_DAYS)
    place = bisect_right(STARTS, rest) - 1
    year, month = MONTHS[place]
    date = (year + CYCLE_YEARS * cycle, month, rest - STARTS[place] + 1)
    assert closed_count(*date) == count
    return date


def closed_count(year, month, day):
    """The days from 1970-01-01 to a date, by a closed formula; its year begins in March."""
    shifted, years = (month - 3) % 12, year - (month < 3)
    leap_days = years // 4 - years // 100 + years // 400
    return 365 * years + leap_days + (153 * shifted + 2) // 5 + day - 1 - 719_468


def moment(seconds):
    """The calendar moment at seconds from 1970-01-01 00:00:00."""
    days, rest = divmod(seconds, 86_400)
    return (*date_of(days), rest // 3600, rest // 60 % 60, rest % 60)


def check():
    """Two cycles forward and three back, day by day, against the months and the formula."""
    for step, days in ((next_day, 2 * CYCLE_DAYS), (previous_day, 3 * CYCLE_DAYS)):
        date, way = (1970, 1, 1), 1 if step is next_day else -1
        for count in range(0, way * days, way):
            assert date == date_of(count) and closed_count(*date) == count
            date = step(*date)
        assert date == (1970 + way * days // CYCLE_DAYS * CYCLE_YEARS, 1, 1)
    assert closed_count(0, 1, 1) == -719_528
    print(f"{5 * CYCLE_DAYS} days walked, the months and the closed formula agree")
