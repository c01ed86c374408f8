"""Instants in time zones: the rules of POSIX for the variable `TZ`, read plainly.

A rule is `std offset`, or `std offset dst [offset],start[/time],end[/time]`. What POSIX leaves open is not read here, and
no case may have it: a daylight saving time without dates, and changes that meet or leave their year."""
import datetime
import re
from functools import lru_cache

from model.faults import Fault
from model.tables import Moment

LAST_INSTANT = 253402207200
HOUR = 3600
DAY = 24 * HOUR

NAME = r"(?:[A-Za-z]{3,}|<[A-Za-z0-9+-]{3,}>)"
CLOCK = r"[+-]?[0-9]+(?::[0-9]{2}){0,2}"
CHANGE = r"([JM]?[0-9.]+)(?:/(%s))?" % CLOCK
RULE = re.compile(r"%s(%s)(?:%s(%s)?,%s,%s)?" % (NAME, CLOCK, NAME, CLOCK, CHANGE, CHANGE))


def instant(seconds, rule):
    """The moment of `--at-unix` in the zone of a rule."""
    if seconds > LAST_INSTANT:
        raise Fault("M1")
    seconds += shift(seconds, zone(rule))
    return Moment((seconds // DAY + 3) % 7, seconds % DAY // 60)


@lru_cache(None)
def zone(rule):
    """The seconds east of UTC, those of daylight saving time, and its start and end, as days and seconds."""
    parts = RULE.fullmatch(rule.decode())
    if not parts:
        raise Fault("M2")
    west, west_in_summer, start, start_clock, end, end_clock = parts.groups()
    east = -clock(west, 24)
    if start is None:
        return east, east, None, None
    summer = east + HOUR if west_in_summer is None else -clock(west_in_summer, 24)
    return east, summer, (day(start), clock(start_clock or "2", 167)), (day(end), clock(end_clock or "2", 167))


def clock(text, most_hours):
    """The seconds of `[+|-]hh[:mm[:ss]]`."""
    hours, minutes, seconds = [int(part) for part in (text.lstrip("+-") + ":0:0").split(":")[:3]]
    if hours > most_hours or minutes > 59 or seconds > 59:
        raise Fault("M2")
    seconds += 60 * minutes + HOUR * hours
    return -seconds if text.startswith("-") else seconds


def day(text):
    """The numbers of a day of the year, with the letter `J` or `M` before them where there is one."""
    letter = text[0] if text[0] in "JM" else ""
    numbers = text.removeprefix(letter).split(".")
    ranges = {"J": [(1, 365)], "": [(0, 365)], "M": [(1, 12), (1, 5), (0, 6)]}[letter]
    if len(numbers) != len(ranges) or "" in numbers:
        raise Fault("M2")
    numbers = [int(number) for number in numbers]
    if not all(least <= number <= most for number, (least, most) in zip(numbers, ranges)):
        raise Fault("M2")
    return letter, numbers


def day_in(year, letter, numbers):
    """The day in a year. `Jn` never counts 29 February; `n` counts from 0; `Mm.w.d` is a weekday, Sunday being 0, the
    first of its name in the month for the week 1 and the last one for 5."""
    if letter == "J":
        return (datetime.date(2001, 1, 1) + datetime.timedelta(numbers[0] - 1)).replace(year=year)
    if letter == "":
        return datetime.date(year, 1, 1) + datetime.timedelta(numbers[0])
    month, week, weekday = numbers
    days = [datetime.date(year, month, 1) + datetime.timedelta(number) for number in range(31)]
    days = [each for each in days if each.month == month and each.isoweekday() % 7 == weekday]
    return days[-1 if week == 5 else week - 1]


def shift(seconds, zone_read):
    """The seconds east of UTC at an instant: those after the last change, which is in its year or in the year before."""
    east, summer, start, end = zone_read
    if start is None:
        return east
    year = datetime.date.fromordinal(datetime.date(1970, 1, 1).toordinal() + seconds // DAY).year
    starts, ends = (utc(year, change, before) for change, before in ((start, east), (end, summer)))
    changes = sorted([(starts, summer), (ends, east)])
    past = [after for at, after in changes if at <= seconds]
    return past[-1] if past else changes[-1][1]


def utc(year, change, east):
    """The instant of a change in a year, by a clock that is so many seconds east of UTC."""
    (letter, numbers), seconds = change
    days = day_in(year, letter, numbers).toordinal() - datetime.date(1970, 1, 1).toordinal()
    return days * DAY + seconds - east
