#!/usr/bin/env python3
"""What tariff_day should write, worked out independently: dates and clock changes from Python's datetime
and the time zone database (Europe/Madrid), the tariff periods from their rules in docs/TIME_AND_TARIFFS.md.

    tariff_day.py [HOLIDAY ...] < dates        the lines that tariff_day writes
    tariff_day.py --all-dates                  every date from 2000/01/01 to 2099/12/31
    tariff_day.py --digest                     the sum that the test of official_time compares
"""
import datetime as dt
import re
import sys
import zoneinfo

MADRID = zoneinfo.ZoneInfo("Europe/Madrid")
START = dt.datetime(1999, 12, 31, 23, tzinfo=dt.timezone.utc)  # 2000/01/01 00:00 winter time
LAST_HOUR = 876_599
DAY_0 = dt.date(2000, 1, 1)


def local(instant):
    """Local clock time at an instant, and whether it is summer time."""
    here = instant.astimezone(MADRID)
    return here.replace(tzinfo=None), int(bool(here.dst()))


def hours():
    """Each hour: its number, the label's date and hour, the flag, and the day and place on the clock."""
    for h in range(1, LAST_HOUR + 1):
        end, flag = local(START + dt.timedelta(hours=h))
        # The clock shows the hour in the day in which its last instant lies.
        inside = end - dt.timedelta(seconds=1)
        yield h, end, flag, inside.date(), inside.hour + 1


def periods(flag, day, place, holidays):
    dha = 1 if (13 <= place <= 22 if flag == 0 else 14 <= place <= 23) else 2
    free = day.weekday() >= 5 or (day.month, day.day) == (1, 6) or (day - DAY_0).days in holidays
    if free or place <= 8:
        td = 3
    elif 11 <= place <= 14 or 19 <= place <= 22:
        td = 1
    else:
        td = 2
    return 1, dha, td


def by_day():
    days = {}
    for h, end, flag, day, place in hours():
        days.setdefault(day, []).append((h, end, flag, day, place))
    return days


def parse(line):
    m = re.fullmatch(rb"(\d{4})/(\d{2})/(\d{2})", line)
    try:
        day = dt.date(*map(int, m.groups())) if m else None
    except ValueError:
        day = None
    return day if day and 2000 <= day.year <= 2099 else None


def main(argv):
    if argv == ["--all-dates"]:
        for n in range(36_525):
            print((DAY_0 + dt.timedelta(days=n)).strftime("%Y/%m/%d"))
        return
    if argv == ["--digest"]:
        digest = 0
        for h, end, flag, day, place in hours():
            for part in (end.year, end.month, end.day, end.hour, flag, (day - DAY_0).days, place):
                digest = (digest * 1_000_003 + part) % 2**64
        print(digest)
        return
    holidays = []
    for word in argv:
        if not word.isdigit() or int(word) >= 36_525:
            print("16;0;-;")
        elif len(holidays) == 16:
            print("12;0;-;")
        else:
            holidays.append(int(word))
    days = by_day()
    data = sys.stdin.buffer.read()
    lines = data.split(b"\n")
    if lines and lines[-1] == b"":
        lines.pop()
    for line in lines:
        day = parse(line)
        if day is None:
            print("16;0;-;")
            continue
        for h, end, flag, clock_day, place in days[day]:
            a, b, c = periods(flag, clock_day, place, holidays)
            print(f"{h};{end:%Y/%m/%d %H:%M};{flag};{a};{b};{c}")


main(sys.argv[1:])
