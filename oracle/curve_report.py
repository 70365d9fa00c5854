#!/usr/bin/env python3
"""An independent calculation of what curve_report writes, from the time zone database.

    python3 oracle/curve_report.py make > crates/curve_report/stdin
    python3 oracle/curve_report.py < crates/curve_report/stdin > crates/curve_report/stdout

Only for files that are accepted. Clock days and their hours come from Europe/Madrid and not from the program's rules.
"""
import sys
from datetime import datetime, timedelta, timezone
from zoneinfo import ZoneInfo

MADRID = ZoneInfo("Europe/Madrid")
START = datetime(1999, 12, 31, 23, tzinfo=timezone.utc)  # 2000/01/01 00:00 winter time


def end_of(hour):
    return (START + timedelta(hours=hour)).astimezone(MADRID)


def begin_of(hour):
    return (START + timedelta(hours=hour - 1)).astimezone(MADRID)


def flag(hour):
    return 1 if end_of(hour).utcoffset() == timedelta(hours=2) else 0


def label(hour):
    return end_of(hour).strftime("%Y/%m/%d %H:%M")


def clock_day(hour):
    """The day in which the clock shows the hour: that of its beginning."""
    return begin_of(hour).date()


def hours_of(day):
    first = datetime(day.year, day.month, day.day, tzinfo=MADRID).astimezone(timezone.utc)
    hour = round((first - START).total_seconds() / 3600) + 1
    hours = []
    while hour <= 876_599 and clock_day(hour) == day:
        hours.append(hour)
        hour += 1
    return hours


def line(supply, hour, wh, method, firm, invoice):
    return f"{supply};{label(hour)};{flag(hour)};{wh};;;;;;{method};{firm};{invoice};"


def hour_of(text, season):
    naive = datetime.strptime(text, "%Y/%m/%d %H:%M")
    utc = naive - timedelta(hours=1 + int(season))
    return round((utc.replace(tzinfo=timezone.utc) - START).total_seconds() / 3600)


def make():
    one, two, three, four = (f"ES{n:016d}TR0F" for n in (1, 24, 300, 4))
    for hour, wh, method in ((217584, 500, 1), (217585, 600, 2), (217586, 700, 1), (217587, 1200, 2)):
        print(line(one, hour, wh, method, 1, "F0001"))
    # the days of both changes of 2024, whole, and the last hours of the years 2099
    for hour in range(212544 - 25, 212544 + 25):
        print(line(three, hour, hour % 997, hour % 6 + 1, hour % 2, "A/2024-03_31.x"))
    for hour in range(217560, 217612):
        if hour % 7:
            print(line(two, hour, 9_999_999_999 if hour % 3 == 0 else hour, (hour // 5) % 6 + 1, 0, "!~" + "Z" * 24))
    for hour in (1, 2, 24, 25, 100_000, 876_576, 876_598, 876_599):
        print(line(four, hour, 0, 3, 1, "7"))


def report(lines):
    supplies = []
    for text in lines:
        a, b, c, d, *_, j, _k, _l, _end = text.split(";")
        if not supplies or supplies[-1][0] != a:
            supplies.append((a, {}))
        supplies[-1][1][hour_of(b, c)] = (int(d), int(j))
    for supply, hours in supplies:
        counts = [sum(1 for _, m in hours.values() if m == n) for n in range(1, 7)]
        print(supply, len(hours), sum(w for w, _ in hours.values()), *counts, sep=";", end=";\n")
        for day in sorted({clock_day(h) for h in hours}):
            signs = "".join(str(hours[h][1]) if h in hours else "." for h in hours_of(day))
            print(f"  {day:%Y/%m/%d} {signs}")


if __name__ == "__main__":
    if sys.argv[1:] == ["make"]:
        make()
    else:
        report(sys.stdin.read().splitlines())
