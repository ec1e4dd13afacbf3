"""Moments of traces, in milliseconds: those of a server and of a capture count from 1970, those
that are written by hand mostly from 0."""
import argparse
import datetime

from .texts import quantity

EPOCH = 100_000_000_000  # a moment from here on, in 1973, is one of our days
LAST = 253_402_300_800_000  # 10000-01-01, from which on no calendar of Python counts


FORMS = ('%Y-%m-%d', '%Y-%m-%d %H:%M', '%Y-%m-%d %H:%M:%S', '%Y-%m-%d %H:%M:%S.%f')


def moment_of(text: str) -> int:
    """A time for an option: milliseconds as a trace has them, or a date, with a time of day here
    or without."""
    if text.isascii() and text.isdigit() and len(text) < 16:
        return int(text)
    for form in FORMS:
        try:
            return round(datetime.datetime.strptime(text, form).timestamp() * 1000)
        except (ValueError, OverflowError):
            continue
    raise argparse.ArgumentTypeError(f'{text[:40]} is no time such as 2026-11-28 10:30, and no '
                                     'number of milliseconds as a trace has it')


def is_clock(moment: int) -> bool:
    """Whether a moment is one of our days."""
    return EPOCH <= moment < LAST - 86_400_000


def date_of(moment: int) -> datetime.datetime:
    """The date and the time of day here."""
    return datetime.datetime.fromtimestamp(moment // 1000, datetime.UTC).astimezone()


def day_text(moment: int) -> str:
    """The date with what the clock here is ahead of UTC."""
    return f'{date_of(moment):%Y-%m-%d} {zone_text(moment)}'


def zone_text(moment: int) -> str:
    """UTC, or how far the clock here is ahead of it or behind it."""
    ahead = f'{date_of(moment):%z}'
    return 'UTC' if ahead == '+0000' else f'UTC{ahead[:3]}:{ahead[3:]}'


def clock_text(moment: int) -> str:
    """The time of day here, to the millisecond."""
    return f'{date_of(moment):%H:%M:%S}.{moment % 1000:03}'


def stamp_text(moment: int) -> str:
    """A moment with its date and what the clock here is ahead of UTC."""
    zone = zone_text(moment).removeprefix('UTC') or 'Z'
    return f'{date_of(moment):%Y-%m-%d} {clock_text(moment)}{zone}'


def moment_text(moment: int) -> str:
    """A moment as it is shown: a time of day, or milliseconds."""
    return clock_text(moment) if is_clock(moment) else f'{moment} ms'


def warnings(moments: list[int], refused: int) -> list[str]:
    """What is to be said of the moments of a trace, of whose lines so many were refused since
    their moments go back."""
    found = []
    clocks = sum(map(is_clock, moments))
    if clocks and clocks < len(moments):
        has = 'has a time that does' if len(moments) - clocks == 1 else 'have times that do'
        found.append(f'{quantity(len(moments) - clocks, "line")} {has} not count from 1970, as '
                     'those of the session do, so values read back have other times than those '
                     'that the server sent')
    if refused:
        was = 'was' if refused == 1 else 'were'
        found.append(f'{quantity(refused, "line")} {was} refused (110) because times go back')
    return [f'{told}; tools/join sorts the lines of traces by time' for told in found]
