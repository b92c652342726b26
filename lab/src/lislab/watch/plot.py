"""A plot of counts over time as SVG inside a page: a bar for each span of time, with its number in words."""
import bisect
import datetime
import time
from typing import List, NamedTuple, Sequence

#: The size of a plot, and where its bars are in it; seconds of an hour.
WIDTH, HEIGHT, LEFT, FOOT, HOUR = 720, 140, 44, 22, 3600.0


class Bar(NamedTuple):
    """A span of time that begins at `at`, and how much was in it."""

    at: float
    many: int


def hours(now: float, count: int) -> List[float]:
    """When each of the last hours began."""
    return [now - now % HOUR - back * HOUR for back in reversed(range(count))]


def days(now: float, count: int) -> List[float]:
    """When each of the last days began, by the clock on the wall."""
    today = datetime.date.fromtimestamp(now)
    return [time.mktime((today - datetime.timedelta(back)).timetuple()) for back in reversed(range(count))]


def bars(times: Sequence["tuple[float, int]"], starts: Sequence[float]) -> List[Bar]:
    """Bars that begin at these times, each up to the next one, with the sums of what is in them."""
    counts = [0] * len(starts)
    for at, number in times:
        place = bisect.bisect(starts, at) - 1
        if place >= 0:
            counts[place] += number
    return [Bar(at, many) for at, many in zip(starts, counts)]


def svg(label: str, shown: Sequence[Bar], form: str) -> str:
    """The plot; `form` formats a bar's time. No text in it comes from a line."""
    most = max([one.many for one in shown] + [1])
    room, wide = HEIGHT - FOOT - 8, (WIDTH - LEFT) / max(len(shown), 1)
    parts = []
    for place, one in enumerate(shown):
        high = one.many / most * room
        x, y = LEFT + place * wide, HEIGHT - FOOT - high
        name = f"{time.strftime(form, time.localtime(one.at))}: {one.many}"
        parts.append(
            f'<g><title>{name}</title><rect class="slot" x="{x:.1f}" y="8" width="{wide:.1f}" height="{room}"/>'
            f'<rect class="bar" x="{x + 1:.1f}" y="{y:.1f}" width="{max(wide - 2, 1):.1f}" height="{high:.1f}"/></g>'
        )
    every = max(1, len(shown) // 6)
    for place in range(0, len(shown), every):
        when = time.strftime(form, time.localtime(shown[place].at))
        is_last = place + 1 == len(shown)
        x, side = (WIDTH, ' text-anchor="end"') if is_last else (LEFT + place * wide, "")
        parts.append(f'<text x="{x:.1f}" y="{HEIGHT - 6}"{side}>{when}</text>')
    total = sum(one.many for one in shown)
    return (
        f'<svg class="plot" viewBox="0 0 {WIDTH} {HEIGHT}" role="img" aria-label="{label}: {total} in all, '
        f'{most if total else 0} at most"><text x="{LEFT - 6}" y="16" text-anchor="end">{most if total else 0}</text>'
        f'<text x="{LEFT - 6}" y="{HEIGHT - FOOT}" text-anchor="end">0</text>{"".join(parts)}'
        f'<line x1="{LEFT}" y1="{HEIGHT - FOOT}" x2="{WIDTH}" y2="{HEIGHT - FOOT}"/></svg>'
    )
