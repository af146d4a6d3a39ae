"""Draws the numbers of a series as a chart of bars with axes, in SVG that stands in the page and has its colours."""
from __future__ import annotations

from fractions import Fraction
from typing import Iterator

from show_replies import Number, count, number

WIDTH, HEIGHT = 720, 160
LEFT, RIGHT, TOP, FLOOR = 76, 712, 12, 122  # where the axes stand
LABELS = 12  # how many buckets have their numbers below them at most


def place(at: float) -> str:
    """A place or a length, to a hundredth."""
    return f"{at:.2f}".rstrip("0").rstrip(".")


def height(value: Number, whole: Fraction) -> float:
    """How tall the bar of a value is. Of each value above 0 something is seen."""
    return max(float(value / whole) * (FLOOR - TOP), 1.0) if value else 0.0


def levels(whole: Fraction) -> list[Fraction]:
    """The numbers on the upright axis: none, half and the greatest. Half of an odd one isn't told."""
    is_odd = whole.denominator == 1 and whole.numerator % 2 == 1
    return [Fraction(0), whole] if is_odd else [Fraction(0), whole / 2, whole]


def labelled(buckets: int) -> list[int]:
    """The buckets that have their numbers below them: the first, and then those that a round step divides."""
    step = next(size * 10**power for power in range(40) for size in (1, 2, 5) if size * 10**power * LABELS >= buckets)
    return [1, *(bucket for bucket in range(step, buckets + 1, step) if bucket > 1)]


def chart(numbers: list[Number], whole: Fraction) -> Iterator[str]:
    """A chart of the numbers, one for each bucket, scaled so that `whole` is at the top."""
    slot = (RIGHT - LEFT) / len(numbers)
    gap = slot / 5 if slot > 5 else 0.0
    most = max(numbers)
    told = f"{count(len(numbers), 'bucket')}, the most {number(most)} in bucket {numbers.index(most) + 1:,}"
    yield f'<svg class="chart" viewBox="0 0 {WIDTH} {HEIGHT}" role="img" aria-label="{told}">'
    for level in levels(whole):
        y = FLOOR - height(level, whole)
        yield f'<path d="M{LEFT} {place(y)}H{RIGHT}"/>'
        yield f'<text class="level" x="{LEFT - 8}" y="{place(y + 4)}">{number(level)}</text>'
    for at, value in enumerate(numbers):
        if value:
            x, tall = LEFT + at * slot + gap / 2, height(value, whole)
            yield (f'<rect x="{place(x)}" y="{place(FLOOR - tall)}" width="{place(slot - gap)}" height="{place(tall)}">'
                   f"<title>bucket {at + 1:,}: {number(value)}</title></rect>")
    yield f'<path class="axis" d="M{LEFT} {TOP}V{FLOOR}H{RIGHT}"/>'
    for bucket in labelled(len(numbers)):
        yield f'<text x="{place(LEFT + (bucket - 0.5) * slot)}" y="{FLOOR + 17}">{bucket:,}</text>'
    yield f'<text x="{(LEFT + RIGHT) // 2}" y="{FLOOR + 34}">bucket</text></svg>'
