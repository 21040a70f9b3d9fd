"""The polygon of a SURFACE object from its lines: rings that pass no place twice, the outer one first."""
from collections import defaultdict

from itftools.shapes.faces import doubled, simple


def rings_of_lines(lines):
    """The rings of some polylines; None where these do not close.

    They are gone along from end to end, and parted where a place is passed twice. Of lines that are the
    boundary of one region, as those of an object of a SURFACE that is proved, the greatest ring is the outer
    one. It turns left, the others right.
    """
    parts = [part for way in closed_ways(lines) for part in simple(way) if len(set(part)) > 2] if lines else []
    if not parts or any(count % 2 for count in ends_of(lines).values()):
        return None
    parts.sort(key=lambda part: -abs(doubled(part)))
    return [part if (doubled(part) > 0) == (number == 0) else part[::-1] for number, part in enumerate(parts)]


def ends_of(lines):
    """How many lines end at each place."""
    counts = defaultdict(int)
    for line in lines:
        counts[line[0]] += 1
        counts[line[-1]] += 1
    return counts


def closed_ways(lines):
    """Ways over all lines, each line once, each way back to its start; without the last place."""
    leaving, taken = defaultdict(list), set()
    for number, line in enumerate(lines):
        leaving[line[0]].append((number, line))
        leaving[line[-1]].append((number, line[::-1]))
    for number, line in enumerate(lines):
        if number in taken:
            continue
        taken.add(number)
        way = list(line)
        while way[-1] != way[0]:
            free = [(other, its) for other, its in leaving[way[-1]] if other not in taken]
            if not free:
                break
            taken.add(free[0][0])
            way += free[0][1][1:]
        yield way[:-1] if way[-1] == way[0] else way
