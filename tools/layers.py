#!/usr/bin/env python3
"""Makes docs/layers.svg, the picture of the crates and what they rest on, and the table of crates in docs/PROOFS.md.

    tools/layers.py            write both; the seconds in the table stay, since they are written by hand
    tools/layers.py --check    fail if one of them is not what is made today
"""
import re
import sys
from html import escape
from itertools import accumulate
from math import floor, inf
from pathlib import Path
from statistics import fmean
from textwrap import wrap

ROOT = Path(__file__).resolve().parent.parent
PICTURE = ROOT / 'docs' / 'layers.svg'
PAGE = ROOT / 'docs' / 'PROOFS.md'
TABLE = re.compile(r'(<!-- the table of crates, by tools/layers.py -->\n).*?(<!-- its end -->)', re.DOTALL)
FUNCTION = re.compile(r'^\s*(?:pub(?:\(crate\))? )?(?:extern "C" )?fn ', re.MULTILINE)


# ---- crates

def listed():
    """What each crate depends on, by crates.txt."""
    lines = (line.split('#')[0] for line in (ROOT / 'crates.txt').read_text(encoding='utf-8').splitlines())
    return {name.split()[0]: needs.split() for name, _, needs in (line.partition(':') for line in lines if ':' in line)}


def reduced(crates):
    """What each crate depends on, without the kit's crates and without what another of these depends on."""
    below, rests = {}, {}
    for name, needs in crates.items():  # lowest layer first
        own = [d for d in needs if d in crates]
        below[name] = set(own).union(*(below[d] for d in own))
        rests[name] = [d for d in own if not any(d in below[other] for other in own)]
    return rests


def levels(rests):
    level = {}
    for name in rests:  # lowest layer first
        level[name] = 1 + max((level[d] for d in rests[name]), default=-1)
    return level


def kind(name, needs):
    if name == 'vector_io' or 'vector_io' in needs:
        return 'test'
    return 'program' if name == 'program' or 'program' in needs else 'library'


# ---- the table

def files(name, part, ending):
    return [path.read_text(encoding='utf-8') for path in sorted((ROOT / 'crates' / name / part).rglob(f'*.{ending}'))]


def row(name):
    """Lines of code, definitions and proofs; functions; must-fail edits."""
    code = files(name, 'src', 'rt')
    lines = [sum(text.count('\n') for text in texts) for texts in (code, files(name, 'specs', 'antt'), files(name, 'proofs', 'antt'))]
    return [*lines, sum(len(FUNCTION.findall(text)) for text in code), len(files(name, 'must-fail', 'edit'))]


def seconds(name, page):
    """The seconds of a crate's check, as the page has them."""
    found = re.search(rf'^\| `{name}` \|.* (\d*) \|$', page, re.MULTILINE)
    return found[1] if found else ''


def with_table(page, crates):
    rows = {name: row(name) for name in crates}
    lines = ['| crate | code | definitions | proofs | functions | must-fail edits | check, s |', '|---|--:|--:|--:|--:|--:|--:|']
    lines += [f'| `{name}` | {" | ".join(map(str, rows[name]))} | {seconds(name, page)} |' for name in crates]
    lines += [f'| all | {" | ".join(str(sum(column)) for column in zip(*rows.values()))} | |']
    return TABLE.sub(lambda found: found[1] + '\n' + '\n'.join(lines) + '\n\n' + found[2], page)


# ---- the picture
#
# A place is a crate or, as a pair of crates, an arrow on its way through a row.

WIDE, NARROW, HIGH, APART, BETWEEN = 164, 16, 74, 22, 58
SHADES = {'library': ('#eaf1fb', '#3b6ea8'), 'program': ('#fdebd3', '#b9770e'), 'test': ('#eeeeee', '#777777')}


def captions():
    """The first clause of what README.md's map says of each crate."""
    readme = (ROOT / 'README.md').read_text(encoding='utf-8')
    said = re.findall(r'^\| \[`(\w+)`\]\(crates/\w+\) \| ([^|]*) \|$', readme, re.MULTILINE)
    return {name: re.split(r'[;:]', text.replace('`', ''))[0].strip() for name, text in said}


def rows_and_steps(rests, level):
    """The places of each level, and the steps from a place to one of the level below."""
    rows = [[name for name in rests if level[name] == n] for n in range(max(level.values()) + 1)]
    steps = []
    for name, needs in rests.items():
        for need in needs:
            way = [name, *[(name, need)] * (level[name] - level[need] - 1), need]
            for n in range(level[name] - 1, level[need], -1):
                rows[n].append((name, need))
            steps += [(level[name] - i, way[i], way[i + 1]) for i in range(len(way) - 1)]
    return rows, steps


def joined(rows, steps):
    """What each place of each row is joined to below and above, each as the number of a row and a place of it."""
    near = [{place: ([], []) for place in order} for order in rows]
    for n, a, b in steps:
        near[n][a][0].append((n - 1, b))
        near[n - 1][b][1].append((n, a))
    return near


# The order of a row is held as a number from 0 to 1 for each place, rising from left to right.

def numbered(order):
    return {place: (i + .5) / len(order) for i, place in enumerate(order)}


def crossings(at, near):
    """How often steps cross."""
    total = 0
    for places, ends in zip(at, near):
        lower = [x for place in places for x in sorted(at[m][b] for m, b in ends[place][0])]
        total += sum(lower[i] > x for j, x in enumerate(lower) for i in range(j))
    return total


def excess(at, first, second):
    """How many more crossings two places of a row have in this order than in the other; given is what they are joined to."""
    return sum((at[m][a] > at[m][b]) - (at[m][a] < at[m][b])
               for ends, others in zip(first, second) for m, a in ends for _, b in others)


def swept(at, near, side):
    """Each row sorted by the means of what its places are joined to: by the row below, upwards, or above, downwards."""
    at = list(at)
    for n in reversed(range(len(at))) if side else range(len(at)):
        means = {place: fmean([at[m][end] for m, end in near[n][place][side]] or [x]) for place, x in at[n].items()}
        at[n] = numbered(sorted(at[n], key=means.get))
    return at


def sifted(at, near):
    """Each place in turn moved to where in its row its steps cross least, until none moves."""
    at, moved = list(at), True
    while moved:
        moved = False
        for n, ends in enumerate(near):
            for place in ends:
                order = list(at[n])
                now = order.index(place)
                order.remove(place)
                costs = [0, *accumulate(excess(at, ends[other], ends[place]) for other in order)]
                if min(costs) < costs[now]:
                    order.insert(costs.index(min(costs)), place)
                    at[n], moved = numbered(order), True
    return at


def ordered(at, near):
    """The order after sweeps up and down, repeated while the number of crossings falls."""
    while True:
        up = sifted(swept(at, near, 0), near)
        down = sifted(swept(up, near, 1), near)
        best = min(at, up, down, key=lambda found: crossings(found, near))
        if best is at:
            return at
        at = best


def size(place):
    return NARROW if isinstance(place, tuple) else WIDE


def gap(left, right):
    """The least distance between the middles of two places side by side."""
    return (size(left) + size(right)) // 2 + APART


def spaced(wants):
    """The middles of a row's places, far enough apart, with the least sum of weighted squares of their way from the wants."""
    order, blocks = list(wants), []
    offsets = [0, *accumulate(map(gap, order, order[1:]))]
    for place, offset in zip(order, offsets):
        x, weight = wants[place]
        block = (x - offset, weight, 1)
        while blocks and blocks[-1][0] > block[0]:  # too near: both become one block at their mean
            (x, v, k), (y, w, m) = blocks.pop(), block
            block = ((x * v + y * w) / (v + w), v + w, k + m)
        blocks.append(block)
    starts = [x for x, _, k in blocks for _ in range(k)]
    return {place: x + offset for place, x, offset in zip(order, starts, offsets)}


def placed(at, near):
    """The middles of all places: each row in turn, up and down, as near as it can be to what its places are joined to."""
    middles = [spaced({place: (0, 1) for place in order}) for order in at]
    for n in [*range(len(at)), *reversed(range(len(at)))] * 20:
        wants = {}
        for place, x in middles[n].items():
            ends = [middles[m][end] for side in near[n][place] for m, end in side]
            wants[place] = (fmean(ends or [x]), max(len(ends), 1))
        middles[n] = spaced(wants)
    return middles


def straightened(middles):
    """The middles as integers, and one for each arrow on its way through rows, where there is space for it."""
    middles = [{place: floor(x + .5) for place, x in at.items()} for at in middles]
    orders = [list(at) for at in middles]
    ways = list(dict.fromkeys(place for order in orders for place in order if isinstance(place, tuple)))
    for way in ways * 2:  # those moved the first time leave space
        rows = [n for n, at in enumerate(middles) if way in at]
        lows, highs = [-inf], [inf]
        for n in rows:
            i = orders[n].index(way)
            lows += [middles[n][a] + gap(a, way) for a in orders[n][:i][-1:]]
            highs += [middles[n][b] - gap(way, b) for b in orders[n][i + 1:][:1]]
        if max(lows) <= min(highs):
            mean = sum(middles[n][way] for n in rows) // len(rows)
            for n in rows:
                middles[n][way] = min(max(mean, *lows), *highs)
    return middles


def arranged(rows, steps):
    """The middles of all places: the best that is found when the search starts with the rows rotated by 0, 1, 2 and so on.

    The best has the fewest crossings and, among those that have them, the least total way aside.
    """
    near, found = joined(rows, steps), []
    for k in range(max(map(len, rows))):
        at = ordered([numbered(order[k % len(order):] + order[:k % len(order)]) for order in rows], near)
        middles = straightened(placed(at, near))
        aside = sum(abs(middles[n][a] - middles[n - 1][b]) for n, a, b in steps)
        found.append((crossings(at, near), aside, k, middles))
    return min(found)[-1]


def box(name, x, y, shade, caption):
    fill, stroke = shade
    lines = wrap(caption, 24, max_lines=3, placeholder=' ...')
    text = [f'<text x="{x:g}" y="{y + 22:g}" class="name">{escape(name)}</text>']
    text += [f'<text x="{x:g}" y="{y + 38 + 14 * i:g}">{escape(line)}</text>' for i, line in enumerate(lines)]
    shape = f'width="{WIDE}" height="{HIGH}" rx="6"'
    return [f'<rect x="{x - WIDE / 2:g}" y="{y:g}" {shape} fill="{fill}" stroke="{stroke}"/>', *text]


def legend(x, y):
    lines = []
    for i, name in enumerate(SHADES):
        fill, stroke = SHADES[name]
        lines += [f'<rect x="{x + 90 * i:g}" y="{y - 10:g}" width="14" height="12" rx="3" fill="{fill}" stroke="{stroke}"/>',
                  f'<text x="{x + 90 * i + 20:g}" y="{y:g}" class="left">{name}</text>']
    return lines + [f'<text x="{x + 290:g}" y="{y:g}" class="left">an arrow leads from a crate to one that it rests on</text>']


def drawn(crates):
    rests = reduced(crates)
    level = levels(rests)
    rows, steps = rows_and_steps(rests, level)
    middles, said = arranged(rows, steps), captions()
    left = min(x - size(place) / 2 for at in middles for place, x in at.items()) - APART
    width = max(x + size(place) / 2 for at in middles for place, x in at.items()) + APART - left
    height = len(rows) * (HIGH + BETWEEN) + APART

    def top(n):
        return APART + (len(rows) - 1 - n) * (HIGH + BETWEEN)

    def spot(n, place):
        return middles[n][place] - left

    lines = []
    for n, a, b in steps:
        x, y, u, v = spot(n, a), top(n) + HIGH, spot(n - 1, b), top(n - 1)
        head = '' if isinstance(b, tuple) else ' marker-end="url(#head)"'
        through = f' V{v + HIGH:g}' if isinstance(b, tuple) else ''
        curve = f'C{x:g} {y + BETWEEN / 2:g} {u:g} {v - BETWEEN / 2:g} {u:g} {v:g}'
        lines.append(f'<path d="M{x:g} {y:g} {curve}{through}"{head}/>')
    for n, at in enumerate(middles):
        for name in at:
            if name in crates:
                lines += box(name, spot(n, name), top(n), SHADES[kind(name, crates[name])], said.get(name, ''))
    return framed(width, height, lines + legend(APART, height - 14))


def framed(width, height, lines):
    return '\n'.join([
        f'<svg xmlns="http://www.w3.org/2000/svg" viewBox="0 0 {width:g} {height:g}" width="{width:g}" height="{height:g}">',
        '<style>text { font: 11px sans-serif; text-anchor: middle; fill: #222 } .name { font: bold 14px monospace }',
        '.left { text-anchor: start } path { fill: none; stroke: #555; stroke-width: 1.2 }',
        '#head path { fill: #555; stroke: none }</style>',
        '<defs><marker id="head" viewBox="0 0 8 8" refX="8" refY="4" markerWidth="8" markerHeight="8" orient="auto">',
        '<path d="M0 0L8 4L0 8z"/></marker></defs>',
        f'<rect width="{width:g}" height="{height:g}" fill="#ffffff"/>', *lines, '</svg>', ''])


def main():
    if set(sys.argv[1:]) - {'--check'}:
        print(__doc__, file=sys.stderr)
        return 2
    crates = listed()
    page = PAGE.read_text(encoding='utf-8')
    made = {PICTURE: drawn(crates), PAGE: with_table(page, crates)}
    if '--check' not in sys.argv:
        for path, text in made.items():
            path.write_text(text, encoding='utf-8')
        return 0
    stale = [path for path, text in made.items() if not path.is_file() or path.read_text(encoding='utf-8') != text]
    for path in stale:
        print(f'{path.relative_to(ROOT)} is not what tools/layers.py makes today', file=sys.stderr)
    return 1 if stale else 0


if __name__ == '__main__':
    sys.exit(main())
