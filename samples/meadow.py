#!/usr/bin/env python3
"""meadow.py SHARED: writes samples/meadow.crn, a picture that is drawn here: mows of pale hay on a meadow, under a summer sky; 256 by 128
pixels with rounded corners, which are transparent, DXT1, all levels. Blocks are fitted to the picture one after another, by palette entries
that are there already where these do nearly as well. The file is put together by the parts of SHARED/oracle/mkcrn.py and bench/files.py, as
make.py does it."""
import math
import os
import random
import sys

here = os.path.dirname(os.path.abspath(__file__))
sys.path.insert(0, os.path.join(here, '..', 'bench'))
import files

mkcrn = files.mkcrn
WIDTH, HEIGHT, FINE = 256, 128, 3           # FINE by FINE samples a pixel
MOWS = [(.62, .93, .33), (1.36, .8, .16), (.13, .72, .11), (1.02, .655, .07), (1.56, .635, .05)]   # middle, foot, size
KNOWN = 40                                  # so many of the last ends are tried again


# ---- the picture: colours by place, x from 0 to 2 and y from 0, above, to 1

def mixed(a, b, t):
    t = min(1, max(0, t))
    return tuple(u + (v - u) * t for u, v in zip(a, b))


def grain(x, y):
    """A number from 0 to 1 without a pattern, the same for all of a cell."""
    n = (int(x) * 374761393 + int(y) * 668265263) & 0xFFFFFFFF
    n = ((n ^ n >> 13) * 1274126177) & 0xFFFFFFFF
    return (n ^ n >> 16) % 1024 / 1023


def sky(x, y):
    color = mixed((88, 146, 212), (226, 236, 240), y / .56)
    sun = math.hypot(x - 1.52, y - .2)
    color = mixed((255, 246, 214), color, (sun - .055) / .012 if sun < .067 else .55 + sun * 1.3)
    for cx, cy, size in [(.42, .2, .13), (.55, .17, .16), (.68, .21, .11), (1.12, .3, .08), (1.2, .28, .1), (1.3, .31, .07)]:
        away = math.hypot((x - cx) * .75, (y - cy) * 1.5) / size
        color = mixed((255, 255, 255), color, .25 + away * away * .9)
    return color


def field(x, y, edge):
    near = (y - edge) / (1 - edge)
    row = math.sin((x - 1.05) / (.12 + near) * 9 + 3 * near)
    color = mixed(mixed((150, 172, 84), (214, 196, 104), near), mixed((120, 152, 70), (182, 162, 74), near), .5 + row)
    return mixed(color, (96, 120, 52), .22 * grain(x * 150, y * (220 - 130 * near)))


def mow(x, y, cx, foot, size):
    """A mow of hay: its colour, where there is some."""
    u, v = (x - cx) / size, (foot - y) / (size * 1.25)
    if not 0 <= v <= 1:
        return None
    wide = .78 * math.sqrt(1 - v) * (1 + .12 * math.sin(v * 3))
    if abs(u) > wide + .03 * grain(v * 40, cx * 50):
        return None
    light = .5 - .55 * u / (wide + .01) + .3 * v
    color = mixed((168, 148, 98), (252, 248, 232), light)
    return mixed(color, (136, 116, 70), .3 * grain((x + y * .2) * 170, y * 42) * (1.1 - light * .6))


def tree(x, y):
    if abs(x - 1.74) < .012 + .02 * max(0, y - .55) and .4 < y < .68:
        return (84, 66, 48)
    for cx, cy, size in [(1.74, .26, .15), (1.62, .36, .11), (1.85, .36, .12), (1.7, .43, .1), (1.8, .44, .09), (1.75, .36, .14)]:
        away = math.hypot(x - cx, y - cy) + .035 * grain(x * 60, y * 60)
        if away < size:
            light = .75 - (x - 1.6) * 1.1 - (y - .2) * 1.2 + .45 * grain(x * 75, y * 75)
            return mixed((34, 70, 36), (128, 166, 74), light)
    return None


def color(x, y):
    edge = .54 + .022 * math.sin(x * 3.1 + .6) + .012 * math.sin(x * 7.7)
    hill = .5 - .05 * math.sin(x * 2.2 - .7) - .018 * math.sin(x * 5.3)
    for cx, foot, size in MOWS:
        hay = mow(x, y, cx, foot, size)
        if hay:
            return hay
    growth = tree(x, y)
    if growth:
        return growth
    if y > edge:
        # the larger mows and the tree cast a shade, to the right
        dark = max(1 - math.hypot((x - cx) / size - .75, (y - foot) / (size * .17)) for cx, foot, size in MOWS[:3] + [(1.74, .68, .12)])
        return mixed(field(x, y, edge), (70, 84, 44), min(.55, dark * 1.4))
    return mixed((120, 150, 128), (146, 172, 150), (y - hill) * 9) if y > hill else sky(x, y)


def seen(x, y):
    """Whether a place lies within the rounded corners."""
    r = .14
    return math.hypot(max(0, r - x, x - (2 - r)), max(0, r - y, y - (1 - r))) < r


def drawn():
    """Level 0 by rows: a colour, or None where nothing is seen."""
    def pixel(column, row):
        places = [((column + (i + .5) / FINE) / HEIGHT, (row + (j + .5) / FINE) / HEIGHT) for i in range(FINE) for j in range(FINE)]
        places = [place for place in places if seen(*place)]
        return mean([color(*place) for place in places]) if 2 * len(places) > FINE * FINE else None
    return [[pixel(column, row) for column in range(WIDTH)] for row in range(HEIGHT)]


def mean(colors):
    return tuple(sum(c[i] for c in colors) / len(colors) for i in range(3))


def halved(rows):
    """The next level, of two by two pixels each."""
    def pixel(y, x):
        four = [rows[min(2 * y + j, len(rows) - 1)][min(2 * x + i, len(rows[0]) - 1)] for j in range(2) for i in range(2)]
        there = [c for c in four if c]
        return mean(there) if len(there) >= 2 else None
    return [[pixel(y, x) for x in range(max(1, len(rows[0]) // 2))] for y in range(max(1, len(rows) // 2))]


# ---- blocks

def narrowed(color):
    """The nearest colour of 5, 6 and 5 bits."""
    return tuple(min(top, max(0, round(v * top / 255))) for v, top in zip(color, (31, 63, 31)))


def widened(color):
    r, g, b = color
    return (r << 3 | r >> 2, g << 2 | g >> 4, b << 3 | b >> 2)


def ramp(first, second, whole):
    """A block's colours, in the order of their places between the ends."""
    a, b = widened(first), widened(second)
    steps = 3 if whole else 2
    return [tuple((u * (steps - i) + v * i) // steps for u, v in zip(a, b)) for i in range(steps + 1)]


def apart(a, b):
    return sum(weight * (u - v) ** 2 for weight, u, v in zip((3, 6, 1), a, b))


def chosen(colors, first, second, whole):
    """(how far off, the place of each colour in the ramp)"""
    steps = ramp(first, second, whole)
    best = [min((apart(c, step), i) for i, step in enumerate(steps)) for c in colors]
    return sum(b[0] for b in best), [b[1] for b in best]


def fitted(colors, whole):
    """The two ends whose ramp is nearest to all of the colours: from those along the colours' longest way, by single steps."""
    middle = mean(colors)
    way = (1, 1, 1)
    for _ in range(8):
        sums = [sum(sum((c[i] - middle[i]) * way[i] for i in range(3)) * (c[k] - middle[k]) for c in colors) for k in range(3)]
        size = math.sqrt(sum(s * s for s in sums)) or 1
        way = tuple(s / size for s in sums) if any(sums) else way
    along = [sum((c[i] - middle[i]) * way[i] for i in range(3)) for c in colors]
    ends = [narrowed(tuple(m + w * t for m, w in zip(middle, way))) for t in (min(along), max(along))]
    best = chosen(colors, *ends, whole)[0]
    moved = True
    while moved:
        moved = False
        for end in range(2):
            for i, top in enumerate((31, 63, 31)):
                for step in (-1, 1):
                    other = [list(e) for e in ends]
                    other[end][i] += step
                    if 0 <= other[end][i] <= top and chosen(colors, *other, whole)[0] < best:
                        best, ends, moved = chosen(colors, *other, whole)[0], [tuple(e) for e in other], True
    return ends


def word(color):
    return color[0] << 11 | color[1] << 5 | color[2]


def block(pixels, ends_known, selectors_known):
    """(ends, sixteen selectors in linear order) of sixteen pixels: known ones where they do nearly as well, for a shorter file."""
    colors = [c for c in pixels if c]
    whole = len(colors) == 16
    if not colors:
        return ((0, 0, 0), (0, 0, 0)), (2,) * 16
    # four colours where the first word is above the second, else three and nothing
    ends = tuple(sorted(fitted(colors, whole), key=word, reverse=whole))
    enough = 1.25 * chosen(colors, *ends, whole)[0] + 900
    near = [other for other in ends_known if (word(other[0]) > word(other[1])) == whole and chosen(colors, *other, whole)[0] < enough]
    ends = near[0] if near else ends
    if whole and word(ends[0]) == word(ends[1]):
        return ends, (0,) * 16
    places = chosen(colors, *ends, whole)[1]
    if not whole:
        # the middle one of three colours is selector 2, second in linear order; nothing is selector 3, the third
        places = iter(places)
        return ends, tuple([0, 1, 3][next(places)] if c else 2 for c in pixels)
    off = [[apart(c, step) for step in ramp(*ends, True)] for c in colors]
    best = min(selectors_known, key=lambda known: sum(o[i] for o, i in zip(off, known)), default=places)
    return ends, tuple(best if sum(o[i] for o, i in zip(off, best)) < 1.5 * enough else places)


# ---- the file

def tiles(ends):
    """The encoding of a chunk whose four blocks have these ends, which shares most of them; and the ends that it then needs."""
    for encoding, layout in enumerate(mkcrn.TILES):
        firsts = [layout.index(str(tile)) for tile in range(mkcrn.TILE_COUNT[encoding])]
        if all(ends[firsts[int(tile)]] == end for tile, end in zip(layout, ends)):
            return encoding, [ends[first] for first in firsts]


def entry(palette, value):
    return palette.setdefault(value, len(palette))


def chunks(rows, ends, selectors):
    """Of each chunk of a level, in their order, its encoding and the palettes' entries of its tiles and its blocks; new ones are added to
    the palettes."""
    columns, lines = (len(rows[0]) + 3) // 4, (len(rows) + 3) // 4
    for y in range((lines + 1) // 2):
        across = range((columns + 1) // 2)
        for x in across if y % 2 == 0 else reversed(across):
            made = []
            for at in range(4):
                px, py = 2 * x + at % 2, 2 * y + at // 2
                if px >= columns or py >= lines:
                    made.append((made[-1][0], None))
                    continue
                pixels = [rows[min(4 * py + j, len(rows) - 1)][min(4 * px + i, len(rows[0]) - 1)] for j in range(4) for i in range(4)]
                made.append(block(pixels, [m[0] for m in made] + list(ends)[-KNOWN:], selectors))
            encoding, needed = tiles([m[0] for m in made])
            yield encoding, [entry(ends, e) for e in needed], [s and entry(selectors, s) for _, s in made]


def script(chunks, sizes):
    """A level's symbols: encodings by threes, and from each entry of a palette to the next."""
    at, out = {'ce': 0, 'cs': 0}, []

    def to(name, index):
        index = at[name] if index is None else index
        out.append((name, (index - at[name]) % sizes[name]))
        at[name] = index
    for n, (encoding, ends, selectors) in enumerate(chunks):
        if n % 3 == 0:
            out.append(('chunk', sum(c[0] << 3 * i for i, c in enumerate(chunks[n:n + 3]))))
        for index in ends:
            to('ce', index)
        for index in selectors:
            to('cs', index)
    return out


def palettes(rng, ends, selectors):
    """The palettes' segments: of each entry the differences to the one before, green by a table of its own, selectors in pairs."""
    of_ends, before = [], (0,) * 6
    for first, second in ends:
        now = first + second
        of_ends += [(i % 3 == 1, (n - b) % (64 if i % 3 == 1 else 32)) for i, (n, b) in enumerate(zip(now, before))]
        before = now
    of_selectors, before = [], (0,) * 16
    for now in selectors:
        moved = [n - b + 3 for n, b in zip(now, before)]
        of_selectors += [(0, moved[i] + 7 * moved[i + 1]) for i in range(0, 16, 2)]
        before = now
    return {'ce': mkcrn.segment(rng, [False, True], of_ends, set()), 'cs': mkcrn.segment(rng, [0], of_selectors, set())}


def main():
    mkcrn.random_table = files.fitted_table
    rng, ends, selectors, levels, rows = random.Random(2026), {}, {}, [], drawn()
    while True:
        levels.append(list(chunks(rows, ends, selectors)))
        if len(rows) == len(rows[0]) == 1:
            break
        rows = halved(rows)
    counts = {'ce': len(ends), 'cs': len(selectors)}
    segments = palettes(rng, ends, selectors)
    scripts = [script(level, counts) for level in levels]
    bits, tables = mkcrn.Bits(), {}
    for name in ['chunk', 'ce', 'cs']:
        tables[name] = files.fitted_table(rng, [symbol for s in scripts for of, symbol in s if of == name])
        mkcrn.put_table(bits, rng, tables[name])
    segments['tables'] = bits.done()
    names = ['level%d' % n for n in range(len(levels))]
    for name, symbols in zip(names, scripts):
        bits = mkcrn.Bits()
        mkcrn.put_symbols(bits, tables, symbols)
        segments[name] = bits.done()
    data = mkcrn.assemble(segments, ['ce', 'cs', 'tables'] + names, counts, WIDTH, HEIGHT, len(levels), 1, 0)
    files.write(here, 'meadow', data)


main()
