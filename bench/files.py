#!/usr/bin/env python3
"""files.py SHARED OUT WHICH: the files of a benchmark (opens, table, dds, looks), made of the parts of SHARED/oracle/mkcrn.py from fixed
seeds.

- OUT/CODES-FORMAT-ENTRIES-N.crn, for bench/opens.rs: every palette has ENTRIES entries; one level is there for the code tables that it needs. CODES is `any` for
  the generator's codes, whose lengths have nothing to do with how often a symbol comes, and `fitted` for Huffman's, as an encoder makes them.
- OUT/level-FORMAT-SIDE.crn, for bench/table.rs, bench/dds.rs and bench/looks.rs: square, all levels; deltas are mostly small, and codes
  are fitted.
- OUT/cube-FORMAT-SIDE.crn, for bench/dds.rs: the same with six faces.
- OUT/small-NNN.crn, for bench/table.rs and bench/looks.rs: a thousand like these, the formats by turns, of 4 to 64 pixels a side and 10
  to 60 entries a palette."""
import collections
import heapq
import os
import random
import sys

import importlib.util

# cases/files.py has the generator with a quicker count of runs
sys.path.insert(0, os.path.join(os.path.dirname(os.path.abspath(__file__)), '..', 'cases'))
spec = importlib.util.spec_from_file_location('case_files', os.path.join(sys.path[0], 'files.py'))
case_files = importlib.util.module_from_spec(spec)
spec.loader.exec_module(case_files)
mkcrn = case_files.generator(sys.argv[1])

FORMATS = [('DXT1', 0), ('DXT5', 2), ('DXT5A', 9), ('DXN', 7)]
SIDES = {50: 64, 500: 256, 8000: 512}                       # of the one level, by the palettes' entries
ENTRIES = {64: 60, 256: 400, 1024: 2000, 4096: 6000}        # of the palettes, by the side of the first level

any_table = mkcrn.random_table


class AnyEntry(mkcrn.Index):
    """Any entry next, by a delta below the palette's size, so that a table of 8,192 symbols has it."""
    def step(self, used=True, wild=False):
        return self.add((self.rng.randrange(self.size) - self.at) % self.size)


class NearEntry(mkcrn.Index):
    """The next entry by a delta that is mostly small."""
    def step(self, used=True, wild=False):
        return self.add(int(abs(self.rng.gauss(0, self.size / 12))) % self.size)


def fitted_table(rng, symbols):
    """Huffman's lengths, 16 at most: counts are halved until they are."""
    counts = collections.Counter(symbols)
    while True:
        heap = [(n, s, [s]) for s, n in counts.items()]
        depths = dict.fromkeys(counts, 1 if len(counts) == 1 else 0)
        heapq.heapify(heap)
        while len(heap) > 1:
            (a, s, left), (b, _, right) = heapq.heappop(heap), heapq.heappop(heap)
            for t in left + right:
                depths[t] += 1
            heapq.heappush(heap, (a + b, s, left + right))
        if max(depths.values()) <= 16:
            return [depths.get(s, 0) for s in range(max(counts) + 1)]
        counts = {s: (n + 1) // 2 for s, n in counts.items()}


def file(rng, fmt, entries, sides, table, index, faces=1):
    """A file with a level of each pair of sides, whose palettes have so many entries each."""
    mkcrn.random_table, mkcrn.Index = table, index
    palettes, segments, seen = {name: [] for name in mkcrn.PALETTE_NAMES}, {}, set()
    counts = {k + p: entries for k in 'ca' if k in mkcrn.planes(fmt) for p in 'es'}
    for name in counts:
        if name[1] == 's':
            segments[name], palettes[name] = mkcrn.selectors(rng, entries, seen, 2 if name == 'cs' else 3)
        else:
            segments[name], palettes[name] = (mkcrn.color_endpoints if name == 'ce' else mkcrn.alpha_endpoints)(rng, entries, seen)
    scripts = [mkcrn.level(rng, fmt, width, height, faces, palettes, 'free', False, False)[0] for width, height in sides]
    drawn = collections.defaultdict(list)
    for script in scripts:
        for name, symbol in script:
            drawn[name].append(symbol)
    bits, tables = mkcrn.Bits(), {}
    for name in ['chunk'] + list(counts):
        tables[name] = table(rng, drawn[name])
        mkcrn.put_table(bits, rng, tables[name], seen)
    segments['tables'] = bits.done()
    levels = ['level%d' % n for n in range(len(sides))]
    for name, script in zip(levels, scripts):
        bits = mkcrn.Bits()
        mkcrn.put_symbols(bits, tables, script)
        segments[name] = bits.done()
    return mkcrn.assemble(segments, list(counts) + ['tables'] + levels, counts, *sides[0], len(sides), faces, fmt)


def halved(width, height):
    """The sides of all levels, down to one pixel."""
    return [(max(1, width >> n), max(1, height >> n)) for n in range(max(width, height).bit_length())]


def write(folder, name, data):
    with open(os.path.join(folder, name + '.crn'), 'wb') as out:
        out.write(data)


def for_opens(out):
    for kind, fmt in FORMATS:
        for codes, table in [('fitted', fitted_table), ('any', any_table)]:
            for entries, side in SIDES.items():
                for n in range(8):
                    rng = random.Random(1000 * entries + 10 * fmt + n)
                    write(out, '%s-%s-%d-%d' % (codes, kind, entries, n), file(rng, fmt, entries, [(side, side)], table, AnyEntry))


def with_levels(out, name, sides, faces=1):
    for kind, fmt in FORMATS:
        for side in sides:
            made = file(random.Random(100 * side + fmt), fmt, ENTRIES[side], halved(side, side), fitted_table, NearEntry, faces)
            write(out, '%s-%s-%d' % (name, kind, side), made)


def small(out):
    for n in range(1000):
        rng = random.Random(n)
        sides = halved(rng.randint(4, 64), rng.randint(4, 64))
        write(out, 'small-%03d' % n, file(rng, FORMATS[n % 4][1], rng.randint(10, 60), sides, fitted_table, NearEntry))


def main(out, which):
    if which == 'opens':
        for_opens(out)
    else:
        with_levels(out, 'level', ENTRIES)
    if which in ('table', 'looks'):
        small(out)
    if which == 'dds':
        with_levels(out, 'cube', [64, 256, 1024], 6)


if __name__ == '__main__':
    main(*sys.argv[2:])
