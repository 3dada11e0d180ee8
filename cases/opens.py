#!/usr/bin/env python3
"""opens.py SHARED COUNT: COUNT files, whole and damaged, opened by the proved program (crates/crn_cases/out/crn_cases, as `rt run` leaves it), by reference.py and by
the Rust, and where they differ; and each opened in two calls by the first two, with its own record and with another. stored.py has the
gate's cases of opening from here."""
import collections
import os
import random
import sys

import files
import load_cases
import reference


def stored(mkcrn):
    """(file, lent) for the gate: every format, one and six faces, unused planes, palettes exact, longer and one short, and every refusal from 1 to 9."""
    rng = random.Random(20261115)
    base = []
    for k, fmt in enumerate([0, 2, 3, 4, 5, 6, 7, 8, 9] * 3):
        base.append(files.small_file(mkcrn, 7 * k, 700, format=fmt, faces=[1, 6, 1][k // 9], width=rng.randint(1, 9), height=rng.randint(1, 9), levels=rng.choice([1, 1, 2, 4])))
    for file in base:
        yield file, files.exact(file, 0xA5)
        yield file, files.exact(file, 0x5A, rng.randint(1, 3))
        for part in reference.PARTS:
            lent = files.exact(file, 3)
            if lent[part]:
                lent[part] = lent[part][1:]
                yield file, lent
        for _ in range(5):
            other = files.damaged(rng, file)
            yield other, files.exact(file, rng.randrange(256), rng.choice([0, 0, 1]))
    for _, file in files.shown_differences():
        yield file, files.exact(file, 0xEE, 2)
    file = base[0]
    for length in (0, 1, 2, 69, 70, 73):
        yield file[:length], files.exact(file, 9)
    for at, width, values in [(12, 2, [0, 4096, 4097]), (14, 2, [0, 4097]), (16, 1, [0, 13, 14]), (17, 1, [0, 2, 6, 7]), (18, 1, [1, 10, 255]), (39, 2, [0, 8193]), (47, 2, [0, 8193]),
                              (55, 2, [8193]), (63, 2, [8192, 8193]), (2, 2, [73, len(file), len(file) + 1]), (6, 4, [0, len(file) + 1]), (65, 2, [0]), (36, 3, [0, len(file)]), (44, 3, [0])]:
        for value in values:
            yield files.put(file, at, value, width), files.exact(file, 1)


def scaled(mkcrn, count):
    rng, of_loads, last = random.Random(count), random.Random('loads %d' % count), b''
    for k in range(count):
        file, _ = mkcrn.make(rng.getrandbits(40), width=rng.randint(1, 12), height=rng.randint(1, 12), levels=rng.choice([1, 1, 2, 3]))
        if k % 2:
            file = files.damaged(rng, file)
        if len(file) > 262144:
            continue
        yield file, files.exact(file, rng.randrange(256)), [load_cases.own(file), load_cases.random_load(of_loads, file, last)]
        last = file


def as_case(file, lent, loads=()):
    fill = next((lent[p][0] for p in reference.PARTS if lent[p]), 0)
    return files.Case(file, lent, fill, [], [], loads=loads)


def main():
    shared, count = os.path.abspath(sys.argv[1]), int(sys.argv[2])
    cases = [as_case(*c) for c in scaled(files.generator(shared), count)]
    answers = [files.answers_of(c) for c in cases]
    faults = files.compare_openings(shared, [(c.file, a[0]) for c, a in zip(cases, answers)])
    print('%d cases; %d answers of the Rust differ by no listed row' % (len(cases), faults))
    loads = collections.Counter((k, loaded[0]) for a in answers for k, (_, loaded) in enumerate(a[3]))
    for k, what in enumerate(['its own record', 'another']):
        print('loads with %s: %s' % (what, ', '.join('%d: %d' % (number, n) for (j, number), n in sorted(loads.items()) if j == k)))
    same = files.held_to_the_program(cases, [line for a in answers for line in files.lines_of(*a)])
    sys.exit(bool(faults) or not same)


if __name__ == '__main__':
    main()
