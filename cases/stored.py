#!/usr/bin/env python3
"""stored.py SHARED: makes crates/crn_cases/stdin and stdout anew, from the cases of opens.py, level_cases.py, dds_cases.py and
load_cases.py. The expected answers are reference.py's; what the Rust opens and unpacks too is compared with the Rust's, each surface of a
DDS file as a level by itself, and nothing is written where it differs by no row of docs/DIFFERENCES.md."""
import collections
import os
import sys

import dds_cases
import files
import level_cases
import levels
import load_cases
import opens


def write(name, data):
    with open(os.path.join(files.here, '..', 'crates', 'crn_cases', name), 'wb') as out:
        out.write(data)


def main():
    shared = os.path.abspath(sys.argv[1])
    mkcrn = files.generator(shared)
    of_opening = [opens.as_case(*c) for c in opens.stored(mkcrn)]
    of_levels = [dds_cases.exactly(c) for c in level_cases.stored(mkcrn)]
    of_dds = list(dds_cases.stored(mkcrn))
    of_loads = list(load_cases.stored(mkcrn))
    cases = of_opening + of_levels + of_dds + of_loads
    answers = [files.answers_of(c) for c in cases]
    results = [(c,) + a for c, a in zip(cases, answers)]

    def told(what, some, faults):
        size = len(files.bytes_of(some))
        print('%d cases of %s, %d bytes; %d answers of the Rust differ by no listed row' % (len(some), what, size, faults))
        return faults

    def openings(some):
        return files.compare_openings(shared, [(r[0].file, r[1]) for r in some])

    def counted(what, good, numbers):
        for number, times in sorted(collections.Counter(numbers).items()):
            print('%6d  %s %s' % (times, what, 'refused by %d' % number if number else good))

    faults = told('opening', of_opening, openings(results[:len(of_opening)]))
    calls = [answer for _, _, given, _, _ in results for answer in given]
    faults += told('levels with %d calls' % len(calls), of_levels, levels.compare(shared, [r[:3] for r in results if r[0].calls]))
    written = [said for _, _, _, dds, _ in results for said, _ in dds]
    faults += told('DDS files (each case of levels has one too) with %d calls' % len(written), of_dds,
                   levels.compare(shared, [dds_cases.as_levels(c, opened, dds) for c, opened, _, dds, _ in results if dds]))
    counted('DDS files', 'written', [said[0] for said in written])
    looked, loaded = zip(*[answer for a in answers for answer in a[3]])
    faults += told('opening in two calls, with %d load calls' % len(loaded), of_loads, openings(results[-len(of_loads):]))
    counted('looks', 'accepted', [number for number, _ in looked])
    counted('loads', 'accepted', [answer[0] for answer in loaded])
    missing = {0, 2, 4, 5, 6, 7, 8, 10, 11, 12, 13, 14, 15} - {answer[0] for answer in calls}
    missing |= {0, 2, 4, 5, 6, 7, 8, 12, 13, 14, 16} - {said[0] for said in written}
    missing |= {0, 1, 2, 3} - {number for number, _ in looked} | {0, 4, 5, 6, 7, 8, 9, 17} - {answer[0] for answer in loaded}
    print('answers that no call has: %s' % (sorted(missing) or 'none'))
    if faults or missing:
        sys.exit(1)
    write('stdin', files.bytes_of(cases))
    write('stdout', ''.join(line + '\n' for a in answers for line in files.lines_of(*a)).encode())


if __name__ == '__main__':
    main()
