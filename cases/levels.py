#!/usr/bin/env python3
"""levels.py SHARED COUNT: COUNT levels of files, whole and damaged, unpacked by the proved program (crates/crn_cases/out/crn_cases, as `rt run` leaves it), by
reference.py and by the Rust, and where they differ; and each file written as a DDS file by the first two. stored.py has the gate's cases of
levels from level_cases.py and of DDS files from dds_cases.py.

The Rust lays faces over each other (row 34 of docs/DIFFERENCES.md): it is given room for one face and four bytes, and what it leaves there is held to our faces laid in the
same way. With the header's faces set to 1, 2, .. it leaves each face in turn on top, so that every face of a cube map is compared."""
import collections
import hashlib
import os
import random
import sys

import files
import reference

MOST = 1 << 20                      # bytes of a destination that the program takes
ENDLESS = (1 << 64) - 1


def grid_of(record, level, pitch, distance):
    return reference.Grid(record[0], level, pitch, distance)


def tight(record, level):
    """Pitch, distance and length of a destination with nothing between its blocks."""
    grid = grid_of(record, min(level, 12), 0, 0)
    pitch = grid.columns * grid.bytes
    return pitch, grid.rows * pitch, max(1, grid.faces) * grid.rows * pitch


# ------------------------------------------------------------------ what the Rust is asked

def in_the_file(case):
    """The file with the edits of the record written into its header, as far as the Rust then reads the same header; or None."""
    file, levels = case.file, case.file[16]
    for field, index, value in case.edits:
        at, width = {1: (12, 2), 2: (14, 2), 3: (16, 1), 4: (17, 1), 5: (18, 1), 10: (70 + 4 * index, 4)}.get(field, (0, 0))
        if width == 0 or value >> 8 * width or field == 10 and index >= levels or field == 3 and value > levels:
            return None
        file = files.put(file, at, value, width)
    return file


def rust_layout(grid, pitch, destination, faces):
    """The blocks of the first faces as the Rust lays them: face f begins at byte f less its low two bits; all else zero."""
    out = bytearray(grid.rows * pitch + (4 if faces > 1 else 0))
    for f, y, x, at in grid.places():
        if f < faces:
            to = f // 4 * 4 + y * pitch + x * grid.bytes
            out[to:to + grid.bytes] = destination[at:at + grid.bytes]
    return bytes(out)


def changes_a_segment(case, opened, record, level, file):
    """Whether a byte of the header that was changed for the Rust is one that opening or the level reads as data: segments of damaged files may lie in the header."""
    h, changed = opened[2], [at for at in range(min(len(file), 122)) if file[at] != case.file[at]]
    segments = [(h[p][0], h[p][0] + h[p][1]) for p in reference.PARTS] + [(h['tables_offset'], h['tables_offset'] + h['tables_size'])]
    if level < 13:
        segments.append(reference.level_segment(record[0], file, level) if level < 12 else (record[0]['offsets'][12], len(file)))
    return any(start <= at < end for at in changed for start, end in segments)


def asked(case, opened, record, call, answer):
    """What the Rust is asked about a call: (file, words, bytes that it has to leave or None)."""
    return [q for q in questions(case, record, call, answer) if not changes_a_segment(case, opened, record, call[0], q[0])]


def questions(case, record, call, answer):
    level, pitch, distance, _, room = call
    file = in_the_file(case)
    if file is None:
        return []
    if answer[0] in (11, 12):
        return [(file, '%d - %d %d' % (level, min(pitch, 0xffffffff), room), None)]
    if answer[0] in (2, 4, 6, 10):
        return [(file, '%d 4' % level, None)]
    grid = grid_of(record, level, pitch, distance)
    if grid.rows * pitch > MOST:
        pitch = grid.columns * grid.bytes
    if answer[0]:
        return [(file, '%d 4 %d' % (level, pitch), None)]
    return [(files.put(file, 17, n, 1), '%d %d %d' % (level, 4 if n > 1 else 0, pitch), rust_layout(grid, pitch, answer[5], n)) for n in range(1, grid.faces + 1)]


def row_of(case, record, opened, call, answer, theirs):
    """Why the Rust answers otherwise: a row of docs/DIFFERENCES.md; 0 where both refuse; None where nothing explains it."""
    number, pitch, distance, room = answer[0], call[1], call[2], call[4]
    word = theirs.split()[1]
    if ' open: ' in theirs:
        return files.why_not(case.file, opened) if number == 0 or number > 2 else 45
    if number in (2, 5, 6):
        return 45
    if number == 0:
        return None
    if number == 10:
        return 12 if word != 'ok' else None
    if number == 4:
        return {'refused': 0, 'panicked': 16}.get(word)
    grid = grid_of(record, call[0], pitch, distance)
    if number == 11:
        if word == 'refused':
            return 0
        return 36 if pitch == 0 else 35 if pitch % 4 == 0 and pitch >= grid.columns * grid.bytes else None
    if number == 12:
        if word == 'refused':
            return 0
        return 38 if grid.rows * pitch > 0xffffffff else 34 if grid.faces > 1 else None
    if number == 7:
        return 0 if word == 'refused' else None
    if number == 14:
        two = len(reference.planes_of(record[0]['format'])) == 2
        return {'panicked': 31, 'refused': 33 if two else None}.get(word)
    return {8: 17, 13: 30, 15: 43}[number]


def compare(shared, results):
    """Holds reference.py's levels to the Rust's. `results`: (case, opened, answers). Prints a table; answers how many differ by no listed row."""
    commands, about = [], []
    tally, faults = collections.Counter(), 0
    for case, opened, answers in results:
        if opened[0]:
            tally['not opened (see opens.py)'] += len(answers)
            continue
        record = files.edited(reference.handed(opened[2], opened[3]), case.edits) if answers else None
        for call, answer in zip(case.calls, answers):
            wanted = asked(case, opened, record, call, answer)
            if not wanted:
                tally['%s; edited as no file can be, row 45' % ('refused by %d' % answer[0] if answer[0] else 'unpacked')] += 1
            for file, words, left in wanted:
                commands.append(('level', file, words))
                about.append((case, record, opened, call, answer, left))
    for (case, record, opened, call, answer, wanted), theirs in zip(about, files.rust_says(shared, commands)):
        ours = 'refused by %d' % answer[0] if answer[0] else 'unpacked, one face' if record[0]['faces'] == 1 else 'unpacked, a cube map, its first faces'
        if wanted is not None and theirs.startswith('level ok'):
            same = theirs.split()[2:] == ['len=%d' % len(wanted), 'sha256=' + hashlib.sha256(wanted).hexdigest()]
            tally[ours + '; the Rust ' + ('the same' if same else 'DIFFERENT')] += 1
            faults += not same
            continue
        row = row_of(case, record, opened, call, answer, theirs)
        tally['%s; the Rust %s, %s' % (ours, theirs.split()[1], {0: 'as we do', None: 'UNEXPLAINED'}.get(row, 'row %s' % row))] += 1
        faults += row is None
        if row is None and faults < 4:
            print(theirs, call, answer[:5], case.edits)
    files.say(tally)
    return faults


# ------------------------------------------------------------------ at scale

def random_edit(rng, record, file):
    h, field = record[0], rng.randint(1, 20)
    index = rng.randrange(4) if rng.random() < .8 else rng.choice([12, 13, 8191, 8192, rng.getrandbits(32)])
    if field in (1, 2):
        value = rng.choice([0, 1, 3, 4, 5, 8, 9, 17, 4096, 4097, rng.randint(1, 40)])
    elif field <= 5:
        value = rng.choice([0, 1, 2, 6, 7, 9, 10, 13, 14, rng.randrange(256)])
    elif field <= 9:
        now = h[reference.PARTS[field - 6]][2]
        value = rng.choice([0, 1, now + 1, max(1, now - 1), 8192, 8193])
    elif field == 10:
        value = rng.choice([h['offsets'][index % 13] + 1, max(0, h['offsets'][index % 13] - 1), len(file), len(file) + 1, 0, rng.getrandbits(32)])
    elif field <= 15:
        count, lengths = record[1][reference.TABLES[field - 11]]
        value = rng.choice([0, 1, count + 1, max(0, count - 1), 8192, 8193])
    else:
        index = rng.randrange(max(1, record[1][reference.TABLES[field - 16]][0])) if rng.random() < .7 else index
        value = rng.choice([0, 1, 16, 17, rng.randrange(256), 256])
    return field, index, value


def random_calls(rng, case, opened):
    """For every level calls with pitches, distances, budgets and destinations that fit and some that do not."""
    record = files.edited(reference.handed(opened[2], opened[3]), case.edits)
    levels = min(13, record[0]['levels'])
    for level in list(range(levels)) + ([rng.choice([levels, 16, 1 << 31])] if rng.random() < .05 else []):
        if level >= 13:
            yield level, 64, 64, ENDLESS, 64
            continue
        pitch, _, _ = tight(record, level)
        grid = grid_of(record, level, 0, 0)
        pitch += rng.choice([0, 0, 0, 4, 8, 60])
        if rng.random() < .03:
            pitch = rng.choice([0, max(0, pitch - 4), pitch + 1, pitch + 2, 1 << 31, 1 << 63])
        distance = grid.rows * pitch + rng.choice([0, 0, 4, 100])
        if rng.random() < .03:
            distance = rng.choice([0, max(0, distance - 4), distance + 2, ENDLESS - 3])
        pitch, distance = min(pitch, ENDLESS), min(distance, ENDLESS)
        room = grid_of(record, level, pitch, distance).reach()
        room = room + rng.choice([0, 0, 1, 9]) if 0 <= room < MOST else 1000
        if rng.random() < .03:
            room = max(0, room - 1)
        budget = ENDLESS
        if rng.random() < .1:
            whole = reference.unpacking(record, case.file, opened[4], level, pitch, distance, ENDLESS, bytes(room))
            budget = max(0, rng.choice([whole[1], whole[1] - 1, rng.randint(0, whole[1])]))
        yield level, pitch, distance, budget, room


def random_dds(rng, case, opened):
    """A DDS call or two, most with room."""
    number, size = reference.dds_bytes(files.record_of(case, opened)[0])
    size = size if number == 0 and size < MOST - 40 else 150
    return [size + rng.choice([0, 0, 0, 1, 40, -1]) for _ in range(rng.choice([1, 1, 2]))]


def damaged_level(rng, file):
    """A file with one fault where its levels are: a bit or a byte changed, the end cut off, or an offset of a level."""
    first = int.from_bytes(file[70:74], 'big')
    if first >= len(file):
        return files.damaged(rng, file)
    at, kind = rng.randrange(first, len(file)), rng.randrange(5)
    if kind == 0:
        return files.put(file, 6, 0, 4)[:at]
    if kind == 1:
        return files.put(file, 70 + 4 * rng.randrange(file[16]), rng.choice([0, at, len(file), len(file) + 1]), 4)
    if kind == 2:
        return files.put(file, at, rng.randrange(256), 1)
    return files.put(file, at, file[at] ^ 1 << rng.randrange(8), 1)


def scaled(mkcrn, count):
    """Whole files, and several damages and edits of each."""
    rng, done = random.Random(count), 0
    while done < count:
        wish = {'width': rng.randint(1, 24), 'height': rng.randint(1, 24), 'levels': rng.choice([1, 2, 3, 5]), 'faces': rng.choice([1, 1, 1, 6])}
        whole, _ = mkcrn.make(rng.getrandbits(40), **wish)
        for kind in 'wwwlllllla':
            file = {'w': lambda: whole, 'l': lambda: damaged_level(rng, whole), 'a': lambda: files.damaged(rng, whole)}[kind]()
            fill = rng.randrange(256)
            lent = files.exact(file, fill, rng.choice([0, 0, 1]))
            opened = reference.opening(file, lent)
            record = reference.handed(opened[2], opened[3])
            edits = [random_edit(rng, record, file) for _ in range(rng.randint(1, 3))] if rng.random() < .25 else []
            case = files.Case(file, lent, fill, edits, [])
            case = case._replace(calls=[c for c in random_calls(rng, case, opened) if c[4] <= MOST], dds=random_dds(rng, case, opened))
            done += len(case.calls)
            yield case


def main():
    shared, count = os.path.abspath(sys.argv[1]), int(sys.argv[2])
    cases = list(scaled(files.generator(shared), count))
    answers = [files.answers_of(c) for c in cases]
    faults = compare(shared, [(c,) + a[:2] for c, a in zip(cases, answers)])
    print('%d cases, %d levels; %d answers of the Rust differ by no listed row' % (len(cases), sum(len(c.calls) for c in cases), faults))
    written = collections.Counter(said[0] for a in answers for said, _ in a[2])
    print('%d DDS files; %s' % (sum(written.values()), ', '.join('%d: %d' % w for w in sorted(written.items()))))
    same = files.held_to_the_program(cases, [line for a in answers for line in files.lines_of(*a)])
    sys.exit(bool(faults) or not same)


if __name__ == '__main__':
    main()
