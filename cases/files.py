"""Cases of crn_cases: their bytes and lines (docs/CASES.md), the files in them, and what the Rust makes of these. SHARED is the folder that has oracle/ (the
generator of CRN files, and the Rust as a command) and docs/src (the Rust)."""
import collections
import glob
import hashlib
import inspect
import os
import struct
import subprocess
import sys
import tempfile

import reference

here = os.path.dirname(os.path.abspath(__file__))
RUST_PARTS = dict(zip(reference.PARTS, ['color_endpoints', 'color_selectors', 'alpha_endpoints', 'alpha_selectors']))
RUST_TABLES = dict(zip(reference.TABLES, ['chunk', 'color_endpoint_delta', 'color_selector_delta', 'alpha_endpoint_delta', 'alpha_selector_delta']))


# a file opened with lent words by part, all of them the fill byte; edits (field, index, value); calls (level, pitch, distance, budget,
# destination length); dds: the destination length of each DDS call; loads (head, file length, edits)
Case = collections.namedtuple('Case', 'file lent fill edits calls dds loads', defaults=[(), ()])


def edit_bytes(edits):
    return bytes([len(edits)]) + b''.join(struct.pack('<BII', *e) for e in edits)


def bytes_of(cases):
    out = [b'CASE', struct.pack('<I', len(cases))]
    for c in cases:
        out += [struct.pack('<I', len(c.file)), c.file, struct.pack('<4I', *(len(c.lent[p]) for p in reference.PARTS)), bytes([c.fill])]
        out += [edit_bytes(c.edits), bytes([len(c.calls)])] + [struct.pack('<IQQQI', *call) for call in c.calls]
        out += [bytes([len(c.dds)])] + [struct.pack('<I', size) for size in c.dds] + [bytes([len(c.loads)])]
        out += [struct.pack('<I', len(head)) + head + struct.pack('<I', length) + edit_bytes(edits) for head, length, edits in c.loads]
    return b''.join(out)


# The fields of edits that are numbers of the header, and those that are a palette's offset, size or count.
NUMBERS = dict(enumerate(['width', 'height', 'levels', 'faces', 'format'], 1))
NUMBERS |= dict(enumerate(['header_size', 'header_crc16', 'data_size', 'data_crc16', 'flags', 'reserved', 'userdata0', 'userdata1',
                           'tables_size', 'tables_offset'], 21))
PART_FIELDS = {first + k: (part, place) for first, place in [(31, 0), (35, 1), (6, 2)] for k, part in enumerate(reference.PARTS)}


def edited(record, edits):
    """The record with the edits of docs/CASES.md."""
    tables = {t: (count, list(lengths)) for t, (count, lengths) in record[1].items()}
    for field, index, value in edits:
        if 11 <= field <= 15:
            tables[reference.TABLES[field - 11]] = value, tables[reference.TABLES[field - 11]][1]
        elif 16 <= field <= 20 and index < 8192:
            tables[reference.TABLES[field - 16]][1][index] = value % 256
    return edited_header(record[0], edits), tables


def edited_header(header, edits):
    header = {name: list(v) if isinstance(v, list) else v for name, v in header.items()}
    for field, index, value in edits:
        if field in NUMBERS:
            header[NUMBERS[field]] = value
        elif field in PART_FIELDS:
            part, place = PART_FIELDS[field]
            header[part][place] = value
        elif field == 10 and index < 13:
            header['offsets'][index] = value
    return header


def record_of(case, opened):
    """The record that the calls of a case are handed."""
    return edited(reference.handed(opened[2], opened[3]), case.edits)


def answers_of(case):
    """What reference.py says of the opening, of each level call, of each DDS call (what it answers, and what has to be lent), and of each
    load call (the look, and the load)."""
    opened = reference.opening(case.file, case.lent)
    record = record_of(case, opened) if case.calls or case.dds else None
    levels = [reference.unpacking(record, case.file, opened[4], *call[:4], bytes([case.fill]) * call[4]) for call in case.calls]
    dds = [reference.dds_out(record, case.file, opened[4], bytes([case.fill]) * size) for size in case.dds]
    return opened, levels, [(said, reference.dds_bytes(record[0])) for said in dds], [load_answer(case, *load) for load in case.loads]


def load_answer(case, head, length, edits):
    looked = reference.look(head, length)
    return looked, reference.loading(edited_header(looked[1] or reference.EMPTY, edits), case.file, case.lent)


def opened_line(word, opened):
    number, _, header, tables, buffers = opened
    hashes = reference.fnv(reference.palette_bytes(buffers)), reference.fnv(reference.record_bytes(header, tables))
    return '%s %d %s %s' % (word, number, *hashes)


def lines_of(opened, levels, dds, loads):
    lines = [opened_line('open', opened)]
    lines += ['level %d %d %d %d %s' % (no, symbols, cutouts, left, reference.fnv(dst)) for no, symbols, cutouts, left, _, dst in levels]
    lines += ['dds %d %d %d %d %d %d %s %d %d' % (*said[:6], reference.fnv(said[6]), *needed) for said, needed in dds]
    for (number, header), loaded in loads:
        lines += ['look %d %s' % (number, reference.fnv(reference.header_bytes(header or reference.EMPTY))), opened_line('load', loaded)]
    return lines


def held_to_the_program(cases, lines):
    """Runs crates/crn_cases/out/crn_cases, as `rt run` leaves it, on the cases, and says where it writes other lines. True where it does not."""
    program = os.path.join(here, '..', 'crates', 'crn_cases', 'out', 'crn_cases')
    said = subprocess.run([program], input=bytes_of(cases), stdout=subprocess.PIPE, check=True).stdout.decode().splitlines()
    wrong = [k for k, (a, b) in enumerate(zip(said, lines)) if a != b] + list(range(len(said), len(lines)))
    print('%d lines of the proved program, %d of them not as document 01 says%s' % (len(said), len(wrong), ': ' + str(wrong[:5]) if wrong else ''))
    return not wrong and len(said) == len(lines)


def generator(shared):
    """The generator of files. At each place of a table it counts a run of equal lengths to its end, which is most of its time; no code takes more than 138 of a
    run, so that it is told here to count no further. The files are the same."""
    sys.path.insert(0, os.path.join(shared, 'oracle'))
    import mkcrn
    slow = 'while i + run < len(lengths)'
    text = inspect.getsource(mkcrn.run_codes)
    assert text.count(slow) == 1
    exec(text.replace(slow, 'while run < 138 and i + run < len(lengths)'), mkcrn.__dict__)
    return mkcrn


def exact(file, fill=0, more=0):
    """Lent buffers of just the header's counts, or `more` words more, and not longer than crn_cases takes them."""
    h = reference.header_of(file.ljust(80, b'\0'))
    return {p: [fill] * min(h[p][2] * each + more, 8192 * each) for p, each in zip(reference.PARTS, [1, 1, 1, 3])}


def put(file, at, value, width):
    return file[:at] + value.to_bytes(width, 'big') + file[at + width:]


def small_file(mkcrn, seed, most, **wish):
    """The first file from `seed` on that is not longer than `most` bytes."""
    while True:
        file, _ = mkcrn.make(seed, **wish)
        if len(file) <= most:
            return file
        seed += 1000003


def damaged(rng, file):
    """A file with one fault: a field, a byte or a bit changed, or an end cut off."""
    kind = rng.randrange(6)
    if kind == 0:                       # a header field
        at, width = rng.choice([(0, 1), (1, 1), (2, 2), (6, 4), (12, 2), (14, 2), (16, 1), (17, 1), (18, 1), (33, 3), (36, 3), (39, 2), (41, 3), (44, 3), (47, 2),
                                (49, 3), (52, 3), (55, 2), (57, 3), (60, 3), (63, 2), (65, 2), (67, 3)])
        old = int.from_bytes(file[at:at + width], 'big')
        value = rng.choice([0, 1, old + 1, max(0, old - 1), rng.getrandbits(8 * width), len(file)])
        return put(file, at, value % (1 << 8 * width), width)
    if kind == 1:
        return file[:rng.randrange(len(file) + 1)]
    at = rng.randrange(70, len(file)) if kind < 5 else rng.randrange(len(file))
    if kind == 2:
        return put(file, at, rng.randrange(256), 1)
    return put(file, at, file[at] ^ 1 << rng.randrange(8), 1)


def rust_says(shared, commands):
    """The Rust's line for each command: (word, file, the words after it)."""
    with tempfile.TemporaryDirectory() as room:
        subprocess.run(['sh', os.path.join(shared, 'oracle', 'build.sh'), room], check=True)
        paths, lines = {}, []
        for word, file, rest in commands:
            if file not in paths:
                paths[file] = os.path.join(room, '%d.crn' % len(paths))
                with open(paths[file], 'wb') as out:
                    out.write(file)
            lines.append('%s %s %s\n' % (word, paths[file], rest))
        listed = os.path.join(room, 'list')
        with open(listed, 'w') as out:
            out.write(''.join(lines))
        return subprocess.run([os.path.join(room, 'oracle'), 'batch', listed], stdout=subprocess.PIPE, check=True).stdout.decode().splitlines()


def rust_opens(shared, files):
    """What the Rust's opening answers for each file: a dict of its fields, 'refused' or 'panicked'."""
    said = rust_says(shared, [('open', file, '') for file in files])
    return [dict(w.split('=', 1) for w in line.split()[2:]) if line.startswith('open ok') else line.split()[1] for line in said]


def same_opening(answer, rust):
    """Whether the Rust's palettes and tables are those of an accepted opening (words beyond the counts left out)."""
    _, _, h, tables, buffers = answer
    for p, name in RUST_PARTS.items():
        count = h[p][2] * (3 if p == 'as' else 1) if h[p[0] + 'e'][2] else 0
        words = b''.join(w.to_bytes(4 if p[0] == 'c' else 2, 'little') for w in buffers[p][:count])
        if rust['palette:' + name] != '%d:%s' % (count, hashlib.sha256(words).hexdigest()):
            return False
    return all(rust['table:' + name] == '%d:%s' % (len(tables[t]), hashlib.sha256(bytes(tables[t])).hexdigest()) for t, name in RUST_TABLES.items())


# Files that document 01 accepts and the Rust does not, by the number of their row in docs/DIFFERENCES.md.
def why_not(file, answer):
    _, _, h, tables, _ = answer
    read = [p for p in reference.PARTS if h[p[0] + 'e'][2]]
    ends = [h['tables_offset'] + h['tables_size']] + [h[p][0] + h[p][1] for p in read]
    own = []
    for p in read:
        reader = reference.Reader(file[h[p][0]:h[p][0] + h[p][1]])
        own += [reference.table(reader) for _ in range(2 if p == 'ce' else 1)]
    if any(not t for t in own) or any(not tables[t] for t in ['chunk'] + read):
        return 21
    if len(file) in ends:
        return 20
    return None


# The other way round: files that document 01 refuses and the Rust opens, or ends on in a panic.
LIMITS = [(4, lambda h: 0 in (h['width'], h['height'])), (5, lambda h: max(h['width'], h['height']) > 4096), (6, lambda h: h['levels'] == 0),
          (7, lambda h: h['levels'] > 13), (8, lambda h: h['faces'] not in (1, 6)), (9, lambda h: any(h[p][2] > 8192 for p in reference.PARTS)),
          (11, lambda h: not reference.planes_of(h['format'])),
          (10, lambda h: any(h[p][2] == 0 for p in reference.PARTS if p[0] in reference.planes_of(h['format'])))]
TABLE_RULES = {'count': 22, 'lengths': 23, 'code of lengths': 24, 'no lengths': 25, 'no code of lengths': 26}


def table_row(file, h):
    """The row of the table rule that refuses the file by 6."""
    read = [p for p in reference.PARTS if h[p[0] + 'e'][2]]
    segments = [(h['tables_offset'], h['tables_size'], 1 + len(read))] + [(h[p][0], h[p][1], 2 if p == 'ce' else 1) for p in read]
    for offset, size, tables in segments:
        reader = reference.Reader(file[offset:offset + size])
        for _ in range(tables):
            try:
                reference.table(reader)
            except reference.Refusal as refusal:
                return TABLE_RULES.get(refusal.rule)


def tables_first(file, h):
    """44 where the code tables fail, which the Rust reads before it looks at a palette's segment."""
    reader = reference.Reader(file[h['tables_offset']:h['tables_offset'] + h['tables_size']])
    try:
        for _ in range(1 + sum(h[p[0] + 'e'][2] > 0 for p in reference.PARTS)):
            reference.table(reader)
    except reference.Refusal:
        return 44


def why_so(file, number, opened):
    h = reference.header_of(file.ljust(1100, b'\0'))
    read = [p for p in reference.PARTS if h[p[0] + 'e'][2]]
    ends = [h['tables_offset'] + h['tables_size']] + [h[p][0] + h[p][1] for p in read]
    if not opened and len(file) < 70 + 4 * h['levels']:
        return 1
    at_the_end = 20 if not opened and len(file) in ends else None       # where a segment ends the file the Rust may look at the byte after it
    if number == 2:
        return next((row for row, holds in LIMITS if holds(h)), None)
    if number == 3:
        return 2 if h['header_size'] < 70 + 4 * h['levels'] else 3 if h['header_size'] > len(file) else None
    if number == 4:
        return 15 if max(ends) > len(file) else at_the_end or tables_first(file, h)
    if number == 5:
        return 29
    if number == 6:
        return table_row(file, h) or at_the_end
    if number == 8:
        return 17 if opened else 19
    return 28 if number == 9 and not opened else at_the_end


def compare_openings(shared, cases):
    """Holds the answers of reference.opening to the Rust's. `cases`: (file, answer). Prints a table; answers how many differ by no listed row."""
    rust, tally, faults = rust_opens(shared, [file for file, _ in cases]), collections.Counter(), 0
    for (file, answer), theirs in zip(cases, rust):
        ours = 'opened' if answer[0] == 0 else 'refused by %d' % answer[0]
        said = theirs if isinstance(theirs, str) else 'opened'
        if ours == said == 'opened':
            same = same_opening(answer, theirs)
            tally['opened by both, ' + ('the same' if same else 'DIFFERENT')] += 1
            faults += not same
        elif answer[0] and said == 'refused':
            tally[ours + '; by the Rust too'] += 1
        else:
            row = why_so(file, answer[0], said == 'opened') if answer[0] else why_not(file, answer)
            tally['%s; the Rust %s: row %s of docs/DIFFERENCES.md' % (ours, said, row)] += 1
            if row is None:
                faults += 1
                print('no row for this file (ours %s, the Rust %s): %s' % (ours, said, file.hex()))
    say(tally)
    return faults


def say(tally):
    for what, times in sorted(tally.items()):
        print('%6d  %s' % (times, what))


def shown_differences():
    """The inputs of docs/DIFFERENCES.md, by name."""
    return [(os.path.basename(p), open(p, 'rb').read()) for p in sorted(glob.glob(os.path.join(here, '..', 'differences', '*.crn')))]

