"""The gate's cases of DDS files: the four formats that go out and the others, one and six faces, sides and level counts around their
limits, destinations exact, short, longer and none, every refusal that writing gives (2, 4 to 8, 12 to 14, 16), two of them due together,
and levels damaged in their middle, at their end and in their last face alone."""
import itertools
import random

import files
import level_cases
import levels
import reference

MOST = levels.MOST
PLAIN = [0, 2, 7, 9]
SHAPES = [  # width, height, levels, faces
    (1, 1, 1, 1), (1, 1, 1, 6), (1, 1, 13, 1), (2, 1, 5, 6), (4, 4, 1, 1), (4, 4, 3, 6), (5, 7, 3, 1), (7, 5, 1, 6),
    (8, 8, 4, 1), (9, 3, 4, 6), (12, 20, 2, 1), (13, 1, 4, 1), (1, 14, 13, 6), (16, 16, 5, 1), (17, 18, 2, 6), (33, 20, 6, 1)]


# ------------------------------------------------------------------ files with a fault in one level

def scripts_of(mkcrn, rng, format, width, height, count, faces, size):
    """A good script for each level, palettes of `size` entries; and the palettes' segments."""
    parts = [p for p in reference.PARTS if p[0] in reference.planes_of(format)]
    make = {'ce': mkcrn.color_endpoints, 'ae': mkcrn.alpha_endpoints, 'cs': lambda r, c, s: mkcrn.selectors(r, c, s, 2),
            'as': lambda r, c, s: mkcrn.selectors(r, c, s, 3)}
    made = {p: make[p](rng, size, set()) for p in parts}
    words = {p: made[p][1] if p in made else [] for p in reference.PARTS}
    sides = [(max(1, width >> i), max(1, height >> i)) for i in range(count)]
    scripts = [mkcrn.level(rng, format, *side, faces, words, 'free', False, False)[0] for side in sides]
    return {p: made[p][0] for p in parts}, scripts


def last_face(script, faces):
    """Where the symbols of the last face begin: each face has as many selectors."""
    selectors = [k for k, (name, _) in enumerate(script) if name in ('cs', 'as')]
    return selectors[len(selectors) // faces * (faces - 1) - 1] + 1


def faulty(mkcrn, rng, kind, format, width, height, count, faces, level, where, size=4):
    """A file whose level is refused by 7, 8, 13 or 14, about `where`, a part of its script or 'last face'; or None where these tables do
    not have it. All other levels are good."""
    segments, scripts = scripts_of(mkcrn, rng, format, width, height, count, faces, size)
    script = scripts[level]
    able = [k for k, (name, _) in enumerate(script) if kind in (7, 8) or (name == 'chunk' if kind == 13 else name in ('ce', 'ae'))]
    first = last_face(script, faces) if where == 'last face' else where * len(script)
    at = next((k for k in able if k >= first), able[-1])
    assert at >= first or where != 'last face'
    if kind == 13:
        script[at] = 'chunk', script[at][1] % 512 + 1024
    if kind == 14:
        script[at] = script[at][0], 3 * size
    tables, bits = {}, mkcrn.Bits()
    for name in ['chunk'] + list(segments):
        tables[name] = mkcrn.random_table(rng, {s for script in scripts for t, s in script if t == name} | {0})
        mkcrn.put_table(bits, rng, tables[name])
    names, parts, counts = ['level%d' % i for i in range(count)], list(segments), {p: size for p in segments}
    segments['tables'] = bits.done()
    for k, script in enumerate(scripts):
        bits = mkcrn.Bits()
        if k == level and kind == 7:                # canonical codes leave the bits of ones free, if any
            lengths = tables[script[at][0]]
            if sum(1 << 16 - l for l in lengths if l) == 65536:
                return None
            mkcrn.put_symbols(bits, tables, script[:at])
            bits.put((1 << 16) - 1, 16)
        else:
            mkcrn.put_symbols(bits, tables, script)
        segments[names[k]] = bits.done()
        if k == level and kind == 8:
            cut = mkcrn.Bits()
            mkcrn.put_symbols(cut, tables, script[:at])
            segments[names[k]] = segments[names[k]][:max(1, len(cut.done()))]
            if len(segments[names[k]]) == len(bits.done()):
                return None
    return mkcrn.assemble(segments, parts + ['tables'] + names, counts, width, height, count, faces, format)


def smallest_faulty(mkcrn, seed, kind, *what):
    """Of the first files that have it."""
    made = (faulty(mkcrn, random.Random(1000 * seed + k), kind, *what) for k in range(1000))
    return min(itertools.islice((f for f in made if f and first_refusal(f) == (kind, what[5])), 5), key=len)


def first_refusal(file):
    opened = reference.opening(file, files.exact(file))
    said = reference.dds_out(reference.handed(opened[2], opened[3]), file, opened[4], bytes(MOST))
    return said[:2]


# ------------------------------------------------------------------ destinations

def needed(case):
    """How many bytes the case's DDS file has, or None."""
    opened = reference.opening(case.file, case.lent)
    number, size = reference.dds_bytes(files.record_of(case, opened)[0])
    return size if number == 0 else None


def exactly(case):
    """With a DDS call of just the length that is needed, or of some bytes where none would do."""
    size = needed(case)
    return case._replace(dds=[size if size and size <= MOST else 200])


def around(case):
    """Exactly long, longer, one byte short, without the header, and none."""
    size = needed(case)
    return case._replace(dds=[size, size + 37, size - 1, size - 128, 127, 0])


# ------------------------------------------------------------------ all of them

def with_records(case, record, more):
    """Records that are refused, alone and two refusals together, each with a destination that is long enough and one that is not."""
    h, end = record[0], len(case.file)
    planes = reference.planes_of(h['format'])
    two, six, sixteen, four = (1, 0, 0), (11, 0, 8193), (5, 0, 8 if planes == 'aa' else 3), (10, 2, h['offsets'][1])
    fives = [(6 + k, 0, h[part][2] + 1) for k, part in enumerate(reference.PARTS) if part[0] in planes]
    lists = [[five] for five in fives] + [[four, fives[0]], [(10, 0, end), fives[-1]]]
    lists += [[two], [six], [two, six], [four], [(10, h['levels'] - 1, end)]]
    if planes in ('ac', 'aa'):
        lists += [[sixteen], [six, sixteen], [two, sixteen], [two, six, sixteen], [four, sixteen], [fives[0], sixteen]]
    for edits in lists:
        yield case._replace(edits=edits, dds=[needed(case) + more, 20, 0])


def good(mkcrn):
    """Every shape in every format that goes out, the ways of calling by turns; the other formats."""
    rng = random.Random(20261117)
    for k, (width, height, count, faces) in enumerate(SHAPES):
        for format in PLAIN:
            wish = {'format': format, 'faces': faces, 'width': width, 'height': height, 'levels': count}
            case = level_cases.whole_case(level_cases.smallest(mkcrn, 70 + 13 * k, 10, **wish), rng.randrange(256), k % 2)
            size = needed(case)
            yield around(case) if k % 4 == format % 4 else case._replace(dds=[size, size + rng.randint(1, 60)])
    for format in [3, 4, 5, 6, 8]:
        for faces in [1, 6]:
            file = level_cases.smallest(mkcrn, 40 + format, 8, format=format, faces=faces, width=5, height=9, levels=2)
            yield level_cases.whole_case(file, 0x60 + format)._replace(dds=[4000, 128, 0])


def damaged(mkcrn):
    """Levels with a fault: the first, one in the middle and the last, early and late in them; and in the last face alone."""
    shapes = [(0, 13, 9, 3, 1), (2, 8, 8, 4, 1), (7, 9, 16, 3, 1), (9, 17, 5, 3, 1), (0, 5, 8, 3, 6), (9, 8, 4, 2, 6)]
    for k, (format, width, height, count, faces) in enumerate(shapes):
        for kind in [7, 8, 13, 14]:
            for level, where in [(0, 0), (count // 2, .5), (count - 1, .95)]:
                file = smallest_faulty(mkcrn, 100 * k + kind, kind, format, width, height, count, faces, level, where)
                case = level_cases.whole_case(file, 0x90 + k)
                size = needed(case)
                yield case._replace(dds=[size, size + 33, size - 1])
    for k, format in enumerate(PLAIN):
        for kind in [7, 8, 13, 14]:
            shape = (16, 13, 1, 6, 0) if kind == 13 else (8, 7, 2, 6, 1)
            case = level_cases.whole_case(smallest_faulty(mkcrn, 700 + 10 * k + kind, kind, format, *shape, 'last face'), 0xB0 + k)
            yield case._replace(dds=[needed(case), needed(case) + 5])


def stored(mkcrn):
    yield from good(mkcrn)
    yield from damaged(mkcrn)
    for format, faces in [(0, 1), (2, 1), (7, 6), (9, 6)]:
        file = level_cases.smallest(mkcrn, 300 + format, 12, format=format, faces=faces, width=6, height=5, levels=3)
        case = level_cases.whole_case(file, 0x55)
        yield from with_records(case, files.record_of(case, reference.opening(file, case.lent)), 9)
    yield from largest(mkcrn)
    yield from not_opened()
    yield cube_over_old_bytes(mkcrn)


def largest(mkcrn):
    """Records edited to the largest sides and the most levels: how many bytes that needs, and 12."""
    for format, faces in [(0, 1), (2, 6), (7, 6), (9, 1)]:
        file = level_cases.smallest(mkcrn, 500 + format, 8, format=format, faces=faces, width=3, height=3, levels=1)
        case = level_cases.whole_case(file, 7)._replace(dds=[1000, 0])
        for edits in [[(1, 0, 4096), (2, 0, 4096), (3, 0, 13)], [(1, 0, 4096)], [(2, 0, 4095), (3, 0, 13)], [(2, 0, 4096), (3, 0, 2)]]:
            yield case._replace(edits=edits)
        for edits in [[(1, 0, 4097)], [(3, 0, 14)], [(4, 0, 5)], [(4, 0, 7 - faces)], [(5, 0, 1)], [(5, 0, 10)]]:
            yield case._replace(edits=edits)


def not_opened():
    """The empty record of a file that did not open, and that record made a DXT1 of one block by edits alone."""
    case = level_cases.empty_made_whole()._replace(calls=[])
    return [case._replace(edits=[], dds=[200, 0]), case._replace(dds=[136, 135, 140, 0])]


def cube_over_old_bytes(mkcrn):
    """A cube map over a destination full of a byte that the whole DDS file does not have: not one old byte is left in it."""
    for seed in range(1000):
        file = level_cases.smallest(mkcrn, 11 * seed, 3, format=2, faces=6, width=9, height=6, levels=4)
        case = level_cases.whole_case(file, 0)
        size = needed(case)
        out = files.answers_of(case._replace(dds=[size]))[2][0][0][6]
        unused = [b for b in range(1, 256) if b not in out]
        if unused and len(set(out)) > 60:
            case = level_cases.whole_case(file, unused[-1])._replace(dds=[size, size + 50])
            assert unused[-1] not in files.answers_of(case)[2][0][0][6]
            return case


# ------------------------------------------------------------------ the Rust

def as_levels(case, opened, dds):
    """The levels of the DDS files as calls of their own with their answers, as levels.compare takes them: the surfaces of a file that was
    written, or the one level that was refused."""
    record = files.record_of(case, opened)
    h, calls, answers = record[0], [], []
    for (number, level, _, size, _, _, out), _ in dds:
        if number in (2, 6, 12, 16):
            continue
        for k in range(h['levels']) if number == 0 else [level]:
            pitch, each, room = levels.tight(record, k)
            calls.append((k, pitch, each, levels.ENDLESS, room))
            chain = (size - 128) // h['faces'] if number == 0 else 0
            begin = 128 + sum(levels.tight(record, n)[1] for n in range(k))
            faces = [out[begin + f * chain:begin + f * chain + each] for f in range(h['faces'])] if number == 0 else []
            answers.append((number, 0, 0, 0, 0, b''.join(faces)))
    return case._replace(calls=calls), opened, answers
