"""The gate's cases of levels: every format, sizes around every boundary, one and six faces, several levels, budgets and destinations exact and one short, records
edited into every kind of fault, and every refusal that a level gives (2, 4 to 8, 10 to 15)."""
import random

import files
import levels
import reference

ENDLESS = levels.ENDLESS
SIDES = [(1, 1), (2, 3), (4, 4), (5, 4), (4, 5), (3, 8), (8, 8), (9, 7), (7, 9), (12, 20), (13, 16), (16, 17), (17, 11), (6, 15), (10, 14), (18, 19), (19, 1), (1, 18), (15, 6),
         (11, 10), (14, 13), (20, 12), (8, 1), (1, 8), (20, 20), (12, 2), (2, 12)]


def smallest(mkcrn, seed, tries, **wish):
    return min((mkcrn.make(seed + 1000003 * k, **wish)[0] for k in range(tries)), key=len)


def record_of(case):
    opened = reference.opening(case.file, case.lent)
    return files.edited(reference.handed(opened[2], opened[3]), case.edits), opened[4]


def fitting(record, level, wider=0, further=0):
    """A call with room for the level and no more, and a budget without end."""
    pitch = levels.tight(record, level)[0] + wider
    distance = levels.grid_of(record, level, 0, 0).rows * pitch + further
    return level, pitch, distance, ENDLESS, levels.grid_of(record, level, pitch, distance).reach()


def around(record, case, buffers, level, wider, further):
    """A level with budget and destination exact, and each one short."""
    level, pitch, distance, _, room = fitting(record, level, wider, further)
    symbols = reference.unpacking(record, case.file, buffers, level, pitch, distance, ENDLESS, bytes(room))[1]
    return [(level, pitch, distance, symbols, room), (level, pitch, distance, symbols - 1, room), (level, pitch, distance, symbols, room - 1)]


def whole_case(file, fill, more=0, edits=()):
    return files.Case(file, files.exact(file, fill, more), fill, list(edits), [])


# ------------------------------------------------------------------ files that a script of symbols makes

def scripted(mkcrn, *what, **wish):
    return min((one_scripted(mkcrn, random.Random(seed), *what, **wish) for seed in range(16)), key=len)


def one_scripted(mkcrn, rng, format, width, height, faces, script, size=5, levels=1):
    """A file whose levels each have these symbols: (table, symbol) with the tables chunk, ce, cs, ae, as; its palettes have `size` entries."""
    parts = [p for p in reference.PARTS if p[0] in reference.planes_of(format)]
    make = {'ce': mkcrn.color_endpoints, 'ae': mkcrn.alpha_endpoints, 'cs': lambda r, c, s: mkcrn.selectors(r, c, s, 2), 'as': lambda r, c, s: mkcrn.selectors(r, c, s, 3)}
    segments = {p: make[p](rng, size, set())[0] for p in parts}
    tables, bits = {}, mkcrn.Bits()
    for name in ['chunk'] + parts:
        tables[name] = mkcrn.random_table(rng, {s for t, s in script if t == name} | {0, 1, 2, 3})
        mkcrn.put_table(bits, rng, tables[name])
    segments['tables'] = bits.done()
    bits = mkcrn.Bits()
    mkcrn.put_symbols(bits, tables, script)
    names = ['level%d' % i for i in range(levels)]
    segments.update({name: bits.done() for name in names})
    return mkcrn.assemble(segments, parts + ['tables'] + names, {p: size for p in parts}, width, height, levels, faces, format)


def chunks_of(encodings, tile_counts=reference.TILE_COUNTS):
    """A DXT1 script with these encodings, all deltas 0."""
    script = []
    for k, e in enumerate(encodings):
        if k % 3 == 0:
            script.append(('chunk', sum(x << 3 * i for i, x in enumerate(encodings[k:k + 3]))))
        script += [('ce', 0)] * tile_counts[e] + [('cs', 0)] * 4
    return script


def scripts(mkcrn):
    """Document 01's examples: 12 x 20 pixels with 32 to 50 symbols; chunk symbols around 1,024; indices in and out of range, used and skipped."""
    for encodings in [[0] * 6, [7] * 6, [1, 2, 0, 3, 4, 5], [6, 7, 0, 0, 7, 3]]:
        yield scripted(mkcrn, 0, 12, 20, 1, chunks_of(encodings))
    for symbol in [200, 712, 1023, 1024, 4096]:
        low = symbol % 512
        rest = chunks_of([low % 8, low // 8 % 8, low // 64])[1:]
        yield scripted(mkcrn, 0, 24, 8, 1, [('chunk', symbol)] + rest)
    for deltas in [[3, 4], [3, 7], [4, 5], [5], [9], [10]]:             # endpoints of a palette of 5, one tile a chunk
        script = [('chunk', 0)]
        for d in deltas:
            script += [('ce', d)] + [('cs', 0)] * 4
        yield scripted(mkcrn, 0, 8 * len(deltas), 8, 1, script)
    for used, deltas in [((8, 8), [12, 0, 0, 0]), ((8, 8), [4, 7, 0, 0]), ((4, 8), [0, 12, 0, 0]), ((4, 8), [0, 12, 5, 0]), ((8, 4), [0, 0, 9, 9]), ((4, 4), [1, 9, 9, 9])]:
        yield scripted(mkcrn, 0, used[0], used[1], 1, [('chunk', 0), ('ce', 1)] + [('cs', d) for d in deltas])
        yield scripted(mkcrn, 9, used[0], used[1], 1, [('chunk', 0), ('ae', 1)] + [('as', d) for d in deltas])
    two = [('chunk', 0), ('ae', 4), ('ae', 3)]                          # DXN's planes: the same palettes, indices of their own
    yield scripted(mkcrn, 7, 8, 8, 1, two + [('as', d) for d in [1, 2, 3, 4, 4, 4, 2, 1]])
    yield scripted(mkcrn, 8, 4, 4, 1, two + [('as', d) for d in [1, 9, 0, 0, 0, 0, 0, 0]])
    yield scripted(mkcrn, 2, 4, 4, 1, [('chunk', 0), ('ae', 4), ('ce', 3), ('as', 9), ('cs', 0), ('as', 0), ('cs', 0), ('as', 0), ('cs', 0), ('as', 0), ('cs', 0)])


# ------------------------------------------------------------------ records with a fault

def faults(record, file):
    """Lists of edits: each field at and beyond its limit, tables that are no code, offsets that leave no segment, and edits that change nothing."""
    h, tables = record
    planes = reference.planes_of(h['format'])
    for field, values in [(1, [0, 4096, 4097, 1 << 31]), (2, [0, 4097]), (3, [0, 13, 14, 256]), (4, [0, 1, 2, 6, 7, 256]), (5, [1, 10, 255, 256])]:
        yield from ([(field, 0, v)] for v in values)
    for k, part in enumerate(reference.PARTS):
        yield from ([(6 + k, 0, v)] for v in [0, h[part][2] + 1, 8192, 8193, 1 << 16])
    for value in [len(file) - 1, len(file), len(file) + 1, 0xffffffff, 0]:
        yield [(10, 0, value)]
        yield [(10, 1, value)]
    yield [(10, 13, 0)]
    yield [(10, 0xffffffff, 0)]
    for k, name in enumerate(reference.TABLES):
        count, lengths = tables[name]
        first = next((s for s in range(count) if lengths[s]), 0)
        for edits in ([(11 + k, 0, 0)], [(11 + k, 0, 8193)], [(11 + k, 0, 0xffffffff)], [(11 + k, 0, 8192)], [(16 + k, first, 17)], [(16 + k, 8191, 17)], [(16 + k, 8192, 17)],
                      [(11 + k, 0, 8192), (16 + k, 8191, 17)], [(11 + k, 0, 3), (16 + k, 0, 1), (16 + k, 1, 1), (16 + k, 2, 257)], [(11 + k, 0, 1), (16 + k, 0, 0)],
                      [(11 + k, 0, 2), (16 + k, 0, 2), (16 + k, 1, 2)]):
            yield edits
    yield [(0, 0, 1), (39, 0, 1), (255, 0, 1)]
    yield [(1, 0, 0), (11, 0, 8193)]                                    # 2 before 6
    yield [(11, 0, 8193), (3, 0, 1)]                                    # 6 before 10 (the call asks for level 1 too)
    yield [(6 if 'c' in planes else 8, 0, 8192), (10, 0, len(file))]    # 4 before 5


def empty_made_whole():
    """The empty record of a file that did not open, made a DXT1 of one block by edits alone: its palettes are what refusal 1 left in the lent buffers."""
    edits = [(field, 0, value) for field, value in [(1, 4), (2, 4), (3, 1), (4, 1), (6, 2), (7, 2), (10, 1)]]
    for k in range(3):
        edits += [(11 + k, 0, 2), (16 + k, 0, 1), (16 + k, 1, 1)]
    lent = {'ce': [0xA1] * 2, 'cs': [0xA1] * 2, 'ae': [], 'as': []}
    return files.Case(b'Hx\x10', lent, 0xA1, edits, [(0, 8, 8, 6, 8), (0, 8, 8, 5, 8), (1, 8, 8, 6, 8)])


# ------------------------------------------------------------------ all of them

def stored(mkcrn):
    rng = random.Random(20261116)
    base = []
    for k, (width, height) in enumerate(SIDES):
        wish = {'format': [0, 2, 3, 4, 5, 6, 7, 8, 9][k % 9], 'faces': 6 if (k + k // 9) % 3 == 2 else 1, 'width': width, 'height': height, 'levels': 1 + max(width, height).bit_length() % 4}
        base.append(smallest(mkcrn, 50 + 11 * k, 10, **wish))
    for k, file in enumerate(base):
        case = whole_case(file, rng.randrange(256), k % 2)
        record, buffers = record_of(case)
        calls = []
        for level in range(record[0]['levels']):
            calls += around(record, case, buffers, level, 0, 0)
            calls.append(fitting(record, level, rng.choice([4, 8, 20]), rng.choice([0, 4, 36])))
        level, pitch, distance, budget, room = fitting(record, 0)
        calls += [(0, pitch + 4, distance + 400, budget, room + 4000), (0, pitch - 4, distance, budget, room), (0, pitch + 2, 2 * distance + 40, budget, 9000), (0, 0, distance, budget, room),
                  (0, pitch, distance - 4, budget, room), (0, pitch, distance + 2, budget, 9000), (0, pitch, distance, 0, room), (0, pitch, distance, budget, 0),
                  (0, pitch, ENDLESS - 3, budget, room), (0, ENDLESS - 3, ENDLESS - 3, budget, room), (0, 1 << 62, ENDLESS - 3, budget, room), (record[0]['levels'], pitch, distance, budget, room),
                  (0xffffffff, pitch, distance, budget, room)]
        yield case._replace(calls=calls)
        lent = {p: words[:-1] for p, words in case.lent.items()}
        yield case._replace(lent=lent, calls=[fitting(record, 0)])      # opening refuses by 5 or, with words to spare, does not
        yield from (damaged(rng, case) for _ in range(2))
    for file in scripts(mkcrn):
        case = whole_case(file, 0xC3)
        record, buffers = record_of(case)
        yield case._replace(calls=around(record, case, buffers, 0, 0, 0))
    for format, script in [(0, [('ce', 1), ('cs', 2), ('cs', 1), ('cs', 0), ('cs', 1)]), (3, [('ae', 1), ('ce', 2)] + [('as', 1), ('cs', 1)] * 4)]:
        file = scripted(mkcrn, format, 5, 3, 1, [('chunk', 512)] + script, size=2, levels=2)
        case = whole_case(file, 0x77)
        record, _ = record_of(case)
        for edits in faults(record, file):
            call = fitting(record, 0)
            level = 1 if edits[-1] == (3, 0, 1) else 0
            yield case._replace(edits=edits, calls=[(level,) + call[1:]])
    yield empty_made_whole()
    yield cube_over_old_bytes(mkcrn)
    for _, file in files.shown_differences():
        case = whole_case(file, 0xEE, 2)
        if reference.opening(file, case.lent)[0] == 0:
            record, _ = record_of(case)
            yield case._replace(calls=[fitting(record, level, 8, 16) for level in range(record[0]['levels'])])
    for width, height, format in [(61, 34, 0), (33, 70, 5)]:            # larger ones
        case = whole_case(smallest(mkcrn, width, 6, format=format, faces=1, width=width, height=height, levels=1), 1)
        record, buffers = record_of(case)
        yield case._replace(calls=around(record, case, buffers, 0, 12, 0))


def damaged(rng, case):
    """The same calls on a file with a fault in its levels, by what its header now says."""
    case = case._replace(file=levels.damaged_level(rng, case.file))
    opened = reference.opening(case.file, case.lent)
    record = reference.handed(opened[2], opened[3])
    return case._replace(calls=[fitting(record, level) for level in range(record[0]['levels'])] if opened[0] == 0 else [(0, 8, 8, ENDLESS, 8)])


def cube_over_old_bytes(mkcrn):
    """A cube map over a buffer full of a byte that none of its blocks has: not one old byte is left in them."""
    for seed in range(1000):
        file = smallest(mkcrn, 9 * seed, 3, format=0, faces=6, width=9, height=5, levels=1)
        case = whole_case(file, 0)
        record, buffers = record_of(case)
        call = fitting(record, 0)
        out = reference.unpacking(record, file, buffers, *call[:4], bytes(call[4]))[5]
        unused = [b for b in range(1, 256) if b not in out]
        if unused and len(set(out)) > 40:
            case = whole_case(file, unused[-1])
            assert unused[-1] not in reference.unpacking(record, file, record_of(case)[1], *call[:4], bytes([unused[-1]]) * call[4])[5]
            return case._replace(calls=[call, (0, call[1], call[2] + 12, ENDLESS, call[4] + 60)])
