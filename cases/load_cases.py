"""The gate's cases of opening in two calls: every format with one and six faces, the file's own record, each number of it changed, records
of other files, heads and file lengths around their limits, files that the look refuses, and every refusal of the load (17, 4 to 9), 17 also
where another one is due."""
import random

import files
import level_cases
import reference

HEAD = 122                          # the bytes that a look reads: 70, and an offset for each of 13 levels
FORMATS = [0, 2, 3, 4, 5, 6, 7, 8, 9]
SHAPES = [  # width, height, levels, faces
    (1, 1, 1, 1), (4, 4, 3, 6), (5, 7, 2, 1), (9, 3, 4, 6), (1, 14, 13, 1), (8, 8, 1, 6), (12, 20, 5, 1), (3, 1, 13, 6), (16, 16, 2, 1)]
NUMBERS = [(field, 0) for field in [*files.NUMBERS, *files.PART_FIELDS]] + [(10, index) for index in range(13)]
UNUSED = [4, 5, 10, 11, 20, 21, 24, 25, 28, 29, 32]         # bytes of the CRCs, flags, reserved and user data: no file is refused for them


def small(mkcrn, seed, format, shape):
    width, height, levels, faces = shape
    return level_cases.smallest(mkcrn, seed, 8, format=format, faces=faces, width=width, height=height, levels=levels)


# ------------------------------------------------------------------ load calls of a file

def own(file, edits=()):
    return file[:HEAD], len(file), list(edits)


def number_of(header, field, index):
    if field == 10:
        return header['offsets'][index]
    if field in files.NUMBERS:
        return header[files.NUMBERS[field]]
    part, place = files.PART_FIELDS[field]
    return header[part][place]


def changed(file, field, index, bit):
    """The file's record with a bit of a number changed."""
    old = number_of(reference.header_of(file.ljust(HEAD, b'\0')), field, index)
    return own(file, [(field, index, old ^ 1 << bit)])


def edits_to(head, wanted):
    """The edits that make the look's record of the head, or the empty one, that other header."""
    header = reference.look(head, 0xffffffff)[1] or reference.EMPTY
    return [(f, i, number_of(wanted, f, i)) for f, i in NUMBERS if number_of(header, f, i) != number_of(wanted, f, i)]


def flipped(rng, file, at):
    return files.put(file, at, file[at] ^ 1 << rng.randrange(8), 1)


def of_others(rng, file, other):
    """Records of files that differ in a byte that no look refuses, or in one offset of a level; of another file; the empty one."""
    ats = [rng.choice(UNUSED[:4]), rng.choice(UNUSED[4:7]), rng.choice(UNUSED[7:]), 70 + 4 * rng.randrange(file[16]) + rng.randrange(4)]
    return [own(flipped(rng, file, at)) for at in ats] + [own(other), (b'', len(file), [])]


def heads(file):
    """Heads and file lengths: the record is the file's where the head has all that the look reads of it and the look accepts."""
    sizes = int.from_bytes(file[2:4], 'big'), int.from_bytes(file[6:10], 'big')
    end = 70 + 4 * file[16]
    calls = [(file[:n], len(file), []) for n in (4096, HEAD, end, end - 1, 121, 100, 74, 73, 70, 69, 2, 1, 0)]
    lengths = [0, 73, 74, sizes[0] - 1, sizes[0], sizes[1] - 1, sizes[1], 0x10000, 0x80000000, 0xffffffff]
    return calls + [(file[:HEAD], n, []) for n in lengths]


# ------------------------------------------------------------------ cases

def case_of(file, fill, loads, more=0, lent=None):
    return files.Case(file, lent or files.exact(file, fill, more), fill, [], [], loads=loads)


def good(mkcrn, rng):
    """Every format in two shapes, with one face and with six: the own record; each number changed, the lowest bit, the highest or any;
    records of others; heads."""
    first = [small(mkcrn, 900 + 17 * k, format, SHAPES[k]) for k, format in enumerate(FORMATS)]
    second = [small(mkcrn, 800 + 19 * k, format, (*SHAPES[k - 4][:3], 7 - SHAPES[k][3])) for k, format in enumerate(FORMATS)]
    for k, file in enumerate(first):
        bits = [[0], [31], range(32)][min(k, 2)]
        yield case_of(file, rng.randrange(1, 256), [own(file)] + [changed(file, *number, rng.choice(bits)) for number in NUMBERS], k % 3)
    for k, file in enumerate(second):
        loads = [own(file)] + of_others(rng, file, second[k - 1]) + ([] if k % 2 else heads(file))
        yield case_of(file, rng.randrange(1, 256), loads, k % 2)
        twin = flipped(rng, file, rng.choice(UNUSED))
        yield case_of(twin, rng.randrange(1, 256), [own(twin), own(file)])
    file = first[4]                                         # the same header before other bytes: the record is right
    other = flipped(rng, file, len(file) - 1)
    yield case_of(other, 0x1D, [own(file), own(other)])


def refused_looks(mkcrn):
    """Files that the look refuses, with the record of the whole file, the empty one, the refused look's, and one that has the file's fields
    as they stand: 17 all the same. The last look has 1 or 3 due besides."""
    for k, format in enumerate([0, 5, 7, 9]):
        file = small(mkcrn, 60 + 23 * k, format, SHAPES[2 * k])
        size = len(file)
        fields = [(0, 0x7848, 2), (12, 0, 2), (16, 14, 1), (18, 1, 1), (63, 8193, 2)]
        fields += [(2, 69 + 4 * file[16], 2), (2, size + 1, 2), (6, size + 1, 4)]
        wrong = [file[:73], file[:size - 1]] + [files.put(file, *field) for field in fields]
        for bad in wrong[k % 2::2]:
            as_read = edits_to(file[:HEAD], reference.header_of(bad.ljust(HEAD, b'\0')))
            loads = [own(file), (b'', size, []), own(bad), own(file, as_read), (bad[:HEAD], 74 - k // 2, [])]
            yield case_of(bad, 0x21 + k, loads, lent=files.exact(file, 0x21 + k))


def with_a_wrong_one(rng, file, fill, lent):
    """The right record, and a wrong one of whatever number."""
    return case_of(file, fill, [own(file), changed(file, *rng.choice(NUMBERS), rng.randrange(32))], lent=lent)


def refused_segments(mkcrn, rng):
    """4 and 5, alone and together, and with a wrong record."""
    for k, format in enumerate([0, 3, 8, 9]):
        file = small(mkcrn, 40 + 29 * k, format, SHAPES[k])
        h, lent = reference.header_of(file.ljust(HEAD, b'\0')), files.exact(file, 0x40 + k)
        used = [j for j, part in enumerate(reference.PARTS) if h[part][2]]
        short = [{**lent, part: lent[part][1:]} for part in reference.PARTS if lent[part]]
        bad = [files.put(file, 36 + 8 * used[0], 0, 3), files.put(file, 33 + 8 * used[-1], len(file), 3), files.put(file, 65, 0, 2)]
        for other, those in [(other, lent) for other in bad] + [(file, those) for those in short] + [(bad[k % 3], short[-1])]:
            yield with_a_wrong_one(rng, other, 0x40 + k, those)


def refused_streams(mkcrn, rng):
    """6 to 9: palettes zero with the right record, untouched with a wrong one."""
    for k, format in enumerate([0, 4, 7, 9]):
        file, wanted = small(mkcrn, 30 + 31 * k, format, SHAPES[k + 3]), {6, 7, 8, 9}
        lent = files.exact(file, 0x80 + k, 1)
        for _ in range(4000):
            other = flipped(rng, file, rng.randrange(70 + 4 * file[16], len(file)))
            number = reference.opening(other, lent)[0]
            if number in wanted:
                wanted.remove(number)
                yield with_a_wrong_one(rng, other, 0x80 + k, lent)
            if not wanted:
                break


def stored(mkcrn):
    rng = random.Random(20261118)
    yield from good(mkcrn, rng)
    yield from refused_looks(mkcrn)
    yield from refused_segments(mkcrn, rng)
    yield from refused_streams(mkcrn, rng)


# ------------------------------------------------------------------ at scale

def random_load(rng, file, other):
    """A load call with a bit of a number changed, another file's record, one of a changed head, of a short one, or with any file length."""
    kind = rng.randrange(6)
    if kind < 2:
        return changed(file, *rng.choice(NUMBERS), rng.randrange(32))
    if kind == 2:
        return own(other)
    if kind == 3:
        return own(flipped(rng, file, rng.randrange(min(len(file), HEAD)))) if file else own(other)
    if kind == 4:
        return file[:rng.choice([rng.randrange(HEAD + 1), 4096])], len(file), []
    return file[:HEAD], rng.choice([rng.getrandbits(32), rng.randrange(200), max(0, len(file) - 1), len(file) + 1]), []
