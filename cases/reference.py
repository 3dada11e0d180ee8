"""A plain reading of document 01, written from its text alone, and of requests 1 and 2 in document 02, from their text and the choices of
docs/DECISIONS.md: neither from the proved code nor from the Rust.

It makes the answers that the stored cases are held to, and stands beside the Rust in the comparisons at scale. Speed matters little here;
that each line can be held against a sentence of the document does. A refusal is an exception with its number and the bit that it names."""
import re

LENGTH_ORDER = [17, 18, 19, 20, 0, 8, 7, 9, 6, 10, 5, 11, 4, 12, 3, 13, 2, 14, 1, 15, 16]


class Refusal(Exception):
    def __init__(self, number, bit=0, rule=''):
        self.number, self.bit, self.rule = number, bit, rule


def canonical(lengths):
    """Bit string -> symbol. Shorter codes first, then by symbol."""
    codes, code, last = {}, 0, 0
    for length, symbol in sorted((l, s) for s, l in enumerate(lengths) if l):
        code <<= length - last
        last = length
        codes[format(code, '0%db' % length)] = symbol
        code += 1
    return codes


def is_code(lengths):
    used = [l for l in lengths if l]
    return bool(used) and max(used) <= 16 and sum(1 << 16 - l for l in used) <= 65536


class Reader:
    """The bits of a segment, most significant first, from a place on; with a budget of symbols, or none."""

    def __init__(self, segment, place=0, budget=None):
        self.bits = ''.join(format(b, '08b') for b in segment)
        self.place, self.budget, self.drawn, self.codes = place, budget, 0, {}

    def number(self, n):
        if self.place + n > len(self.bits):
            raise Refusal(8, self.place)
        self.place += n
        return int(self.bits[self.place - n:self.place] or '0', 2)

    def draw(self, lengths):
        """The symbol, and the bit at which its code begins."""
        if self.budget == 0:
            raise Refusal(15, self.place)
        key = id(lengths)
        if key not in self.codes:
            codes = canonical(lengths)
            self.codes[key] = (lengths, codes, sorted({len(c) for c in codes}))
        _, codes, sizes = self.codes[key]
        at = self.place
        for size in sizes:
            symbol = codes.get(self.bits[at:at + size])
            if symbol is not None and at + size <= len(self.bits):
                self.place += size
                self.drawn += 1
                if self.budget is not None:
                    self.budget -= 1
                return symbol, at
        longest = sizes[-1] if sizes else 0
        raise Refusal(8 if len(self.bits) - at < longest else 7, at)


# ------------------------------------------------------------------ code tables

def table(reader):
    at = reader.place
    count = reader.number(14)
    if count == 0:
        return []
    if count > 8192:
        raise Refusal(6, at, 'count')
    at = reader.place
    n = reader.number(5)
    if not 1 <= n <= 21:
        raise Refusal(6, at)
    code = [0] * 21
    for symbol in LENGTH_ORDER[:n]:
        code[symbol] = reader.number(3)
    if not is_code(code):
        raise Refusal(6, reader.place, 'code of lengths' if any(code) else 'no code of lengths')
    lengths = []
    while len(lengths) < count:
        symbol, at = reader.draw(code)
        if symbol <= 16:
            run = [symbol]
        elif symbol == 17:
            run = [0] * (3 + reader.number(3))
        elif symbol == 18:
            run = [0] * (11 + reader.number(7))
        else:
            times = 3 + reader.number(2) if symbol == 19 else 7 + reader.number(6)
            if not lengths or lengths[-1] == 0:
                raise Refusal(6, at)
            run = [lengths[-1]] * times
        if len(lengths) + len(run) > count:
            raise Refusal(6, at)
        lengths += run
    if not is_code(lengths):
        raise Refusal(6, reader.place, 'lengths' if any(lengths) else 'no lengths')
    return lengths


# ------------------------------------------------------------------ palettes

def color_endpoints(reader, count):
    tables, v, words = [table(reader), table(reader)], [0] * 6, []
    for _ in range(count):
        for i, which in enumerate([0, 1, 0, 0, 1, 0]):
            v[i] = (v[i] + reader.draw(tables[which])[0]) % (64 if which else 32)
        a, b, c, d, e, f = v
        words.append(c + 32 * b + 2048 * a + (f << 16) + (e << 21) + (d << 27))
    return words


def alpha_endpoints(reader, count):
    deltas, v, words = table(reader), [0, 0], []
    for _ in range(count):
        for i in range(2):
            v[i] = (v[i] + reader.draw(deltas)[0]) % 256
        words.append(v[0] + 256 * v[1])
    return words


def selectors(reader, count, top, from_linear, width):
    """Sixteen running values from 0 to top; the packed bits of each entry."""
    deltas, v, entries, n = table(reader), [0] * 16, [], 2 * top + 1
    for _ in range(count):
        for j in range(8):
            symbol, at = reader.draw(deltas)
            if symbol >= n * n:
                raise Refusal(9, at)
            v[2 * j] = (v[2 * j] + symbol % n - top) % (top + 1)
            v[2 * j + 1] = (v[2 * j + 1] + symbol // n - top) % (top + 1)
        entries.append(sum(from_linear[x] << width * i for i, x in enumerate(v)))
    return entries


def color_selectors(reader, count):
    return selectors(reader, count, 3, [0, 2, 3, 1], 2)


def alpha_selectors(reader, count):
    entries = selectors(reader, count, 7, [0, 2, 3, 4, 5, 6, 7, 1], 3)
    return [e >> 16 * k & 0xffff for e in entries for k in range(3)]


# ------------------------------------------------------------------ the header

PARTS = ['ce', 'cs', 'ae', 'as']      # colour endpoints, colour selectors, alpha endpoints, alpha selectors
PALETTES = dict(zip(PARTS, [color_endpoints, color_selectors, alpha_endpoints, alpha_selectors]))
FIELDS = [('header_size', 2), ('header_crc16', 2), ('data_size', 4), ('data_crc16', 2), ('width', 2), ('height', 2), ('levels', 1),
          ('faces', 1), ('format', 1), ('flags', 2), ('reserved', 4), ('userdata0', 4), ('userdata1', 4)]


def header_of(file):
    at = 2

    def take(width):
        nonlocal at
        at += width
        return int.from_bytes(file[at - width:at], 'big')

    header = {name: take(width) for name, width in FIELDS}
    for part in PARTS:
        header[part] = [take(3), take(3), take(2)]          # offset, size, count
    header['tables_size'], header['tables_offset'] = take(2), take(3)
    header['offsets'] = [take(4) if i < header['levels'] else 0 for i in range(13)]
    return header


def planes_of(format):
    """The planes of a block in the order of its bytes: c colour, a alpha."""
    return {0: 'c', 7: 'aa', 8: 'aa', 9: 'a'}.get(format, 'ac' if 2 <= format <= 6 else '')


def within_limits(h):
    planes = planes_of(h['format'])
    return (1 <= h['width'] <= 4096 and 1 <= h['height'] <= 4096 and 1 <= h['levels'] <= 13 and h['faces'] in (1, 6) and planes != ''
            and all(h[p][2] <= 8192 for p in PARTS) and all(h[p][2] >= 1 for p in PARTS if p[0] in planes))


# ------------------------------------------------------------------ opening

TABLES = ['chunk'] + PARTS


def look(head, length):
    """(refusal, header) of a file of so many bytes that begins with the head; bytes past the head's end count as 0. The header is None
    where it is refused."""
    if length < 74 or head[:2] != b'\x48\x78':
        return 1, None
    h = header_of(head.ljust(122, b'\0'))
    if not within_limits(h):
        return 2, None
    if h['header_size'] < 70 + 4 * h['levels'] or h['header_size'] > length or h['data_size'] > length or length > 0xffffffff:
        return 3, None
    return 0, h


def shut(lent, number, bit=0):
    return number, bit, None, None, lent


def opening(file, lent):
    """(refusal, bit, header, tables, buffers): the header and the tables None where refused. `lent`: the words of the four buffers, by part."""
    number, h = look(file, len(file))
    return shut(lent, number) if number else after_the_look(h, file, lent)


def loading(header, file, lent):
    """As opening, with the look's record handed in: 17 where it is not what the look says of this file, "also where the look refuses"."""
    number, h = look(file, len(file))
    return shut(lent, 17) if number or header != h else after_the_look(h, file, lent)


def after_the_look(h, file, lent):
    read = [p for p in PARTS if h[p[0] + 'e'][2] > 0]
    for offset, size in [(h['tables_offset'], h['tables_size'])] + [h[p][:2] for p in read]:
        if size == 0 or offset + size > len(file):
            return shut(lent, 4)
    if any(len(lent[p]) < h[p][2] * (3 if p == 'as' else 1) for p in read):
        return shut(lent, 5)
    try:
        reader = Reader(file[h['tables_offset']:h['tables_offset'] + h['tables_size']])
        tables = {name: table(reader) if name == 'chunk' or name in read else [] for name in TABLES}
        buffers = dict(lent)
        for p in read:
            offset, size, count = h[p]
            words = PALETTES[p](Reader(file[offset:offset + size]), count)
            buffers[p] = words + list(lent[p][len(words):])
    except Refusal as no:
        return shut({p: [0] * len(lent[p]) for p in PARTS}, no.number, no.bit)
    return 0, 0, h, tables, buffers


# ------------------------------------------------------------------ a level

TILE_COUNTS = [1, 2, 2, 3, 3, 3, 3, 4]
TILES = ['0000', '0011', '0101', '0012', '1200', '0102', '1020', '0123']      # at left-top, right-top, left-bottom, right-bottom


EMPTY = header_of(bytes(74))          # of a refusal


def handed(header, tables):
    """The record as a level takes it: the header's fields, and each table's count beside its 8,192 lengths. All zero where opening refused."""
    if header is None:
        header, tables = EMPTY, {t: [] for t in TABLES}
    return header, {t: (len(tables[t]), tables[t] + [0] * (8192 - len(tables[t]))) for t in TABLES}


class Grid:
    """A level's blocks: face f at f x distance, rows a pitch apart."""

    def __init__(self, header, level, pitch, distance):
        self.faces, self.pitch, self.distance = header['faces'], pitch, distance
        self.columns, self.rows = [(max(1, header[side] >> level) + 3) // 4 for side in ('width', 'height')]
        self.bytes = 8 * len(planes_of(header['format']))

    def reach(self):
        return (self.faces - 1) * self.distance + (self.rows - 1) * self.pitch + self.columns * self.bytes

    def places(self):
        """(face, row, column, first byte) of every block."""
        for f in range(self.faces):
            for y in range(self.rows):
                for x in range(self.columns):
                    yield f, y, x, f * self.distance + y * self.pitch + x * self.bytes


def level_segment(header, file, level):
    return header['offsets'][level], header['offsets'][level + 1] if level + 1 < header['levels'] else len(file)


def of_the_record(record):
    """The refusal of a handed record, or 0."""
    h, tables = record
    if not within_limits(h):
        return 2
    if any(count > 8192 or count > 0 and not is_code(lengths[:count]) for count, lengths in tables.values()):
        return 6
    return 0


def before_the_first_draw(record, file, lent, level, pitch, distance, room):
    """The refusal, or 0: "2, 6, 10, 4, 5, 11, 12"."""
    h, number = record[0], of_the_record(record)
    if number:
        return number
    if level >= h['levels']:
        return 10
    start, end = level_segment(h, file, level)
    if start >= end or end > len(file) or len(file) > 0xffffffff:
        return 4
    if any(len(lent[p]) < h[p][2] * (3 if p == 'as' else 1) for p in PARTS if p[0] in planes_of(h['format'])):
        return 5
    grid = Grid(h, level, pitch, distance)
    if pitch % 4 or distance % 4 or pitch < grid.columns * grid.bytes or distance < grid.rows * pitch:
        return 11
    return 12 if room < grid.reach() else 0


class Index:
    """A running palette index."""

    def __init__(self, lengths, size):
        self.lengths, self.size, self.value = lengths, size, 0

    def step(self, reader, judged):
        delta, at = reader.draw(self.lengths)
        self.value += delta
        if self.value >= self.size:
            self.value -= self.size
        if judged and self.value >= self.size:
            raise Refusal(14, at)
        return self.value


def half_block(plane, lent, endpoint, selector):
    if plane == 'c':
        return lent['ce'][endpoint].to_bytes(4, 'little') + lent['cs'][selector].to_bytes(4, 'little')
    return b''.join(word.to_bytes(2, 'little') for word in [lent['ae'][endpoint]] + lent['as'][3 * selector:3 * selector + 3])


def blocks_of(reader, record, lent, grid):
    """(face, row, column) -> the block's bytes."""
    h, codes = record[0], {t: lengths[:count] for t, (count, lengths) in record[1].items()}
    planes = planes_of(h['format'])
    endpoints = [Index(codes[p + 'e'], h[p + 'e'][2]) for p in planes]
    selectors = [Index(codes[p + 's'], h[p + 's'][2]) for p in planes]
    pending, blocks = [], {}
    for face in range(grid.faces):
        for chunk_row in range((grid.rows + 1) // 2):
            row = range((grid.columns + 1) // 2)
            for chunk_column in row if chunk_row % 2 == 0 else reversed(row):
                if not pending:
                    symbol, at = reader.draw(codes['chunk'])
                    if symbol >= 1024:
                        raise Refusal(13, at)
                    pending = [symbol % 8, symbol // 8 % 8, symbol // 64 % 8]
                encoding = pending.pop(0)
                tiles = [[index.step(reader, True) for _ in range(TILE_COUNTS[encoding])] for index in endpoints]
                for position in range(4):
                    y, x = 2 * chunk_row + position // 2, 2 * chunk_column + position % 2
                    inside = y < grid.rows and x < grid.columns
                    chosen = [index.step(reader, inside) for index in selectors]
                    if inside:
                        tile = int(TILES[encoding][position])
                        blocks[face, y, x] = b''.join(half_block(p, lent, tiles[k][tile], chosen[k]) for k, p in enumerate(planes))
    return blocks


def unpacking(record, file, lent, level, pitch, distance, budget, destination):
    """(refusal, symbols, cut-outs, what is left of the budget, bit, destination)."""
    number = before_the_first_draw(record, file, lent, level, pitch, distance, len(destination))
    if number:
        return number, 0, 0, budget, 0, destination
    h, bit, cutouts, out = record[0], 0, 0, bytearray(destination)
    grid = Grid(h, level, pitch, distance)
    start, end = level_segment(h, file, level)
    reader = Reader(file[start:end], budget=budget)
    try:
        blocks = blocks_of(reader, record, lent, grid)
    except Refusal as no:
        number, bit, blocks = no.number, no.bit, None
    for f, y, x, at in grid.places():
        block = blocks[f, y, x] if blocks else bytes(grid.bytes)
        out[at:at + grid.bytes] = block
        if h['format'] == 0 and int.from_bytes(block[:2], 'little') < int.from_bytes(block[2:4], 'little'):
            cutouts += 1
    return number, reader.drawn, cutouts, reader.budget, bit, bytes(out)


# ------------------------------------------------------------------ a DDS file (document 02, CR 1)

LETTERS = {0: b'DXT1', 2: b'DXT5', 7: b'BC5U', 9: b'BC4U'}        # "Formats 0, 2, 7 and 9"; any other is 16


def surfaces(h):
    """The bytes of each level of one face, from large to small."""
    grids = [Grid(h, level, 0, 0) for level in range(h['levels'])]
    return [grid.rows * grid.columns * grid.bytes for grid in grids]


def dds_header(h):
    """The magic and the 124 bytes of Microsoft's DDS_HEADER, field by field."""
    mipped, cube = h['levels'] > 1, h['faces'] == 6
    pixel_format = {
        'dwSize': 32,
        'dwFlags': 0x4,                                             # the four letters are valid
        'dwFourCC': int.from_bytes(LETTERS[h['format']], 'little'),
        'dwRGBBitCount': 0, 'dwRBitMask': 0, 'dwGBitMask': 0, 'dwBBitMask': 0, 'dwABitMask': 0,
    }
    head = {
        'dwSize': 124,
        'dwFlags': 0x1 + 0x2 + 0x4 + 0x1000 + 0x20000 + 0x80000,    # caps, height, width, pixel format, mip map count, linear size
        'dwHeight': h['height'],
        'dwWidth': h['width'],
        'dwPitchOrLinearSize': surfaces(h)[0],                      # level 0 of one face
        'dwDepth': 0,
        'dwMipMapCount': h['levels'],
    }
    reserved = [0] * 11
    caps = {
        'dwCaps': 0x1000 + (0x400000 if mipped else 0) + (0x8 if mipped or cube else 0),      # texture, mip map, complex
        'dwCaps2': 0x200 + 0x400 + 0x800 + 0x1000 + 0x2000 + 0x4000 + 0x8000 if cube else 0,  # a cube map and each of its faces
        'dwCaps3': 0, 'dwCaps4': 0, 'dwReserved2': 0,
    }
    words = [*head.values(), *reserved, *pixel_format.values(), *caps.values()]
    return b'DDS ' + b''.join(word.to_bytes(4, 'little') for word in words)


def dds_bytes(h):
    """(refusal, bytes): what has to be lent for the DDS file of a header."""
    if not within_limits(h):
        return 2, 0
    if h['format'] not in LETTERS:
        return 16, 0
    return 0, 4 + 124 + h['faces'] * sum(surfaces(h))


def dds_out(record, file, lent, destination):
    """(refusal, level, bit, bytes, symbols, cut-outs, destination)."""
    h, number = record[0], of_the_record(record)
    if number == 0:
        number, size = dds_bytes(h)
    if number == 0 and len(destination) < size:
        number = 12
    if number:
        return number, 0, 0, 0, 0, 0, destination
    faces, symbols, cutouts = [b''] * h['faces'], 0, 0
    for level in range(h['levels']):
        grid = Grid(h, level, 0, 0)
        pitch = grid.columns * grid.bytes
        each = grid.rows * pitch
        number, drawn, cut, _, bit, out = unpacking(record, file, lent, level, pitch, each, None, bytes(h['faces'] * each))
        symbols, cutouts = symbols + drawn, cutouts + cut
        if number:
            return number, level, bit, 0, symbols, 0, bytes(size) + destination[size:]
        faces = [face + out[f * each:(f + 1) * each] for f, face in enumerate(faces)]
    return 0, 0, 0, size, symbols, cutouts, dds_header(h) + b''.join(faces) + destination[size:]


# ------------------------------------------------------------------ bytes and hashes

def palette_bytes(buffers):
    """The four buffers, whole, as little-endian bytes: 4 a colour word, 2 an alpha word."""
    return b''.join(w.to_bytes(4 if p[0] == 'c' else 2, 'little') for p in PARTS for w in buffers[p])


def header_bytes(header):
    """The header's fields in their order, 4 little-endian bytes each."""
    numbers = [header[name] for name, _ in FIELDS] + [x for p in PARTS for x in header[p]]
    numbers += [header['tables_size'], header['tables_offset']] + header['offsets']
    return b''.join(n.to_bytes(4, 'little') for n in numbers)


def record_bytes(header, tables):
    """The header; each table's count in 4 bytes and its 8,192 lengths, a byte each. All zero where refused."""
    if header is None:
        header, tables = EMPTY, {t: [] for t in TABLES}
    sent = [tables[t] for t in TABLES]
    return header_bytes(header) + b''.join(len(s).to_bytes(4, 'little') + bytes(s) + bytes(8192 - len(s)) for s in sent)


def fnv(data):
    """FNV-1a, 64 bits, in 16 hexadecimal digits. A run of zero bytes is a power of the factor."""
    h, factor, all_bits = 0xcbf29ce484222325, 0x100000001b3, 0xffffffffffffffff
    for run in re.findall(rb'\0+|[^\0]+', data, re.DOTALL):
        if run[0] == 0:
            h = h * pow(factor, len(run), all_bits + 1) & all_bits
            continue
        for byte in run:
            h = (h ^ byte) * factor & all_bits
    return format(h, '016x')
