#!/usr/bin/python3
"""texels.py [BLOCKS]: what Pillow (Debian: python3-pil, whose Python is /usr/bin/python3) makes of blocks of BC1, BC3, BC4 and BC5, held to
the rules and to the archive's crunch_texels. Of each kind there are special blocks, every pair of ends that a channel can have with all of
its selectors, BLOCKS random ones (100,000 if none is said) and 500 pictures whose edges cut blocks.

The rules are written down here once more, as fractions: each channel of Pillow's has to be less than two steps of 255 from the exact one,
and equal to the byte of ends that are widened by repeating their bits and mixed rounding down. crunch_texels is asked by a program of C
over include/crunch.h and the archive that CRUNCH_ABI_ARCHIVE names, or else the one of `rust/archive crunch_abi`. Where nothing differs,
a thousand blocks of each kind are stored with Pillow's answers: samples/texels.bin, laid out as docs/CASES.md says. Ends with 1 where
something does."""
import fractions
import functools
import itertools
import math
import operator
import os
import random
import struct
import subprocess
import sys
import tempfile

import PIL.Image

here = os.path.dirname(os.path.abspath(__file__))
root = os.path.dirname(here)

STORED, SPECIAL = 1000, 800         # blocks of a kind that are stored, and how many of them at most are no random ones
COLUMN = 1024                       # blocks of a picture one block wide, whose height may be 4,096 pixels
PICTURES = 500
FILL = 0xA5                         # what a lent buffer holds before a call

# kind -> what a CRN file's header calls it, and Pillow's number and mode
FORMATS = {'BC1': [0], 'BC3': [2, 3, 4, 5, 6], 'BC4': [9], 'BC5': [7, 8]}
PILLOW = {'BC1': (1, 'RGBA'), 'BC3': (3, 'RGBA'), 'BC4': (4, 'L'), 'BC5': (5, 'RGB')}
SIZE = {'BC1': 8, 'BC3': 16, 'BC4': 8, 'BC5': 16}


# ------------------------------------------------------------------ the rules

def channel(exact, byte):
    """A byte, and the least and the greatest that are less than two steps of 255 from the exact fraction."""
    return byte, max(0, math.floor(255 * exact - 2) + 1), min(255, math.ceil(255 * exact + 2) - 1)


NONE, FULL = channel(0, 0), channel(1, 255)


@functools.lru_cache(None)
def ramp(bits, first, second, steps):
    """The ends of a channel and what lies between them, in the order of the selectors: first, second, then from the first on."""
    def widened(end):
        digits = format(end, '0%db' % bits) * 2
        return int(digits[:8], 2)

    def at(place):
        exact = fractions.Fraction((steps - place) * first + place * second, steps * (2 ** bits - 1))
        return channel(exact, ((steps - place) * widened(first) + place * widened(second)) // steps)
    return [at(place) for place in [0, steps, *range(1, steps)]]


def colors(part, three):
    """The texels of a colour block's selectors; `three`: the order of its words may choose three colours and a transparent black."""
    words = struct.unpack('<HH', part[:4])
    steps = 2 if three and words[0] <= words[1] else 3
    (r, g, b), (s, h, c) = [(w >> 11, w >> 5 & 63, w & 31) for w in words]
    mixed = zip(ramp(5, r, s, steps), ramp(6, g, h, steps), ramp(5, b, c, steps))
    return [(*rgb, FULL) for rgb in mixed] + [(NONE,) * 4] * (3 - steps)


def levels(part):
    """The channels of an alpha block's selectors."""
    first, second = part[0], part[1]
    return ramp(8, first, second, 7) if first > second else ramp(8, first, second, 5) + [NONE, FULL]


def chosen(part, values):
    """The values of the sixteen selectors, two bits each of four values, three of eight."""
    bits = len(values).bit_length() - 1
    word = int.from_bytes(part[8 - 2 * bits:8], 'little')
    return [values[word >> bits * t & len(values) - 1] for t in range(16)]


def texels(kind, block):
    """The sixteen texels of a block, each channel as `channel` has it."""
    first, last = block[:8], block[-8:]
    if kind == 'BC1':
        return chosen(first, colors(first, True))
    if kind == 'BC3':
        return [rgba[:3] + (a,) for rgba, a in zip(chosen(last, colors(last, False)), chosen(first, levels(first)))]
    if kind == 'BC4':
        return [(r, NONE, NONE, FULL) for r in chosen(first, levels(first))]
    return [(r, g, NONE, FULL) for r, g in zip(chosen(first, levels(first)), chosen(last, levels(last)))]


# ------------------------------------------------------------------ the blocks

def word(bits, selectors):
    return sum(s << bits * t for t, s in enumerate(selectors))


def color(first, second, selectors):
    return struct.pack('<HHI', first, second, word(2, selectors))


def level(first, second, selectors):
    return bytes((first, second)) + word(3, selectors).to_bytes(6, 'little')


COLOR_ENDS = [(0, 0), (0xffff, 0xffff), (0x1234, 0x1234), (0, 1), (1, 0), (0xffff, 0xfffe), (0xfffe, 0xffff), (0x8000, 0x7fff),
              (0x7fff, 0x8000), (0xf800, 0x07e0), (0x07e0, 0xf800), (0x07e0, 0x001f), (0x001f, 0x07e0), (0, 0xffff), (0xffff, 0),
              (0x0020, 0), (0, 0x0020)]
LEVEL_ENDS = [(0, 0), (255, 255), (128, 128), (0, 255), (255, 0), (0, 1), (1, 0), (254, 255), (255, 254), (127, 128), (128, 127), (1, 254),
              (254, 1)]


def special(make, count, ends, modes):
    """Ends with all selectors alike, in turn and backwards; and, for both modes, every selector alone at each of the sixteen places."""
    in_turn = [t % count for t in range(16)]
    for first, second in ends:
        for selectors in [[s] * 16 for s in range(count)] + [in_turn, in_turn[::-1]]:
            yield make(first, second, selectors)
    for first, second in modes:
        for s, place in itertools.product(range(1, count), range(16)):
            yield make(first, second, [s * (t == place) for t in range(16)])


def every_color(rng):
    """Every pair of greens and of blues in both modes; every pair of reds in the mode that it chooses, equal ones in both. Each selector
    comes four times."""
    def apart(most, above):
        return sorted(rng.sample(range(most), 2), reverse=above)

    def some():
        return rng.randrange(32), rng.randrange(32)

    def block(reds, greens, blues):
        ends = [r << 11 | g << 5 | b for r, g, b in zip(reds, greens, blues)]
        return color(*ends, rng.sample([*range(4)] * 4, 16))
    for above in (True, False):
        for greens in itertools.product(range(64), repeat=2):
            yield block(apart(32, above), greens, some())
        for pair in itertools.product(range(32), repeat=2):
            yield block(pair, apart(64, above), some())
            yield block(apart(32, above), [2 * green for green in some()], pair)


def every_level(rng):
    """Every pair of ends; each selector comes twice."""
    for first, second in itertools.product(range(256), repeat=2):
        yield level(first, second, rng.sample([*range(8)] * 2, 16))


def any_ends(rng, most):
    """Any two; in one of eight they are equal, and in one of eight a step apart."""
    first, turn = rng.randrange(most), rng.randrange(8)
    return first, first ^ turn if turn < 2 else rng.randrange(most)


def color_parts(seed, count):
    """The special blocks, those of all pairs of ends, and so many random ones; each part in an order of its seed."""
    rng = random.Random(seed)
    some = list(special(color, 4, COLOR_ENDS, [(0xffff, 0), (0, 0xffff)])), list(every_color(rng))
    others = (color(*any_ends(rng, 1 << 16), rng.choices(range(4), k=16)) for _ in range(count))
    return [rng.sample(part, len(part)) for part in some] + [list(others)]


def level_parts(seed, count):
    rng = random.Random(seed)
    some = list(special(level, 8, LEVEL_ENDS, [(201, 100), (100, 201)])), list(every_level(rng))
    others = (level(*any_ends(rng, 1 << 8), rng.choices(range(8), k=16)) for _ in range(count))
    return [rng.sample(part, len(part)) for part in some] + [list(others)]


def parts_of(kind, count):
    """The same of a kind. Where a block has two halves, those of which there are fewer come again."""
    if kind == 'BC1':
        return color_parts('BC1', count)
    if kind == 'BC4':
        return level_parts('BC4', count)
    firsts, lasts = level_parts(kind + ', first', count), (color_parts if kind == 'BC3' else level_parts)(kind + ', last', count)
    return [[a + b for a, b in zip(first, itertools.cycle(last))] for first, last in zip(firsts, lasts)]


# ------------------------------------------------------------------ who is asked

PROGRAM = r"""
#include "crunch.h"
#include <stdio.h>
#include <stdlib.h>
#include <string.h>

/* Calls of crunch_texels: six numbers of eight bytes and the blocks on standard input; the refusal, four bytes, and the lent buffer out. */
int main(void)
{
    uint64_t n[6]; /* format, width, height, pitch, bytes of the blocks, bytes of the buffer */
    while (fread(n, 8, 6, stdin) == 6) {
        uint8_t *blocks = malloc(n[4] + 1), *out = malloc(n[5] + 1);
        struct crunch_face face = {n[1], n[2], n[3]};
        uint32_t refusal;
        if (!blocks || !out || fread(blocks, 1, n[4], stdin) != n[4])
            return 1;
        memset(out, FILL, n[5]);
        refusal = crunch_texels((uint32_t)n[0], face, blocks, n[4], out, n[5]);
        fwrite(&refusal, 4, 1, stdout);
        fwrite(out, 1, n[5], stdout);
        free(blocks);
        free(out);
    }
    return fflush(stdout) != 0 || ferror(stdout);
}
"""


def compiled(room):
    archive = os.environ.get('CRUNCH_ABI_ARCHIVE')
    if not archive:
        said = subprocess.run([os.path.join(root, 'rust', 'archive'), 'crunch_abi'], stdout=subprocess.PIPE, check=True)
        archive = said.stdout.decode().strip()
    source, program = os.path.join(room, 'texels.c'), os.path.join(room, 'texels')
    with open(source, 'w') as out:
        out.write(PROGRAM)
    words = ['cc', '-O2', '-Wall', '-Wextra', '-Werror', '-DFILL=%d' % FILL, '-I', os.path.join(root, 'include')]
    subprocess.run([*words, source, archive, '-o', program], check=True)
    return program


class Picture:
    """Blocks as a picture: Pillow's, and a call of crunch_texels for it."""

    def __init__(self, kind, format, blocks, width, height, beyond=0, behind=0):
        self.format, self.blocks, self.width, self.height = format, blocks, width, height
        self.pitch = 4 * width + beyond
        self.room = (height - 1) * self.pitch + 4 * width + behind
        number, mode = PILLOW[kind]
        self.channels = len(mode)
        self.pillow = PIL.Image.frombytes(mode, (width, height), blocks, 'bcn', number).tobytes()

    def rgba(self):
        """Pillow's picture with our four channels: those that it does not show are 0, and opaque."""
        out = bytearray((0, 0, 0, 255)) * (self.width * self.height)
        for k in range(self.channels):
            out[k::4] = self.pillow[k::self.channels]
        return bytes(out)

    def wanted(self):
        """What the call has to answer: 0, and a buffer with each row in its place and all else as it was."""
        out, rows, wide = bytearray([FILL]) * self.room, self.rgba(), 4 * self.width
        for y in range(self.height):
            out[y * self.pitch:y * self.pitch + wide] = rows[y * wide:(y + 1) * wide]
        return bytes(4) + bytes(out)

    def call(self):
        return struct.pack('<6Q', self.format, self.width, self.height, self.pitch, len(self.blocks), self.room) + self.blocks


def answered(program, pictures):
    """What crunch_texels answers for each: the refusal's four bytes and the buffer."""
    said = subprocess.run([program], input=b''.join(p.call() for p in pictures), stdout=subprocess.PIPE, check=True).stdout
    sizes = [4 + p.room for p in pictures]
    if len(said) != sum(sizes):
        sys.exit('the program ended too soon')
    return [said[end - size:end] for size, end in zip(sizes, itertools.accumulate(sizes))]


# ------------------------------------------------------------------ comparing

def columns(kind, blocks):
    """Pictures one block wide, in which the sixteen texels of a block stand together."""
    formats = itertools.cycle(FORMATS[kind])
    some = [blocks[k:k + COLUMN] for k in range(0, len(blocks), COLUMN)]
    return [Picture(kind, next(formats), b''.join(part), 4, 4 * len(part)) for part in some]


def clipped(kind, blocks, count):
    """Pictures of any size up to 70 pixels a side, with room between and behind the rows."""
    rng = random.Random('clipped ' + kind)
    for _ in range(count):
        width, height = rng.randint(1, 70), rng.randint(1, 70)
        some = b''.join(rng.choices(blocks, k=-(-width // 4) * -(-height // 4))) + bytes(rng.choice([0, 0, 5]))
        yield Picture(kind, rng.choice(FORMATS[kind]), some, width, height, rng.choice([0, 1, 4, 7, 60]), rng.choice([0, 1, 9]))


RULE, FAR, CALL, CUT = FAULTS = ('blocks differ by the rule', 'are two steps or more from a fraction', 'differ by crunch_texels',
                                 'pictures differ by crunch_texels')


class Faults:
    """What differs, and how often; of each sort the first three are shown."""

    def __init__(self, kind):
        self.kind, self.tally = kind, dict.fromkeys(FAULTS, 0)

    def note(self, sort, what, pillow, other):
        self.tally[sort] += 1
        if self.tally[sort] <= 3:
            at = next((k for k, (a, b) in enumerate(zip(pillow, other)) if a != b), 0) // 64 * 64
            print('%s, %s: %s, from byte %d' % (self.kind, what, sort, at))
            print('  Pillow %s\n  other  %s' % (pillow[at:at + 64].hex(), other[at:at + 64].hex()))


def compare(kind, blocks, program):
    """Holds Pillow's texels to the rules and to crunch_texels. Answers how many blocks the clipped pictures have, and the faults."""
    faults, whole = Faults(kind), columns(kind, blocks)
    pillow = b''.join(p.rgba() for p in whole)
    ours = answered(program, whole)
    refused = b''.join(said[:4] * (p.height // 4) for said, p in zip(ours, whole))
    ours = b''.join(said[4:] for said in ours)
    for n, block in enumerate(blocks):
        theirs, called = pillow[64 * n:64 * n + 64], ours[64 * n:64 * n + 64]
        byte, least, most = map(bytes, zip(*(c for texel in texels(kind, block) for c in texel)))
        if theirs != byte:
            faults.note(RULE, block.hex(' '), theirs, byte)
        if not all(map(operator.le, least, theirs)) or not all(map(operator.le, theirs, most)):
            faults.note(FAR, block.hex(' '), theirs, byte)
        if theirs != called or any(refused[4 * n:4 * n + 4]):
            faults.note(CALL, block.hex(' '), theirs, called)
    cut = list(clipped(kind, blocks, PICTURES))
    for p, said in zip(cut, answered(program, cut)):
        if said != p.wanted():
            faults.note(CUT, '%d x %d pixels, pitch %d' % (p.width, p.height, p.pitch), p.wanted()[4:], said[4:])
    return sum(-(-p.width // 4) * -(-p.height // 4) for p in cut), faults.tally


# ------------------------------------------------------------------ storing

def as_stored(kind, parts):
    """A kind's part of the stored file."""
    first, pairs, others = parts
    blocks = (first + pairs[:SPECIAL - len(first)] + others)[:STORED]
    shown = [Picture(kind, 0, block, 4, 4) for block in blocks]
    return struct.pack('<4I', FORMATS[kind][0], SIZE[kind], shown[0].channels, len(blocks)) + b''.join(p.blocks + p.pillow for p in shown)


def hashed(data):
    """FNV-1a of 64 bits."""
    h = 0xcbf29ce484222325
    for byte in data:
        h = (h ^ byte) * 0x100000001b3 & (1 << 64) - 1
    return h


def main():
    count = max(STORED, int(sys.argv[1])) if len(sys.argv) > 1 else 100000
    kept, differ = b'TEXL', 0
    print('Pillow %s' % PIL.__version__)
    with tempfile.TemporaryDirectory() as room:
        program = compiled(room)
        for kind in FORMATS:
            parts = parts_of(kind, count)
            blocks = [block for part in parts for block in part]
            drawn, tally = compare(kind, blocks, program)
            print('%s: %d blocks (%d special, %d of all pairs of ends, %d random)' % (kind, len(blocks), *map(len, parts)), end=' ')
            print('and %d clipped pictures with %d blocks' % (PICTURES, drawn))
            print('     %s' % ', '.join('%d %s' % (n, what) for what, n in tally.items()))
            kept += as_stored(kind, parts)
            differ += sum(tally.values())
    if differ:
        sys.exit(1)
    with open(os.path.join(root, 'samples', 'texels.bin'), 'wb') as out:
        out.write(kept + struct.pack('<Q', hashed(kept)))


if __name__ == '__main__':
    main()
