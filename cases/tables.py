#!/usr/bin/env python3
"""tables.py SHARED: makes the cases of the program crn_tables anew, crates/crn_tables/stdin and stdout.

SHARED is the folder that has oracle/mkcrn.py (whose writer of tables and symbols is used here) and docs/src (the Rust). The expected answers are
reference.py's. The Rust runs the same cases, and wherever document 01 accepts, its numbers, tables and symbols have to be the same, save for the
listed differences: a table of count 0, which the Rust refuses. What the Rust did where document 01 refuses is counted and printed.

A case is a segment and operations on it, in turn, until one is refused: 1 a number of so many bits, 2 a table received, 3 so many draws from
the last table. See crates/crn_tables/README.md for the bytes."""
import collections
import os
import random
import shutil
import struct
import subprocess
import sys
import tempfile

import reference

here = os.path.dirname(os.path.abspath(__file__))
shared = os.path.abspath(sys.argv[1])
sys.path.insert(0, os.path.join(shared, 'oracle'))
import mkcrn  # noqa: E402

NUMBER, TABLE, DRAWS = 1, 2, 3


def packed(bits, fill='0'):
    bits += fill * (-len(bits) % 8)
    return bytes(int(bits[i:i + 8], 2) for i in range(0, len(bits), 8))


def bits_of(writer):
    """What was put into one of mkcrn's writers, as a bit string."""
    spare = len(writer.out) * 8 + writer.n
    return ''.join(format(b, '08b') for b in writer.done())[:spare]


def raw_table(count, code, runs, n=None):
    """A table by hand: `code` maps length symbols to lengths; each run is a symbol or a bit string."""
    lengths = [code.get(s, 0) for s in range(21)]
    sent = [i for i, s in enumerate(reference.LENGTH_ORDER) if lengths[s]]
    n = (max(sent) + 1 if sent else 1) if n is None else n
    codes = {s: c for c, s in reference.canonical(lengths).items()}
    bits = format(count, '014b') + format(n, '05b')
    bits += ''.join(format(lengths[s], '03b') for s in reference.LENGTH_ORDER[:min(n, 21)])
    return bits + ''.join(r if isinstance(r, str) else codes[r] for r in runs)


def random_table(rng, top):
    writer = mkcrn.Bits()
    lengths = mkcrn.random_table(rng, [rng.randrange(top) for _ in range(rng.randint(1, 40))])
    mkcrn.put_table(writer, rng, lengths)
    return lengths, bits_of(writer)


def symbols_of(rng, lengths, count):
    codes = [c for c, _ in sorted(reference.canonical(lengths).items(), key=lambda x: x[1])]
    return ''.join(rng.choice(codes) for _ in range(count))


def cases():
    rng = random.Random(20261115)
    code = {0: 2, 1: 3, 2: 3, 3: 3, 17: 3, 18: 4, 19: 4, 20: 3}

    # numbers of every width, at every place of a byte, whole and missing bits
    for width in range(17):
        segment = bytes(rng.randrange(256) for _ in range(9))
        yield segment, [(NUMBER, rng.randrange(8)), (NUMBER, width), (NUMBER, width), (NUMBER, width), (NUMBER, width), (NUMBER, width)]
    yield b'', [(NUMBER, 0), (NUMBER, 1)]
    yield b'\xff' * 8, [(NUMBER, 16)] * 5

    # tables by hand: each rule of "Codes (H)", each at some place in a byte
    hand = [
        raw_table(4, code, [2, 1, 0, 2]),
        '0' * 14,                                               # count 0
        format(8193, '014b') + '1' * 40, format(16383, '014b') + '0' * 40,
        raw_table(4, code, ['1' * 40], n=0), raw_table(4, code, ['1' * 40], n=22), raw_table(4, code, ['1' * 40], n=31),
        raw_table(4, code, [2, 1, 0, 2], n=21),
        raw_table(3, {17: 1, 18: 1, 19: 1}, ['0' * 30]),        # a code of lengths that takes too much room
        raw_table(3, {}, ['0' * 30], n=4), raw_table(3, {}, ['0' * 30], n=21),      # one with no code
        raw_table(3, {1: 1}, [1, '1', '0' * 20]),               # bits that begin no code of it
        raw_table(7, code, [2, 2, 17, '010']), raw_table(1 + 11 + 64 + 1, code, [2, 18, '1000000', 1]),
        raw_table(6, code, [3, 19, '10']), raw_table(71, {8: 1, 20: 2}, [8, 20, '111111']),
        raw_table(8, code, [19, '01', 3, '0' * 20]), raw_table(8, code, [20, '000001', 3, '0' * 20]),      # a repeat at the start
        raw_table(8, code, [2, 0, 19, '01', '0' * 20]), raw_table(18, code, [2, 17, '000', 20, '000001', '0' * 20]),    # after a zero
        raw_table(4, code, [1, 1, 17, '111', '0' * 20]), raw_table(14, code, [1, 1, 18, '0000010', '0' * 20]),      # past the count
        raw_table(4, code, [3, 19, '01', '0' * 20]), raw_table(7, {4: 1, 20: 1}, [4, 20, '000000', '0' * 20]),
        raw_table(3, code, [1, 1, 1, '0' * 20]), raw_table(4, code, [1, 2, 2, 2, '0' * 20]),        # too much room
        raw_table(3, code, [0, 0, 0, '0' * 20]), raw_table(10, code, [17, '111', '0' * 20]),        # no code
        raw_table(3, {1: 2, 2: 2, 16: 2}, [1, 2, 16]), raw_table(1, {16: 1}, [16]), raw_table(2, {16: 1}, [16, 16]),
    ]
    for k, bits in enumerate(hand):
        lead = k % 8
        yield packed('1' * lead + bits + '0' * 40), [(NUMBER, lead), (TABLE, 0), (DRAWS, 5)]

    # a table cut at every bit, so that each field in turn misses bits: the number before it takes what is over
    whole = raw_table(2 + 1 + 4 + 11 + 1, code, [2, 0, 2, 17, '001', 18, '0000000', 3])
    for kept in range(len(whole) + 1):
        lead = -kept % 8
        yield packed('0' * lead + whole[:kept]), [(NUMBER, lead), (TABLE, 0)]

    # draws: incomplete codes (7), codes that the end cuts (8), the longest codes, one-symbol codes, no codes
    for lengths in ([2, 1, 0, 2], [3, 3, 3], [1, 16], [16, 16, 1], [5, 4, 3, 2, 1, 5], [2, 2, 2], [1], [12, 13, 14, 15, 16, 1, 2]):
        sent = sorted(set(lengths))
        flat = {l: max(1, (len(sent) - 1).bit_length()) for l in sent}
        for tail in range(4):
            bits = raw_table(len(lengths), flat, lengths)
            bits += symbols_of(rng, lengths, rng.randint(0, 12))
            bits += ''.join(rng.choice('01') for _ in range(8 * tail))
            yield packed(bits, rng.choice('01')), [(TABLE, 0), (DRAWS, 40)]

    # random tables with every kind of run, and symbols; several in a segment
    for k in range(150):
        bits, operations = '', []
        for _ in range(rng.choice([1, 1, 2])):
            lengths, sent = random_table(rng, rng.choice([4, 30, 300, 2000]))
            count = rng.choice([0, 3, 20, 60])
            bits += sent + symbols_of(rng, lengths, count)
            operations += [(TABLE, 0), (DRAWS, count)]
        if k % 3 == 1:                  # damaged
            at = rng.randrange(len(bits))
            bits = bits[:at] + '10'[int(bits[at])] + bits[at + 1:]
        segment = packed(bits, rng.choice('01'))
        if k % 3 == 2:                  # cut
            segment = segment[:rng.randrange(len(segment))]
        yield segment, operations + [(DRAWS, rng.choice([0, 1, 9]))]

    # the largest table: 8,192 symbols of 13 bits, drawn from
    bits = raw_table(8192, {13: 1, 20: 1}, [13] + [20, '111111'] * 117 + [13])
    yield packed(bits + ''.join(format(rng.randrange(8192), '013b') for _ in range(50))), [(TABLE, 0), (DRAWS, 50), (DRAWS, 3)]


def expected(segment, operations):
    """The program's lines, and for the comparison with the Rust what was accepted."""
    reader, lines, accepted, lengths = reference.Reader(segment), [], [], []
    for kind, argument in operations:
        try:
            if kind == NUMBER:
                value = reader.number(argument)
                lines.append('number 0 %d %d' % (reader.place, value))
                accepted.append('n %d' % value)
            elif kind == TABLE:
                lengths = reference.table(reader)
                lines.append('table 0 %d %d %s' % (reader.place, len(lengths), reference.fnv(lengths)))
                accepted.append('t %d %s' % (len(lengths), reference.fnv(lengths)))
            else:
                symbols = []
                try:
                    for _ in range(argument):
                        symbols.append(reader.draw(lengths)[0])
                finally:
                    accepted.append('d %d%s' % (len(symbols), ''.join(' %d' % s for s in symbols)))
                    kept = reference.fnv(b''.join(struct.pack('<H', s) for s in symbols))
                lines.append('draws 0 %d %d %s' % (reader.place, len(symbols), kept))
        except reference.Refusal as no:
            lines.append('%s %d %d' % ({NUMBER: 'number', TABLE: 'table', DRAWS: 'draws'}[kind], no.number, no.bit)
                         + (' %d %s' % (len(symbols), kept) if kind == DRAWS else ''))
            return lines, accepted, '%s refused by %d' % ({NUMBER: 'a number', TABLE: 'a table', DRAWS: 'a draw'}[kind], no.number)
    return lines, accepted, ''


def main():
    all_cases = list(cases())
    stdin = struct.pack('<I', len(all_cases))
    for segment, operations in all_cases:
        stdin += struct.pack('<I', len(segment)) + segment + struct.pack('<B', len(operations))
        stdin += b''.join(struct.pack('<BI', *o) for o in operations)

    with tempfile.TemporaryDirectory() as room:
        os.symlink(shared, os.path.join(room, 'shared'))
        for source in ('codec.rs', 'the_rust.rs'):
            shutil.copy(os.path.join(here, source), room)
        subprocess.run(['rustc', '--edition', '2021', '-O', '--cap-lints', 'allow', 'codec.rs'], cwd=room, check=True)
        rust = subprocess.run([os.path.join(room, 'codec')], input=stdin, stdout=subprocess.PIPE, check=True).stdout.decode().splitlines()

    stdout, faults, beside = [], [], collections.Counter()
    for (segment, operations), said in zip(all_cases, rust):
        lines, accepted, refused = expected(segment, operations)
        stdout += lines
        said = said.split('; ')
        for k, ours in enumerate(accepted):
            theirs = said[k] if k < len(said) else 'nothing'
            if theirs == ours:
                continue
            if ours.startswith('d ') and theirs.startswith(ours.split(' ', 2)[0]) and theirs.split()[2:][:len(ours.split()) - 2] == ours.split()[2:]:
                continue                # the Rust draws on past the end or past the last code: the symbols before are the same
            if ours.startswith('t 0 '):
                beside['a table of count 0, which the Rust ' + theirs.split()[0]] += 1
                break
            if not segment:
                beside['an empty segment, which the Rust ' + theirs] += 1
                break
            faults.append((segment.hex(), operations, ours, theirs))
            break
        else:
            if refused.startswith('a draw'):
                more = int(said[len(accepted) - 1].split()[1]) > int(accepted[-1].split()[1])
                beside[refused + '; the Rust ' + ('drew on' if more else 'stopped there too')] += 1
            elif refused:
                theirs = said[len(accepted)] if len(said) > len(accepted) else said[-1]
                beside[refused + '; the Rust ' + (theirs if theirs in ('refused', 'panicked') else 'accepted')] += 1
    for fault in faults:
        print('differs:', *fault)
    for what, times in sorted(beside.items()):
        print('%5d  %s' % (times, what))
    print('%d cases, %d bytes, %d lines; %d differences that are not listed' % (len(all_cases), len(stdin), len(stdout), len(faults)))
    if faults:
        sys.exit(1)
    crate = os.path.join(here, '..', 'crates', 'crn_tables')
    os.makedirs(crate, exist_ok=True)
    with open(os.path.join(crate, 'stdin'), 'wb') as out:
        out.write(stdin)
    with open(os.path.join(crate, 'stdout'), 'w') as out:
        out.write(''.join(line + '\n' for line in stdout))


main()
