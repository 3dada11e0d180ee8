"""png.py: reads PNG files of 8 bits a channel from standard input, one behind another, and writes what each holds: width, height and colour
type as numbers of 32 bits, highest byte first, and then its pixels, four bytes R, G, B, A each. It goes by the specification and Python's
zlib, and takes nothing that is not in order."""
import struct
import sys
import zlib

CHANNELS = {0: 1, 2: 3, 4: 2, 6: 4}


def chunks(data):
    """(name, bytes) of each chunk up to the end of the picture, and what stands behind it."""
    assert data[:8] == b'\x89PNG\r\n\x1a\n'
    found, at = [], 8
    while not found or found[-1][0] != b'IEND':
        size, = struct.unpack_from('>I', data, at)
        name, body, crc = data[at + 4:at + 8], data[at + 8:at + 8 + size], data[at + 8 + size:at + 12 + size]
        assert crc == zlib.crc32(name + body).to_bytes(4, 'big')
        found.append((name, body))
        at += 12 + size
    return found, data[at:]


def unfiltered(data, width, height, step):
    """The picture's bytes, row by row."""
    size, above, out = width * step, bytes(width * step), []
    assert len(data) == height * (1 + size)
    for y in range(height):
        row = bytearray(data[y * (1 + size) + 1:(y + 1) * (1 + size)])
        kind = data[y * (1 + size)]
        assert kind < 5
        for i in range(size if kind else 0):
            a, b, c = (row[i - step], above[i], above[i - step]) if i >= step else (0, above[i], 0)
            p = a + b - c
            near = min((abs(p - a), 0, a), (abs(p - b), 1, b), (abs(p - c), 2, c))[2]
            row[i] = (row[i] + [0, a, b, (a + b) // 2, near][kind]) & 255
        out.append(bytes(row))
        above = row
    return b''.join(out)


def rgba(pixels, kind):
    step = CHANNELS[kind]
    for at in range(0, len(pixels), step):
        pixel = pixels[at:at + step]
        yield (pixel[:3] if kind & 2 else pixel[:1] * 3) + (pixel[-1:] if kind & 4 else b'\xff')


rest = sys.stdin.buffer.read()
while rest:
    found, rest = chunks(rest)
    names = [name for name, _ in found]
    assert names == [b'IHDR'] + [b'IDAT'] * (len(names) - 2) + [b'IEND'] and len(names) > 2 and not found[-1][1]
    width, height, *about = struct.unpack('>IIBBBBB', found[0][1])
    assert about[0] == 8 and about[1] in CHANNELS and about[2:] == [0, 0, 0]
    zipped = zlib.decompressobj()
    data = zipped.decompress(b''.join(body for name, body in found if name == b'IDAT'))
    assert zipped.eof and not zipped.unused_data
    pixels = unfiltered(data, width, height, CHANNELS[about[1]])
    sys.stdout.buffer.write(struct.pack('>III', width, height, about[1]) + b''.join(rgba(pixels, about[1])))
