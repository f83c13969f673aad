"""Reads pictures that `tray export` wrote as the formats' own documents say, and compares each sample with the raw words.

    exported.py RAW WIDTH HEIGHT CHANNELS FILE..        FILE is a .tif of floats, a .pfm, or a .png of 16 bits"""
import struct, sys, zlib
from fractions import Fraction

raw, width, height, channels = open(sys.argv[1], "rb").read(), *map(int, sys.argv[2:5])
words = [word for word, in struct.iter_unpack("<I", raw)]
assert len(words) == width * height * channels, "the raw words are not all the samples"


def tiff(data):
    """TIFF 6.0, section 2 (the directory), 18 (extra samples), 19 (sample format)."""
    assert data[:4] == b"II*\0"
    at, = struct.unpack_from("<I", data, 4)
    count, = struct.unpack_from("<H", data, at)
    fields, tags = {}, []
    for k in range(count):
        tag, kind, values, place = struct.unpack_from("<HHII", data, at + 2 + 12 * k)
        letter, size = {3: ("H", 2), 4: ("I", 4), 5: ("II", 8)}[kind]
        start = at + 2 + 12 * k + 8 if size * values <= 4 else place
        fields[tag] = struct.unpack_from("<" + letter * values, data, start)
        tags.append(tag)
    assert tags == sorted(tags) and struct.unpack_from("<I", data, at + 2 + 12 * count) == (0,)
    assert (fields[256], fields[257], fields[277]) == ((width,), (height,), (channels,))
    assert fields[258] == (32,) * channels and fields[339] == (3,) * channels and fields[259] == (1,)
    assert fields[262] == (1 if channels == 1 else 2,) and fields.get(338) == ((2,) if channels == 4 else None)
    assert fields[278] == (height,) and fields[279] == (4 * len(words),) and {282, 283, 296} < set(tags)
    strip = data[fields[273][0]:]
    assert len(strip) == fields[279][0]
    return [word for word, in struct.iter_unpack("<I", strip)]


def pfm(data):
    kind, sides, scale, samples = data.split(b"\n", 3)
    assert kind == (b"Pf" if channels == 1 else b"PF") and sides == b"%d %d" % (width, height) and float(scale) < 0
    row = 4 * width * channels
    rows = [samples[k:k + row] for k in range(0, len(samples), row)]
    return [word for word, in struct.iter_unpack("<I", b"".join(reversed(rows)))]


def png(data):
    assert data[:8] == b"\x89PNG\r\n\x1a\n"
    at, stream = 8, b""
    while at < len(data):
        length, name = struct.unpack_from(">I4s", data, at)
        body = data[at + 8:at + 8 + length]
        assert struct.unpack_from(">I", data, at + 8 + length) == (zlib.crc32(name + body),)
        if name == b"IHDR":
            assert struct.unpack(">IIBBBBB", body) == (width, height, 16, {1: 0, 3: 2, 4: 6}[channels], 0, 0, 0)
        if name == b"IDAT":
            stream += body
        at += 12 + length
    lines, step, above, samples = zlib.decompress(stream), 2 * channels, bytes(2 * channels * width), []
    for y in range(height):
        kind, line = lines[y * (len(above) + 1)], bytearray(lines[y * (len(above) + 1) + 1:(y + 1) * (len(above) + 1)])
        for x in range(len(line)):
            a, b, c = (line[x - step], above[x], above[x - step]) if x >= step else (0, above[x], 0)
            paeth = min((a, b, c), key=lambda v: abs(a + b - c - v))
            line[x] = line[x] + (0, a, b, (a + b) // 2, paeth)[kind] & 255
        above = bytes(line)
        samples += [v for v, in struct.iter_unpack(">H", above)]
    return samples


def sixteen(word):
    """Clamped to 0 to 1, times 65535, rounded, halves up; of a NaN 0."""
    value, = struct.unpack("<f", struct.pack("<I", word))
    if value != value:
        return 0
    return int(Fraction(min(max(value, 0.0), 1.0)) * 65535 + Fraction(1, 2))


for name in sys.argv[5:]:
    read = {"tif": tiff, "iff": tiff, "pfm": pfm, "png": png}[name[-3:].lower()]
    found = read(open(name, "rb").read())
    wanted = [sixteen(word) for word in words] if read == png else words
    wrong = [k for k in range(len(words)) if found[k:k + 1] != wanted[k:k + 1]]
    assert not wrong and len(found) == len(wanted), f"{name}: sample {wrong[:1]} is {found[wrong[0]]:x}, not {wanted[wrong[0]]:x}"
