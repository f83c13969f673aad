"""Writes small pictures, right and broken, into the present folder."""
import struct, zlib


def chunk(name, body):
    return struct.pack(">I", len(body)) + name + body + struct.pack(">I", zlib.crc32(name + body))


def png(name, width, height, depth, colour, rows, *others):
    header = chunk(b"IHDR", struct.pack(">IIBBBBB", width, height, depth, colour, 0, 0, 0))
    data = chunk(b"IDAT", zlib.compress(b"".join(b"\0" + row for row in rows)))
    whole = b"\x89PNG\r\n\x1a\n" + header + b"".join(chunk(*other) for other in others) + data + chunk(b"IEND", b"")
    open(name, "wb").write(whole)
    return whole


def pfm(name, head, words, *more):
    open(name, "wb").write(head + struct.pack(f"<{len(words)}I", *words) + b"".join(more))


palette = (b"PLTE", bytes(range(9)))
whole = png("red.png", 2, 2, 8, 2, [b"\xff\0\0" * 2] * 2)
open("red well.png", "wb").write(whole)
png("inside.png", 3, 1, 2, 3, [b"\x18"], palette)
png("outside.png", 4, 2, 2, 3, [b"\x1a", b"\x1b"], palette)
png("outside8.png", 2, 1, 8, 3, [b"\x00\xff"], palette, (b"tRNS", b"\x80"))
png("palette.png", 2, 1, 8, 3, [b"\x00\x01"])
png("zero.png", 0, 2, 8, 2, [b"", b""])
png("short.png", 2, 4, 8, 2, [b"\xff\0\0" * 2] * 2)
open("cut.png", "wb").write(whole[:50])
open("sum.png", "wb").write(whole[:-13] + bytes([whole[-13] ^ 1]) + whole[-12:])
open("text.png", "wb").write(b"GIF89a" + bytes(100))

one = [0x3f800000]
pfm("crlf.pfm", b"Pf\r\n1 1\r\n-1.0\r\n", one)
pfm("negative.pfm", b"Pf\n1 -1\n-1.0\n", one)
pfm("scale.pfm", b"Pf\n1 1\n0.0\n", one)
pfm("nan.pfm", b"Pf\n1 1\nnan\n", one)
pfm("infinite.pfm", b"Pf\n1 1\n-inf\n", one)
pfm("missing.pfm", b"PF\n2 1\n-1.0\n", one)
pfm("more.pfm", b"Pf\n1 1\n-1.0\n", one, b"\n")
pfm("wide.pfm", b"Pf\n2049 1\n-1.0\n", one * 2049)
# Samples that begin with a line end; every bit of a word in turn; NaNs, infinities, zeros, numbers out of range.
special = [0x0d0a0d0a] + [1 << k for k in range(32)] + [0x7fc00001, 0xffffffff, 0x7f800001, 0x7f800000, 0xff800000, 0, 0x80000000]
special += [0x3f000000, 0x3f7fffff, 0x3f800001, 0x40000000, 0xbf800000, 0x00000001, 0x37800000, 0x37c00000, 0x38400000]
# Times 65535 these lie just below a half, and an f32 would round them to it.
special += [0x37000080, 0x3f000100, 0x3f7f7f7f]
special += [0x3f000000 + k * 0x00012345 for k in range(3 * 31 - len(special))]
pfm("special.pfm", b"PF\n31 1\n-1.0\n", special)
pfm("alpha.pfm", b"Pf\n31 1\n-1.0\n", special[32:63])
pfm("rows.pfm", b"PF\n31 3\n-1.0\n", special + special[::-1] + special[7:] + special[:7])
