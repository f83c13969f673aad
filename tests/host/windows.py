"""Whether a picture has what lay beneath it off its layers' windows.

    windows.py WIDTH BENEATH WITHOUT WITH WINDOW..

The files are raw words of four channels: the destination, and the pictures of the same layers without windows and with them. The last must have the second's
pixels in each WINDOW (LEFT,TOP,WIDTH,HEIGHT) and the first's elsewhere, bit for bit; that is so where no layer reaches into another's window. Prints how many
pixels the windows have kept from being changed."""
import sys

PIXEL = 16
width = int(sys.argv[1])
beneath, without, found = (open(path, "rb").read() for path in sys.argv[2:5])
wanted = bytearray(beneath)
for window in sys.argv[5:]:
    left, top, columns, rows = map(int, window.split(","))
    for y in range(top, min(top + rows, len(beneath) // (PIXEL * width))):
        row = slice(PIXEL * (y * width + min(left, width)), PIXEL * (y * width + min(left + columns, width)))
        wanted[row] = without[row]
pixels = range(0, len(beneath), PIXEL)
for at in pixels:
    if found[at : at + PIXEL] != wanted[at : at + PIXEL]:
        y, x = divmod(at // PIXEL, width)
        sys.exit(f"pixel {x},{y} is {found[at : at + PIXEL].hex(' ', 4)} and not {wanted[at : at + PIXEL].hex(' ', 4)}")
if len(found) != len(wanted):
    sys.exit(f"{len(found)} bytes and not {len(wanted)}")
print(sum(wanted[at : at + PIXEL] != without[at : at + PIXEL] for at in pixels))
