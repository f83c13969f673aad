"""Rewrites a job folder as the command of an older edition made it.

    older.py EDITION JOB

Edition 3 is from before jobs had numbers: no number in its description, and a mark that is the position alone. Edition 2 is from before layers had windows
too: its table has ten numbers a layer, and the layers' windows must be the full ones. `held` is removed, so that the job is taken up at its checkpoint, which
keeps its position."""
import os, re, struct, sys

FACTOR, WORD = 0x9E3779B97F4A7C15, (1 << 64) - 1
FULL = (0, 0, 2048, 2048)


def step(lane, word):
    product = (lane ^ word) * FACTOR & WORD
    return (product >> 32 | product << 32 & WORD) * FACTOR & WORD


def digest(content):
    """As host/folder/src/digest.rs has it."""
    lanes = [1, 2, 3, 4]
    padded = content + bytes(32 - len(content) % 32)
    for n, (word,) in enumerate(struct.iter_unpack("<Q", padded)):
        lanes[n % 4] = step(lanes[n % 4], word)
    total = len(content)
    for lane in lanes:
        total = step(total, lane)
    return total


def narrowed(table):
    """The table without its windows."""
    rows = list(struct.iter_unpack("<14q", table))
    if any(row[10:] != FULL for row in rows):
        sys.exit("a layer has a window, which edition 2 has not")
    return b"".join(struct.pack("<10q", *row[:10]) for row in rows)


def described(text, edition, table):
    """The description with the older edition, without the job number, and with this table's digest."""
    body = re.sub("^tray-job-4 ", f"tray-job-{edition} ", text[: text.index("\njob ") + 1])
    body = re.sub("(?m)^number .*\n", "", body)
    body = re.sub("(?m)^table .*$", f"table {digest(table):016x}", body)
    return body + f"job {digest(body.encode()):016x}\n"


def pictures(position, pixels, work):
    """What a position rests on: the whole picture beneath, and the one above it as far as it is written."""
    phase, written = divmod(position, pixels)
    return (work[(phase - 1) % 2] if phase else b""), work[phase % 2][: 16 * written]


def main(edition, job):
    def read(name):
        with open(f"{job}/{name}", "rb") as file:
            return file.read()

    def write(name, content):
        with open(f"{job}/{name}", "wb") as file:
            file.write(content)

    assert (digest(b""), digest(b"tray, thirty-two bytes and more than that")) == (0xFA62707748EEC39E, 0xD77790FF22AACA9B)
    table = narrowed(read("table")) if edition == "2" else read("table")
    text = described(read("job").decode(), edition, table)
    width, height = map(int, text.split()[1:3])
    if os.path.exists(f"{job}/checkpoint"):
        kept_edition, position, _ = read("checkpoint").decode().split()
        parts = pictures(int(position), width * height, [read("work0"), read("work1")])
        kept = struct.pack("<4Q", int(position), digest(text.encode()), *map(digest, parts))
        write("checkpoint", f"{kept_edition} {position} {digest(kept):016x}\n".encode())
    write("table", table)
    write("mark", read("mark")[:8])
    write("job", text.encode())
    if os.path.exists(f"{job}/held"):
        os.remove(f"{job}/held")


main(*sys.argv[1:])
