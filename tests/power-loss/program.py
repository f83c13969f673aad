"""The worker's words, and a job of random inputs for a trial."""
import os
import struct
import subprocess
import uuid
import zlib
from random import Random

from disk import Disk

INPUTS = ["job", "dst", "table", "args", "samples", "names", "lock"]
OPERATORS = ["over", "plus", "multiply", "xor", "screen"]
KILLED, STOPPED = -9, 3


class Fault(Exception):
    pass


def write(path, content):
    with open(path, "wb") as file:
        file.write(content)


def read(path):
    with open(path, "rb") as file:
        return file.read()


def png(random, width, height):
    """Random colours and alphas."""
    rows = b"".join(b"\0" + random.randbytes(4 * width) for _ in range(height))

    def chunk(kind, content):
        return struct.pack(">I", len(content)) + kind + content + struct.pack(">I", zlib.crc32(kind + content))

    header = struct.pack(">IIBBBBB", width, height, 8, 6, 0, 0, 0)
    return b"\x89PNG\r\n\x1a\n" + chunk(b"IHDR", header) + chunk(b"IDAT", zlib.compress(rows, 0)) + chunk(b"IEND", b"")


def window(random, width, height):
    """A window within the picture or past it, or none."""
    left, top = random.randint(0, width - 1), random.randint(0, height - 1)
    return random.choice(["", f" window={left},{top},{random.randint(0, width)},{random.randint(0, height)}"])


class Program:
    """The worker's words. `run` gives the exit status and what was said."""

    def __init__(self, path, recorder):
        self.path, self.recorder = path, recorder
        self.command = os.path.basename(path) == "tray"
        self.durable = not self.command or "--durable" in self.said("run", "--help")[1]

    def said(self, *words, **environment):
        done = subprocess.run([self.path, *words], env={**os.environ, **environment}, stdout=-1, stderr=subprocess.STDOUT, check=False)
        return done.returncode, done.stdout.decode(errors="replace").strip()

    def must(self, *words):
        code, said = self.said(*words)
        if code != 0:
            raise Fault(f"{' '.join(words)} ended with {code}: {said}")

    def make(self, job, beside, random, width, height, layers, **environment):
        if not self.command:
            return self.said("make", job, *map(str, (width, height, layers, random.randrange(1 << 32))), **environment)
        pictures = [f"{beside}/{k}.png" for k in range(layers + 1)]
        for picture in pictures:
            write(picture, png(random, width, height))
        words = [word for picture in pictures[1:] for word in ("--layer", f"{random.choice(OPERATORS)} {picture}{window(random, width, height)}")]
        return self.said("make", job, "--tray", pictures[0], *words, **environment)

    def recorded(self, trace, folder, kill=None, inputs=()):
        """The environment in which a folder is recorded, without the inputs."""
        killed = {"POWER_KILL": kill} if kill else {}
        return {"LD_PRELOAD": self.recorder, "POWER_TRACE": trace, "POWER_FOLDER": folder, "POWER_INPUTS": f" {' '.join(inputs)} ", **killed}

    def on(self, boot):
        return {"LD_PRELOAD": self.recorder, "POWER_BOOT": boot}

    def run(self, job, boot, trace, allowance=None, mode=None, kill=None):
        words = ["run", job, "--quiet"]
        if allowance is not None:
            words += ["--allowance", str(allowance)]
        if mode and self.durable:
            words += ["--durable", mode]
        return self.said(*words, **{**self.recorded(trace, job, kill, INPUTS), **self.on(boot)})


class Trial:
    """A job in a folder of its own, and the picture that it must have at its end."""

    def __init__(self, program, folder, seed, counts):
        self.program, self.folder, self.seed, self.counts = program, folder, seed, counts
        self.random = Random(seed)
        self.width, self.height = self.random.randint(24, 60), self.random.randint(24, 60)
        self.layers = self.random.randint(1, 5)
        self.pixels = self.width * self.height
        self.total = self.pixels * (self.layers + 1)
        self.job, self.trace, self.boot = f"{folder}/job", f"{folder}/trace", f"{folder}/boot"
        self.history = [f"{self.width} x {self.height} pixels, {self.layers} layers"]

    def make(self, job, **environment):
        """Gives the exit status and what was said; the same inputs each time."""
        return self.program.make(job, self.folder, Random(self.seed), self.width, self.height, self.layers, **environment)

    def must_make(self, job):
        code, said = self.make(job)
        if code != 0:
            raise Fault(f"make ended with {code}: {said}")

    def make_whole(self):
        """The uninterrupted job."""
        whole, trace = f"{self.folder}/whole", f"{self.folder}/whole.trace"
        self.new_boot()
        self.must_make(whole)
        code, said = self.program.run(whole, self.boot, trace)
        if code != 0:
            raise Fault(f"the uninterrupted job ended with {code}: {said}")
        self.right = self.picture(whole)
        self.events = Disk(read(trace)).events
        if self.program.command:
            self.program.must("export", whole, f"{self.folder}/right.pfm")

    def new_boot(self):
        write(self.boot, f"{uuid.UUID(int=self.random.getrandbits(128), version=4)}\n".encode())
        write(self.trace, b"")

    def mark(self):
        """The mark's position."""
        return int.from_bytes(read(f"{self.job}/mark")[:8], "little")

    def number(self):
        """The mark's job number."""
        return read(f"{self.job}/mark")[8:]

    def picture(self, job):
        return read(f"{job}/work{self.layers % 2}")

    def is_right(self):
        return self.picture(self.job) == self.right

    def is_finished(self):
        return self.is_right() and self.mark() == self.total
