"""Trials of `run`: a job is run in parts, some of them killed at an event; then the power is lost, or the folder is copied, or it is left as it is. This may
happen again, and at the end the job is run to its end. A trial fails if a picture is called finished that is not the uninterrupted job's, if the job is not
finished at the end, if what was durable had to be made again, or if the mark has another job number then."""
import os
import re
import shutil

from disk import Disk
from program import INPUTS, KILLED, STOPPED, Fault, Trial, read, write


class Running(Trial):
    def __init__(self, *words):
        super().__init__(*words)
        # The mark from which a run on another boot must be able to go on; whether each run since the last one that ended syncs at the phases' ends, so
        # that a killed run raises it; whether a run on this boot must go on from the mark, as it must unless power was lost and no run has ended since.
        self.floor, self.by_phase, self.mark_holds = 0, True, True

    def inputs_now(self):
        return {name: read(f"{self.job}/{name}") for name in INPUTS}

    def part(self, last):
        """One run, that is killed or stops or finishes; the last one before power is lost is rarely killed before it has written."""
        random = self.random
        whole_phases = 5 * self.pixels * random.randint(0, self.layers)
        left = 5 * (self.total - min(self.mark(), self.total))
        allowance = random.choice([None, whole_phases, *(random.randint(0, most) for most in (left // 2, left, 10 * self.pixels))])
        mode = random.choice(["phase", "phase", "end"])
        event = random.choice([None, *(random.randint(0, most) for most in ([self.events] * 4 if last else [self.events, 7, 3]))])
        kill = None if event is None else f"{random.choice(['before', 'after'])} {event}"
        self.run(allowance, mode, kill)

    def run(self, allowance, mode, kill):
        """Runs the job and gives where it began, if it ended."""
        before = self.mark()
        code, said = self.program.run(self.job, self.boot, self.trace, allowance, mode, kill)
        self.history.append(f"run, allowance {allowance}, durable {mode}, kill {kill}: mark {before} to {self.mark()}, ended with {code}: {said}")
        if code == KILLED and kill:
            return self.killed(mode)
        if code not in (0, STOPPED):
            raise Fault(f"a run ended with {code}")
        if code == 0 and "stopped" not in said and not self.is_finished():
            raise Fault("a run has called a wrong picture finished")
        start = self.began(said, before)
        held = before if self.mark_holds else self.floor
        if start < held:
            raise Fault(f"a run began at {start}, and not at {held} or later")
        self.floor, self.by_phase, self.mark_holds = self.mark(), True, True
        return start

    def began(self, said, before):
        """Where a run has begun: by its stores, five a pixel, or as it says, and otherwise at the mark."""
        stores, taken_up = re.search(r"(\d+) stores", said), re.search(r"taken up at (\d+)", said)
        if stores:
            return self.mark() - int(stores[1]) // 5
        return int(taken_up[1]) if taken_up else before

    def killed(self, mode):
        """In mode `phase` the picture beneath the last written pixel is durable; in mode `end` nothing is that has been written over."""
        self.counts["runs killed"] += 1
        self.by_phase = self.by_phase and mode == "phase"
        if not self.by_phase:
            self.floor = 0
        elif self.mark_holds and self.program.durable:
            self.floor = max(self.floor, (self.mark() - 1) // self.pixels * self.pixels)

    def disturb(self):
        """Power is lost, or the folder copied, or neither."""
        what = self.random.choice(["lost"] * 6 + ["copied", "left"])
        self.at_loss, self.what = self.mark(), what
        self.counts[f"{what} {self.place(self.at_loss)}"] += 1
        disk = Disk(read(self.trace))
        if what == "lost":
            self.restore(disk.now(), disk.lost(self.random))
            self.new_boot()
            self.mark_holds = False
        if what == "copied":
            shutil.move(self.job, f"{self.folder}/original")
            shutil.copytree(f"{self.folder}/original", self.job)
            shutil.rmtree(f"{self.folder}/original")
            self.restore(disk.now(), disk.copied(self.random))
            write(self.trace, b"")
            self.floor, self.mark_holds = 0, False
        self.history.append(f"{what}: mark {self.mark()}, {', '.join(sorted(os.listdir(self.job)))}")
        self.look()

    def place(self, mark):
        if mark in (0, self.total):
            return "unbegun" if mark == 0 else "finished"
        return "within a phase" if mark % self.pixels else "between phases"

    def restore(self, now, files):
        """Writes contents into the files that are there, which keep their inodes, and only where they differ, so that nothing but the boot tells the loss."""
        for name in set(now) - set(files):
            os.remove(f"{self.job}/{name}")
        for name, (key, content) in files.items():
            path = f"{self.job}/{name}"
            if name in now and now[name][0] != key:
                os.remove(path)
            if os.path.exists(path) and read(path) == content:
                continue
            with open(path, "r+b" if os.path.exists(path) else "wb") as file:
                file.write(content)
                file.truncate()

    def look(self):
        """Neither `status` nor `export` may call a wrong picture finished."""
        environment = self.program.on(self.boot)
        code, said = self.program.said("status", self.job, **environment)
        self.history.append(f"status ended with {code}: {said}")
        if code < 0 or code > 100:
            raise Fault(f"status ended with {code}")
        if code == 0 and re.search(r"(?<!not )\bfinished\b", said) and not self.is_right():
            raise Fault("status calls a wrong picture finished")
        if self.program.command:
            picture = f"{self.folder}/now.pfm"
            code, said = self.program.said("export", self.job, picture, **environment)
            if code == 0 and read(picture) != read(f"{self.folder}/right.pfm"):
                raise Fault("export gives a wrong picture")

    def to_the_end(self):
        start = self.run(None, self.random.choice(["phase", "end"]), None)
        if not self.is_finished():
            raise Fault("the job is not finished at the end")
        if self.inputs_now() != self.inputs:
            raise Fault("a run has changed the job's inputs")
        if self.number() != self.made_with:
            raise Fault("a run has written the job number")
        if self.what == "lost":
            self.counts["taken up " + ("at the beginning" if start == 0 and self.at_loss else self.place(start))] += 1

    def go(self):
        self.make_whole()
        self.must_make(self.job)
        self.inputs, self.made_with = self.inputs_now(), self.number()
        for _ in range(self.random.randint(1, 3)):
            runs = self.random.randint(1, 4)
            for k in range(runs):
                self.part(last=k + 1 == runs)
            self.disturb()
        self.to_the_end()

    REACHED = [
        "runs killed",
        *(f"{what} {place}" for what in ("lost", "copied", "left") for place in ("within a phase", "between phases", "finished")),
        *(f"taken up {place}" for place in ("at the beginning", "within a phase", "between phases", "finished")),
    ]
