"""Trials of `make`: it is killed at an event, or not, and the power is lost, or not. Then the job is there whole or not at all, and there if `make` has ended
well; it can be made, run and finished, and nothing is left beside it."""
import os
import shutil

from disk import Disk
from program import KILLED, Fault, Trial, read, write


class Making(Trial):
    REACHED = ["jobs made", "jobs there after a kill", "jobs not there after a kill"]

    def __init__(self, *words):
        super().__init__(*words)
        self.beside = f"{self.folder}/beside"
        self.job = f"{self.beside}/job"

    def first(self):
        """A `make` that is killed or not, and what is left of it."""
        os.mkdir(self.beside)
        code, said = self.make(self.job, **self.program.recorded(self.trace, self.beside))
        events = Disk(read(self.trace)).events
        self.history.append(f"make with {events} events ended with {code}: {said}")
        shutil.rmtree(self.job)
        write(self.trace, b"")
        # The last events are those around the job's name.
        event = self.random.choice([self.random.randrange(events), max(0, events - self.random.randint(1, 4))])
        kill = self.random.choice([None, f"before {event}", f"after {event}"])
        code, said = self.make(self.job, **self.program.recorded(self.trace, self.beside, kill))
        self.history.append(f"make, kill {kill}, ended with {code}: {said}")
        if code != (KILLED if kill else 0):
            raise Fault(f"make ended with {code}")
        if self.random.random() < 0.75:
            self.lose()
        there = os.path.exists(self.job)
        self.history.append(f"left: {', '.join(sorted(os.listdir(self.beside)))}")
        if not kill and not there:
            raise Fault("a job that was made is lost")
        self.counts["jobs made" if not kill else "jobs there after a kill" if there else "jobs not there after a kill"] += 1

    def lose(self):
        """The power is lost."""
        files = Disk(read(self.trace)).lost(self.random)
        shutil.rmtree(self.beside)
        os.mkdir(self.beside)
        for name, (_, content) in files.items():
            os.makedirs(os.path.dirname(f"{self.beside}/{name}"), exist_ok=True)
            write(f"{self.beside}/{name}", content)
        self.new_boot()

    def go(self):
        self.make_whole()
        self.first()
        if not os.path.exists(self.job):
            self.must_make(self.job)
            if os.listdir(self.beside) != ["job"]:
                raise Fault(f"left beside the job: {', '.join(os.listdir(self.beside))}")
        code, said = self.program.run(self.job, self.boot, f"{self.folder}/run.trace")
        if code != 0 or not self.is_finished():
            raise Fault(f"run ended with {code}: {said}")
