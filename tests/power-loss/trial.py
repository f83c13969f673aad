"""Trials of a worker under loss of power: trial.py PROGRAM RECORDER FOLDER KEPT COUNT SEED [first]

PROGRAM is the command `tray`, or a program with the words `make JOB WIDTH HEIGHT LAYERS SEED`, `run` and `status`. RECORDER is recorder.c, compiled.
Trials SEED to SEED + COUNT - 1 are made in FOLDER, up to the tenth that fails, or the `first`, and the job of one that fails is kept in KEPT. Every fifth is
one of `make` (making.py), the others of `run` (running.py)."""
import collections
import os
import shutil
import sys

from making import Making
from program import Fault, Program
from running import Running


def made(program, folder, kept, seed, counts):
    """One trial, and whether it is passed."""
    shutil.rmtree(folder, ignore_errors=True)
    os.makedirs(folder)
    trial = (Running if seed % 5 else Making)(program, folder, seed, counts)
    try:
        trial.go()
        return True
    except (Fault, OSError) as fault:
        shutil.copytree(folder, f"{kept}/{seed}", dirs_exist_ok=True)
        trial.history.append(f"{fault}; its job is in {kept}/{seed}")
        print(f"trial {seed}:", *trial.history, sep="\n    ")
        return False


def main(path, recorder, folder, kept, count, seed, first=""):
    program, counts = Program(path, recorder), collections.Counter()
    wrong, count, seed = 0, int(count), int(seed)
    for number in range(seed, seed + count):
        wrong += not made(program, folder, kept, number, counts)
        if wrong and (first or wrong == 10):
            print(f"{wrong} of {number - seed + 1} trials failed")
            return 1
    print(f"{path}: {count} trials from {seed} on: " + ", ".join(f"{counts[what]} {what}" for what in sorted(counts)))
    never = [what for what in Running.REACHED + Making.REACHED if not counts[what]] if count >= 300 else []
    if wrong or never:
        print(f"{wrong} of {count} trials failed; never reached: {', '.join(never) or 'nothing'}")
    return 1 if wrong or never else 0


if __name__ == "__main__":
    sys.exit(main(*sys.argv[1:]))
