"""What a loss of power may leave of a folder, from the trace of tests/power-loss/recorder.c.

The storage has, of each file, what it had when the file was last synced; since then the system may have written any part of it back, in any order. So a part
of a file (a page, or a sector) is as one of the copies since that sync shows it. A file that was never synced may also be cut short, or zeros from some place
on. Names are written in their order: the folder's names are those of one of the copies since its own last sync. A name says nothing of its file's content."""
PAGE, SECTOR = 4096, 512


def one_of(versions, how, random):
    return versions[{"old": 0, "new": -1}.get(how, random.randrange(len(versions)))]


class File:
    """`versions` are those since the last sync, `floors` the first of them that a page may have, `ever` all of the trace."""

    def __init__(self, content, synced):
        self.versions, self.ever, self.floors, self.synced = [content], [content], {}, synced

    def seen(self, content):
        if content != self.versions[-1]:
            self.versions.append(content)
            self.ever.append(content)

    def sync(self, start, end):
        """The last version is durable from `start` to `end`; the system syncs whole pages."""
        content = self.versions[-1]
        if start == 0 and end >= len(content):
            self.versions, self.floors, self.synced = [content], {}, True
        else:
            for page in range(start // PAGE, -(-end // PAGE)):
                self.floors[page] = len(self.versions) - 1

    def mixed(self, versions, random, unit):
        """A content whose parts are each of one of the versions."""
        how = random.choice(["old", "new", "any", "any"])
        size = len(one_of(versions, how, random))
        parts = []
        for at in range(0, size, unit):
            floor = self.floors.get(at // PAGE, 0) if versions is self.versions else 0
            since = [version for version in versions[floor:] if at < len(version)]
            parts.append(one_of(since, how, random)[at : at + unit][: size - at].ljust(min(unit, size - at), b"\0"))
        return parts

    def lost(self, random, unit):
        """One content that a loss of power may leave."""
        parts = self.mixed(self.versions, random, unit)
        if self.synced or random.random() < 0.5:
            return b"".join(parts)
        kept = b"".join(parts[: random.randint(0, len(parts))])
        return random.choice([kept, kept.ljust(sum(map(len, parts)), b"\0")])

    def copied(self, random, unit):
        """One content that a copy has which was made while the file was written."""
        return b"".join(self.mixed(self.ever, random, unit))


class Disk:
    """A folder whose files were all durable when the trace begins."""

    def __init__(self, trace):
        self.files, self.names, self.events = {}, [], 0
        self.trace, self.at = trace, 0
        while self.at < len(trace):
            self.step(self.words())

    def words(self):
        end = self.trace.index(b"\n", self.at)
        line = self.trace[self.at : end].decode()
        self.at = end + 1
        return line.split(" ")

    def step(self, event):
        """An event, the copy of the folder before it and, if it was carried out, what it made durable."""
        first, names = not self.names, {}
        while self.trace.startswith(b"file ", self.at):
            _, key, size, name = self.words()
            content = self.trace[self.at : self.at + int(size)]
            self.at += int(size)
            names[name] = key
            if key in self.files:
                self.files[key].seen(content)
            else:
                self.files[key] = File(content, first)
        self.names.append(names)
        if self.trace.startswith(b"done\n", self.at):
            self.carried_out(*event[1:])
        if self.trace[self.at : self.at + 5] in (b"done\n", b"faile"):
            self.events += 1
            self.words()

    def carried_out(self, what, key=None, *numbers):
        if what == "sync" and key in self.files:
            self.files[key].sync(*map(int, numbers))
        if what == "length" and key in self.files:
            length = int(numbers[0])
            self.files[key].seen(self.files[key].versions[-1][:length].ljust(length, b"\0"))
        if what in ("sync-names", "sync-all"):
            self.names = self.names[-1:]
        if what == "sync-all":
            for file in self.files.values():
                file.sync(0, len(file.versions[-1]))

    def now(self):
        """Names, their files' keys and contents at the end of the trace."""
        return {name: (key, self.files[key].versions[-1]) for name, key in self.names[-1].items()}

    def lost(self, random):
        """The same of one folder that a loss of power may leave."""
        names = random.choice([self.names[0], self.names[-1], random.choice(self.names)])
        unit = random.choice([PAGE, SECTOR])
        return {name: (key, self.files[key].lost(random, unit)) for name, key in names.items()}

    def copied(self, random):
        """The same of one copy of the folder that was made meanwhile."""
        names = self.names[-1]
        return {name: (key, self.files[key].copied(random, PAGE)) for name, key in names.items()}
