"""Runs the program, looks how it ends, and keeps what fails with a smaller form of it."""
import collections
import os
import re
import resource
import signal
import subprocess
import time
from pathlib import Path

# How many processor seconds a command may take, and how many by the clock, on a machine that has other work.
SECONDS, PATIENCE = 10, 120
# How long, and how often, a smaller form is looked for.
SEEKING, TRIES = 60, 400
FORMATS = Path(__file__).resolve().parent.parent.parent / "docs" / "FORMATS.md"
PLACES = {
    "B": "[0-9]+", "N": "[0-9]+", "MARK": "[0-9]+", "I": "[0-9]+", "K": "[0-9]+", "L": "[0-9]+", "V": "[0-9]+", "INSTANT": "[0-9: .-]{26}",
    "TABLE": "[A-Za-z0-9_]+", "(VALUE,..)": r"\(.*\)", "DAY": "[0-9-]{10}",
}
Ended = collections.namedtuple("Ended", "words status out err seconds")


class Fault(Exception):
    """What is not as it has to be. `files` has what is needed to see it again; of `parts` some may be left out while `fails` says so."""

    def __init__(self, why, ended=None, files=None, parts=None, fails=None):
        super().__init__(why)
        self.why, self.ended, self.files, self.parts, self.fails = why, ended, files or {}, parts, fails


class Refusals:
    """The table of docs/FORMATS.md, and how often each number was met."""

    def __init__(self):
        self.forms, self.met = {}, collections.Counter()
        for line in FORMATS.read_text().splitlines():
            found = re.fullmatch(r"\|([0-9]+)\|((?:[^|\\]|\\\|)+)\|.*\|", line)
            if found and int(found[1]) not in self.forms:
                self.forms[int(found[1])] = [self.form(text) for text in self.texts(found[2])]
        every = [f"{number} {form}" for number, forms in self.forms.items() for form in forms]
        self.any = re.compile("|".join(sorted(every, key=len, reverse=True)))
        self.within = re.compile(rb"(?:^|[ \"])([1-9][0-9]) [a-z]", re.M)

    def texts(self, cell):
        """The texts of a row: with what stands in brackets and without, and with what may stand in place of what follows the last comma."""
        first, *others = cell.split("\\|")
        for text in [first, *(f"{first.rpartition(', ')[0]}, {it}" for it in others)]:
            found = re.fullmatch(r"(.*)\[(.*)\]", text)
            yield from (found[1], found[1] + found[2]) if found else (text,)

    def form(self, text):
        return " ".join(PLACES.get(word.rstrip(","), re.escape(word.rstrip(","))) + ("," if word.endswith(",") else "") for word in text.split(" "))

    def is_one(self, text):
        return bool(self.any.fullmatch(text))

    def count(self, text):
        for place in self.within.finditer(text):
            found = self.any.match(text[place.start(1) : place.start(1) + 200].decode(errors="replace").partition("\n")[0])
            if found:
                self.met[int(found[0][:2])] += 1

    def told(self):
        met = ", ".join(f"{number} {self.met[number]}" for number in sorted(self.forms) if self.met[number])
        never = ", ".join(str(number) for number in sorted(self.forms) if not self.met[number])
        return f"refusals met: {met}; never: {never or 'none'}"


def limit():
    resource.setrlimit(resource.RLIMIT_CPU, (SECONDS, SECONDS + 5))
    resource.setrlimit(resource.RLIMIT_CORE, (0, 0))


class Program:
    def __init__(self, path):
        self.path, self.refusals, self.runs, self.longest = os.path.abspath(path), Refusals(), 0, 0.0

    def run(self, *words, text=b"", files=None, statuses=(0, 1)):
        """A command with this on standard input. A signal, more time than there is, or another status is a fault."""
        before = resource.getrusage(resource.RUSAGE_CHILDREN)
        words = [self.path, *map(str, words)]
        try:
            done = subprocess.run(words, input=text, capture_output=True, timeout=PATIENCE, preexec_fn=limit)
        except subprocess.TimeoutExpired as late:
            raise Fault(f"over {PATIENCE} seconds by the clock", Ended(words, None, late.stdout or b"", late.stderr or b"", PATIENCE), files) from None
        after = resource.getrusage(resource.RUSAGE_CHILDREN)
        ended = Ended(words, done.returncode, done.stdout, done.stderr, after.ru_utime + after.ru_stime - before.ru_utime - before.ru_stime)
        self.look_at(ended, files, statuses)
        return ended

    def look_at(self, ended, files, statuses):
        self.runs += 1
        self.longest = max(self.longest, ended.seconds)
        if ended.status in (-signal.SIGXCPU, -signal.SIGKILL):
            raise Fault(f"over {SECONDS} processor seconds", ended, files)
        if ended.status < 0:
            raise Fault(f"signal {-ended.status}", ended, files)
        if ended.status not in statuses:
            raise Fault(f"status {ended.status}", ended, files)
        self.refusals.count(ended.out)
        self.refusals.count(ended.err)

    def refusal(self, ended, files=None):
        """The refusal that ended a command, which has to have the form of one."""
        first, *rest = ended.err.decode(errors="replace").splitlines() or [""]
        if ended.status != 1 or not self.refusals.is_one(first) or not rest or not rest[0].startswith("  "):
            raise Fault(f"it ends with status {ended.status} and says {ended.err[:300]!r}", ended, files)
        return first


def smaller(parts, fails):
    """Parts with as many left out as it takes a short time to leave out, while they fail."""
    begun, tries, size = time.monotonic(), 0, max(1, len(parts) // 2)
    while size and time.monotonic() - begun < SEEKING and tries < TRIES:
        at, is_smaller = 0, False
        while at < len(parts) and time.monotonic() - begun < SEEKING and tries < TRIES:
            fewer = parts[:at] + parts[at + size :]
            tries += 1
            if fails(fewer):
                parts, is_smaller = fewer, True
            else:
                at += size
        size = size if is_smaller and size > 1 else size // 2
    return parts


def keep(folder, name, fault):
    """Writes what failed into a new folder: the files, the command, what was said and, where there is one, a smaller form."""
    place = Path(folder) / name
    place.mkdir(parents=True, exist_ok=True)
    lines = [fault.why]
    if fault.ended:
        lines += ["", "$ " + " ".join(map(str, fault.ended.words)), f"status {fault.ended.status}"]
        (place / "out").write_bytes(fault.ended.out)
        (place / "err").write_bytes(fault.ended.err)
    for one, text in fault.files.items():
        path = place / one
        path.parent.mkdir(parents=True, exist_ok=True)
        path.write_bytes(text)
    (place / "why").write_text("\n".join(lines) + "\n")
    if fault.parts is not None and fault.fails:
        least = smaller(fault.parts, fault.fails)
        (place / "smaller").write_bytes(b"".join(least))
    return place
