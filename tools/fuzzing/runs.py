"""Runs of `live` with seeds and losses, and their flights with changes."""
import collections
import functools
import glob
import json
import os
import re
import shutil

import audits
import drawing
import journals
import network
from texts import ROOT, first_difference, lines_of, write
from trying import Fault

NOON = 1772442000000000
# A piece of a flight: what it is, its bytes, and the mark of the life, step, torn step or answer that it is of.
Piece = collections.namedtuple("Piece", "kind text mark")


# Scripts for `live`.


def draw_lines(chance, tongue, members):
    """Requests that clients number, questions, members that go down and come up."""
    lines, numbers, down, reading = [f"clock all {NOON}"], collections.Counter(), [], NOON
    for _ in range(chance.choice([6, 12, 25])):
        kind = chance.choices(["submit", "ask", "settle", "stop", "start", "clock"], [60, 14, 8, 5, 8, 5])[0]
        node = chance.randint(1, members)
        if kind == "submit":
            client = chance.choice([7, 7, 8])
            number = max(1, numbers[client] + chance.choice([1] * 12 + [0, 2, -8]))
            lines.append(f"submit {node} {client} {number} {tongue.transaction()}")
            numbers[client] = max(number, numbers[client])
        elif kind == "ask":
            reading += 1
            lines.append(f"ask {node} {tongue.question([NOON, NOON + 50, NOON + 200, reading])}")
        elif kind == "settle":
            lines.append(f"settle {chance.randint(1, 60)}")
        elif kind == "stop" and len(down) < (members - 1) // 2 and node not in down:
            down.append(node)
            lines.append(f"stop {node}")
        elif kind == "start" and down:
            lines.append(f"start {down.pop(0)}")
        elif kind == "clock":
            reading = NOON + chance.choice([-500, 1000, 10**9])
            lines.append(f"clock {chance.choice([node, 'all'])} {reading}")
    return lines


class Run:
    """A run of `live` in a folder, its script, what it printed and its flights."""

    def __init__(self, program, folder, chance, small=False):
        self.program, self.folder, self.place = program, folder, os.path.join(folder, "run")
        self.members = 3 if small else chance.choice([3, 3, 3, 4, 5, 6, 7])
        self.tongue = drawing.Tongue(chance, 2)
        self.head = f"members {self.members}\nschema\n{self.tongue.schema}\nend\n".encode()
        self.lines = [f"{line}\n".encode() for line in draw_lines(chance, self.tongue, self.members)]
        self.seed = chance.choice([chance.randint(0, 9), chance.getrandbits(64), 2**64 - chance.randint(1, 8)])
        self.loss = chance.choice([0, 5, 20, 20, 30, 40, 50])
        self.words = ["live", "--nodes", self.members, "--seed", self.seed, "--loss", self.loss]
        self.play(self.lines)

    def play(self, lines):
        shutil.rmtree(self.place, ignore_errors=True)
        os.mkdir(self.place)
        self.script = self.head + b"".join(lines)
        self.files = {"script": self.script, "words": " ".join(map(str, self.words)).encode()}
        self.path = write(self.folder, "live.script", self.script)
        self.ended = self.program.run(*self.words, "--dir", self.place, self.path, files=self.files)
        self.printed = lines_of(self.ended.out)

    def fault(self, why, ended=None, fails=None):
        files = dict(self.files)
        for path in glob.glob(f"{self.place}/*.flight"):
            with open(path, "rb") as file:
                files[os.path.basename(path)] = file.read()
        return Fault(why, ended or self.ended, files, self.lines if fails else None, fails)

    def flights(self):
        return [os.path.join(self.place, f"node{number}.flight") for number in range(1, self.members + 1)]

    def look(self):
        """What the run printed, recorded and stored, against what is predicted of it; and what the audit says of its files."""
        differs = self.differs()
        if differs:
            raise self.fault(differs, None, self.fails)
        audit = self.program.run("audit", *self.flights(), files=self.files)
        if audit.out != b"audit: yes\n" or audit.err or audit.status:
            raise self.fault(f"of its files the audit says {audit.out!r}", audit)

    def fails(self, lines):
        try:
            self.play(lines)
            return bool(self.differs())
        except Fault:
            return True
        except Exception:
            return False

    def differs(self):
        predicted = network.Network(self.script, self.seed, self.loss)
        wanted, flights = predicted.play_all()
        differs = first_difference(self.printed, wanted)
        if differs or self.ended.status or self.ended.err:
            return differs or f"it ends with status {self.ended.status} and says {self.ended.err[:200]!r}"
        for path, flight in zip(self.flights(), flights):
            with open(path, newline="") as file:
                differs = first_difference(file.read().split("\n"), flight.split("\n"))
            if differs:
                return f"{os.path.basename(path)}: {differs}"
        for node in predicted.group.nodes.values():
            stored = journals.stored_in(os.path.join(self.place, f"node{node.number}.db"))
            wanted = journals.wanted_in(*node.kept())
            if stored != wanted:
                return f"node{node.number}.db has {str(stored)[:300]}, and not {str(wanted)[:300]}"
        return None

    def look_again(self):
        again = self.program.run(*self.words, self.path, files=self.files)
        if again.out != self.ended.out:
            raise self.fault("the same run prints something else without a folder", again)


def live(program, folder, chance):
    run = Run(program, folder, chance)
    run.look()
    if chance.random() < 0.4:
        run.look_again()
    if chance.random() < 0.1:
        refuse_folders(run, folder)
    return {"runs": 1, "lines": len(run.printed), "steps": sum(it.kind == "step" for it in run_pieces(run))}


def run_pieces(run):
    for path in run.flights():
        with open(path, "rb") as file:
            yield from pieces_of(file.read())


def refuse_folders(run, folder):
    """The folder again, and one that is not there."""
    for place, wanted in ((run.place, "44 bad store"), (os.path.join(folder, "nowhere"), "40 store fault")):
        ended = run.program.run(*run.words, "--dir", place, run.path)
        if run.program.refusal(ended) != wanted:
            raise run.fault(f"of {place} it says {ended.err!r}, and not {wanted}", ended)


# Flights.


def pieces_of(text):
    """A flight line by line; bytes that follow a length are a piece of their own."""
    found, at, mark, above = [], 0, 0, ""
    while at < len(text):
        end = text.index(b"\n", at) + 1
        words = text[at : end - 1].decode().split(" ")
        kind = words[0]
        if kind in ("life", "step", "torn", "answer"):
            mark, above = int(words[1]), kind
        elif kind == "outcome":
            above = "told"
        if kind == "entry":
            kind = "entry" if above == "life" else "sent"
        found.append(Piece(kind, text[at:end], mark))
        at = end
        has_block = kind in ("schema", "text", "query") or words[-2:-1] != ["close"] and kind in ("entry", "sent") and words[-1] != "close"
        if has_block or kind in ("step", "torn") and "submit" in words[3:4]:
            length = int(words[-1])
            name = f"{above} text" if kind == "text" else f"{kind} text"
            found.append(Piece(name, text[at : at + length + 1], mark))
            at += length + 1
    return found


def with_number(chance, line, place):
    """A line whose word at this place is another number."""
    words = line.rstrip(b"\n").split(b" ")
    number = int(words[place])
    words[place] = b"%d" % max(0, chance.choice([number + 1, number + 1, number + 2, number - 1, number + 100, 0, 1]))
    return b" ".join(words) + b"\n"


class Forged:
    """A group of flights of which one gets a change."""

    def __init__(self, chance, texts):
        self.chance, self.texts = chance, list(texts)
        self.node = chance.randrange(len(texts))
        self.pieces = pieces_of(texts[self.node])

    def changed(self):
        """The texts with a change of any kind, and the kind; some kinds have nothing to change in some flights."""
        while True:
            kind = self.chance.choice(KINDS)
            if getattr(self, kind)() is not False:
                self.texts[self.node] = b"".join(piece.text for piece in self.pieces)
                return kind

    def any(self, *kinds):
        found = [at for at, piece in enumerate(self.pieces) if piece.kind in kinds]
        return self.chance.choice(found) if found else None

    def put(self, at, text):
        self.pieces[at] = self.pieces[at]._replace(text=text)

    def number_in(self, *kinds):
        """A number of such a line is another one."""
        at = self.any(*kinds)
        if at is None:
            return False
        words = self.pieces[at].text.split()
        places = [place for place, word in enumerate(words) if word.isdigit()]
        self.put(at, with_number(self.chance, self.pieces[at].text, self.chance.choice(places)))

    def opening(self):
        return self.number_in("life")

    def stored(self):
        return self.number_in("entry")

    def sent(self):
        return self.number_in("sent")

    def step(self):
        return self.number_in("step", "torn")

    def outcome(self):
        return self.number_in("outcome")

    def line(self):
        return self.number_in(*(it.kind for it in self.pieces if not it.kind.endswith("text") and re.search(rb" [0-9]", it.text)))

    def floor(self):
        """No floor where there is one, or one where there is none."""
        at = self.any("life", "step", "torn")
        text = self.pieces[at].text
        self.put(at, text.replace(b" -1", b" 0", 1) if b" -1" in text else re.sub(b" [0-9]+( [0-9]+)?\n$", rb" -1\1\n", text))

    def word(self):
        """Another word of the language of flights in a line."""
        at = self.any(*(it.kind for it in self.pieces if not it.kind.endswith("text")))
        words = self.pieces[at].text.split(b" ")
        words[self.chance.randrange(len(words))] = self.chance.choice(WORDS)
        self.put(at, b" ".join(words).rstrip(b"\n") + b"\n")

    def digit(self):
        """Another digit in what was told, asked or answered."""
        at = self.any("told text", "answer text", "query text", "step text", "sent text", "entry text")
        text = self.pieces[at].text if at is not None else b""
        places = [it.start() for it in re.finditer(b"[0-9]", text)]
        if not places:
            return False
        place = self.chance.choice(places)
        self.put(at, text[:place] + b"%d" % self.chance.randrange(10) + text[place + 1 :])

    def part(self, *kinds):
        """Where a part begins and ends: a step with its outcomes, an outcome, an answer, or a life's ending."""
        at = self.any(*kinds)
        if at is None:
            return None
        kind, end = self.pieces[at].kind, at + 1
        if kind in ("outcome", "answer"):
            return at, at + (3 if kind == "outcome" else 5)
        while kind == "step" and end < len(self.pieces) and self.pieces[end].kind not in ("step", "torn", "up", "stopped"):
            end += 1
        return at, end

    def lacks(self):
        place = self.part("step", "outcome", "answer", "step", "outcome", "stopped", "up")
        if place is None:
            return False
        del self.pieces[slice(*place)]

    def twice(self):
        place = self.part("step", "outcome", "answer")
        if place is None:
            return False
        self.pieces[place[0] : place[0]] = self.pieces[slice(*place)]

    def elsewhere(self):
        """A step, an outcome or an answer in another place of its kind."""
        place, other = self.part("step"), self.part("step")
        if self.chance.random() < 0.5:
            place, other = self.part("outcome", "answer"), self.part("outcome", "answer")
        if place is None or place == other:
            return False
        first, second = sorted((place, other))
        parts = self.pieces[slice(*first)], self.pieces[slice(*second)]
        self.pieces[slice(*second)] = parts[0]
        self.pieces[slice(*first)] = parts[1]

    def bytes(self):
        self.whole(drawing.changed(self.chance, b"".join(it.text for it in self.pieces)))

    def lines(self):
        self.whole(drawing.changed_lines(self.chance, b"".join(it.text for it in self.pieces)))

    def whole(self, text):
        self.pieces = [Piece("whole", text, 0)]

    def exchanged(self):
        """The flights of two nodes, each as the other's."""
        other = self.chance.randrange(len(self.texts))
        heads = [b"node %d of" % (it + 1) for it in (self.node, other)]
        one, two = self.texts[self.node], self.texts[other]
        self.texts[other] = one.replace(heads[0], heads[1], 1)
        self.whole(two.replace(heads[1], heads[0], 1))

    def other(self):
        """A flight that is there twice, or another one that is not there."""
        others = [at for at in range(len(self.texts)) if at != self.node]
        if self.chance.random() < 0.5 or not others:
            self.texts.append(self.texts[self.node])
        else:
            gone = self.chance.choice(others)
            del self.texts[gone]
            self.node -= gone < self.node


KINDS = ["opening", "opening", "stored", "sent", "step", "step", "step", "outcome", "line", "floor", "word", "digit", "digit", "digit", "lacks",
         "lacks", "twice", "elsewhere", "elsewhere", "bytes", "bytes", "lines", "exchanged", "other"]
WORDS = [b"timeout", b"beat", b"close", b"floor", b"submit", b"from", b"votereq", b"vote", b"append", b"reply", b"seek", b"stored", b"seal",
         b"up", b"stopped", b"torn", b"step", b"life", b"0", b"1", b"-1", b"9223372036854775807", b"18446744073709551616", b"00", b""]
VERDICT = re.compile(rb"audit: (yes|5[1-4] .*)\n")


@functools.cache
def stored_groups():
    """Flights of the repository, of all versions."""
    found = []
    for path in sorted(glob.glob(f"{ROOT}/cases/flights/*.flights")):
        with open(path, "rb") as file:
            texts = re.split(rb"(?<=\nend\n)(?=bitable flight )", file.read())
        found.append([text for text in texts if text])
    for names in (f"{ROOT}/cases/flights/node[123].flight", f"{ROOT}/examples/flights/node[123].flight"):
        texts = []
        for path in sorted(glob.glob(names)):
            with open(path, "rb") as file:
                texts.append(file.read())
        found.append(texts)
    return [texts for texts in found if sum(map(len, texts)) < 150_000]


def flights(program, folder, chance):
    """Flights of a run, or of the repository, one change at a time, or some."""
    counts = collections.Counter(changes=0)
    texts = chance.choice(stored_groups())
    if chance.random() < 0.6:
        run = Run(program, folder, chance, small=chance.random() < 0.6)
        texts = []
        for path in run.flights():
            with open(path, "rb") as file:
                texts.append(file.read())
    for _ in range(14):
        forged, kinds = Forged(chance, texts), []
        kinds.append(forged.changed())
        while kinds[-1] not in ("bytes", "lines", "exchanged", "other") and chance.random() < 0.2:
            kinds.append(forged.changed())
        counts["changes"] += 1
        counts[judge(program, folder, chance, forged.texts, " and ".join(kinds))] += 1
    return counts


def wanted_of(texts):
    """The verdict that has to come, or nothing where what is recorded is nothing that the second group can do."""
    try:
        return audits.verdict(texts)
    except AssertionError:
        return None


def judge(program, folder, chance, texts, kind):
    """What the program says of flights, which has to be what the audit of this tool says."""
    files = {f"node{at}.flight": text for at, text in enumerate(texts, 1)}
    paths = [write(folder, f"forged{at}.flight", text) for at, text in enumerate(texts, 1)]
    if chance.random() < 0.2:
        chance.shuffle(paths)
    ended = program.run("audit", *paths, files=files)
    if ended.out == b"":
        said, status = program.refusal(ended, files), 1
    else:
        if not VERDICT.fullmatch(ended.out) or ended.err:
            raise Fault(f"{kind}: it prints {ended.out[:200]!r} and {ended.err[:200]!r}", ended, files)
        said = ended.out.decode()[:-1]
        status = 0 if said == audits.YES else 1
    wanted = wanted_of(texts)
    if ended.status != status or said != (wanted or said):
        raise Fault(f"{kind}: it says {said} with status {ended.status}, and not {wanted}", ended, files)
    if chance.random() < 0.1 and said != audits.BAD:
        report(program, paths, said, files)
    return said.removeprefix("audit: ").partition(" ")[0]


def report(program, paths, said, files):
    ended = program.run("audit", "--json", *paths, files=files)
    try:
        found = json.loads(ended.out)
    except ValueError:
        raise Fault("the report is no JSON", ended, files) from None
    shown = "yes" if found["audit"] == "yes" else f"{found['refused']} {found['text']}"
    if f"audit: {shown}" != said:
        raise Fault(f"the report says {shown}, and the audit {said}", ended, files)
