"""Sittings at a store with lines of chance, and its files with changes."""
import collections
import glob
import os
import re
import shutil
import subprocess
import threading

import audits
import drawing
import journals
import language
import tables as tabled
from language import Refused
from texts import first_difference, lines_of, write
from trying import PATIENCE, Ended, Fault

NOON = 1772442000000000
OWN = 65535
KEPT = 8
# What may be refused of a store whose files were changed.
CHANGED = {"39", "40", "44", "46", "47", "49", "55"}
HELP = "A line that ends with ; is a request"
NUMBER = "(?:0|[1-9][0-9]*)"
# What is left out at both ends of a text.
BLANKS = "\t\n\x0b\x0c\r \x85\xa0\u1680\u2028\u2029\u202f\u205f\u3000" + "".join(map(chr, range(0x2000, 0x200B)))
SUBMIT = re.compile(rf"\.submit ({NUMBER}) ({NUMBER}) (.*)", re.S)
QUESTION = re.compile(r"(?:@([0-9]+) )?(select(?![A-Za-z0-9_]).*)", re.S | re.I)


def is_clock(text):
    """Whether a line sets the clock, to a signed number of 64 bits."""
    told = re.fullmatch(r"\.clock (0|-?[1-9][0-9]*)", text)
    return bool(told) and -(2 ** 63) <= int(told[1]) < 2 ** 63


# What a sitting may say on standard error: that its store's time is ahead of the clock, and where texts are refused, with their lines.
PLACE = b": the text that begins here is refused\n"
SAID = re.compile(rb"(?:the store's time is [^\n]*\n|-:[0-9]+" + PLACE + rb"(?:    [^\n]*\n)+)*")


class Sitting:
    """What lines that go into `open` have to print, line by line of what is printed."""

    def __init__(self, store):
        self.store, self.printed = store, None

    def judge(self, text, printed):
        """Takes all lines; a text that says why what is printed can't be, or nothing. `ended` says whether the input could be read."""
        self.printed, self.ended, self.down = collections.deque(printed), None, set()
        lines = collections.deque(enumerate(text.split(b"\n"), 1))
        if text.endswith(b"\n") or not text:
            lines.pop()
        try:
            while lines and self.ended is None and self.store.is_known:
                self.take(lines)
        except Wrong as wrong:
            return str(wrong)
        return f"it prints {self.printed[0]!r} at its end" if self.printed and self.store.is_known else None

    def line(self, lines):
        """The next line, or nothing where the input ends or can't be read."""
        if not lines:
            return None
        number, line = lines.popleft()
        try:
            return number, line.removesuffix(b"\r").decode()
        except UnicodeDecodeError:
            self.ended = f"60 bad script at line {number}"
            return None

    def take(self, lines):
        found = self.line(lines)
        if not found or not found[1].strip(BLANKS) or found[1].startswith("#"):
            return
        number, text = found
        if not text.startswith(".") or text.startswith(".submit "):
            while not text.rstrip(BLANKS).endswith(";") and lines:
                more = self.line(lines)
                if not more:
                    return
                text += "\n" + more[1]
        self.obey(number, text.rstrip(BLANKS) if text.startswith(".") else text.strip(BLANKS))

    def obey(self, number, text):
        submit, question = SUBMIT.fullmatch(text), QUESTION.fullmatch(text)
        if text == ".quit":
            self.ended = ""
        elif submit and 1 <= int(submit[1]) <= OWN and 1 <= int(submit[2]) <= 2**62:
            self.request(int(submit[1]), int(submit[2]), submit[3])
        elif text.startswith("."):
            self.command(number, text)
        elif question and (question[1] is None or re.fullmatch(NUMBER, question[1]) and int(question[1]) < 2**64):
            self.question(question[1], question[2])
        elif text.startswith("@"):
            self.expect(f"{self.store.name}:{number}:1: 60 bad script at line {number}")
        else:
            self.request(OWN, self.store.executed[OWN] + 1, text)

    def command(self, number, text):
        found = re.fullmatch(rf"\.(stop|start) ({NUMBER})", text)
        if found and int(found[2]) < 2**64:
            line = self.expect_form(f"node {found[2]} (is (down|up); .*|refused [0-9]+ .*)")
            (self.down.add if " is down;" in line else self.down.discard if " is up;" in line else str)(found[2])
            self.store.is_known = 2 * len(self.down) < self.store.members
        elif text == ".status":
            for _ in range(2 + self.store.members):
                self.expect_form("member .*|------ .*|node [0-9] .*")
        elif text == ".schema":
            for line in self.store.schema.split("\n"):
                self.expect(line)
        elif text == ".help":
            self.expect_form(HELP + ".*")
            while self.next() != "  .help    .quit          this page; leave (end of input does too)":
                pass
        elif text != ".format lines" and not is_clock(text):
            self.expect(f"{self.store.name}:{number}:1: 60 bad script at line {number}")

    def next(self):
        if not self.printed:
            raise Wrong("it prints too little")
        return self.printed.popleft()

    def expect(self, wanted):
        line = self.next()
        if line != wanted:
            raise Wrong(f"it prints {line!r}, and not {wanted!r}")

    def expect_form(self, form):
        line = self.next()
        if not re.fullmatch(form, line):
            raise Wrong(f"it prints {line!r}, and not as {form!r}")
        return line

    def request(self, client, number, text):
        store, before = self.store, f"request {client} {number} "
        try:
            said = language.transaction_of(store.tables, text.encode())
        except Refused as refusal:
            return self.expect(f"{before}refused {refusal}")
        if number > store.executed[client] + 1:
            return self.expect(f"{before}refused 31 gap in requests")
        if number <= store.executed[client]:
            is_kept = number > store.executed[client] - KEPT
            return self.expect(before + (store.outcomes[client, number] if is_kept else "refused 30 old request"))
        line = self.next()
        stamp = store.last + 1
        if line.startswith(f"{before}accepted "):
            stamp = language.instant_of(line.removeprefix(f"{before}accepted "))
            if stamp <= store.last:
                raise Wrong(f"it prints {line!r}, and one was accepted at {tabled.instant(store.last)}")
        wanted = store.execute(said, stamp)
        if line != before + wanted:
            raise Wrong(f"it prints {line!r}, and not {before + wanted!r}")
        store.executed[client], store.outcomes[client, number] = number, wanted
        store.decided.append(f"request {client} {number} {wanted} " + text.replace("\n", " "))

    def question(self, member, text):
        store = self.store
        first = self.expect_form(f"node {member or '[0-9]+'} (answer|refused [0-9]+ .*)")
        if not first.endswith(" answer"):
            return self.refused(first, text, member)
        try:
            question = language.question_of(store.tables, text.encode())
        except Refused as refusal:
            raise Wrong(f"it answers a question that is refused {refusal}") from None
        closed = language.instant_of(self.printed[0].removeprefix("last "))
        for wanted in store.answer(question, closed):
            self.expect(wanted)

    def refused(self, line, text, member):
        said = line.partition(" refused ")[2]
        try:
            language.question_of(self.store.tables, text.encode())
        except Refused as refusal:
            if said != str(refusal) and not said.startswith("41"):
                raise Wrong(f"it refuses a question {said!r}, and not {refusal}") from None
            return
        if said[:2] not in ("33", "41") or member is None and said[:2] == "41":
            raise Wrong(f"it refuses a question {said!r}")


class Wrong(Exception):
    pass


class Store:
    """A store in a folder, and what it has to have."""

    def __init__(self, program, folder, chance):
        self.program, self.folder, self.chance = program, folder, chance
        for name in os.listdir(folder):
            shutil.rmtree(os.path.join(folder, name), ignore_errors=True)
        self.place, self.members = os.path.join(folder, "kept"), chance.choice([3, 3, 3, 4, 5, 7])
        self.tongue = drawing.Tongue(chance, 2)
        self.schema, self.tables, self.name = self.tongue.schema, self.tongue.tables, "-"
        self.executed, self.outcomes, self.decided, self.last = collections.Counter(), {}, [], -1
        self.said, self.sittings, self.is_known, self.outcomes_printed = [], [], True, []
        self.state = tabled.Tables(self.tables, tabled.Axis([]))
        made = write(folder, "tables.sql", self.schema.encode() + b"\n")
        ended = self.run("new", self.place, "--nodes", self.members, "--schema", made)
        if ended.out != f"made kept: {self.members} members\n".encode() or ended.err:
            raise self.fault(f"new prints {ended.out!r} and {ended.err!r}", ended)

    def run(self, *words, text=b""):
        return self.program.run(*words, text=text, files=self.files())

    def files(self):
        texts = {f"sitting{at}": text for at, text in enumerate(self.sittings, 1)}
        return {"tables.sql": self.schema.encode(), "members": b"%d\n" % self.members, **texts}

    def fault(self, why, ended):
        return Fault(why, ended, self.files())

    def execute(self, said, stamp):
        """The outcome of one more request. All are run again, over an axis with every day that they name."""
        self.said.append((said, stamp))
        days = tabled.days_in([[tuple(it) for it in one] for one, _ in self.said])
        self.state = tabled.Tables(self.tables, tabled.Axis(days))
        for one, at in self.said:
            outcome = self.state.run(one, at)
        if outcome.startswith("accepted"):
            self.last = stamp
        else:
            self.said.pop()
        return outcome

    def answer(self, question, closed):
        return self.state.answer(question, closed)

    # A sitting.

    def draw(self):
        lines, count, down = [], self.chance.choice([4, 10, 20]), None
        for _ in range(count):
            kind = self.chance.choices(["own", "submit", "ask", "status", "help", "schema", "stop", "start", "clock", "odd"], [40, 12, 20, 3, 1, 2, 4, 6, 4, 3])[0]
            if kind == "own":
                lines.append(self.broken(self.tongue.transaction()))
            elif kind == "submit":
                client = self.chance.choice([7, 7, 8, OWN])
                number = max(1, self.executed[client] + len(lines) // 4 + self.chance.choice([-1, 0, 1, 1, 2, -9]))
                lines.append(f".submit {client} {number} {self.broken(self.tongue.transaction())}")
            elif kind == "ask":
                near = [NOON, self.last, self.last + 3, self.last + 10**9]
                at = f"@{self.chance.randint(1, self.members)} " if self.chance.random() < 0.4 else ""
                lines.append(at + self.broken(self.tongue.question(near)))
            elif kind == "stop" and down is None:
                down = self.chance.randint(1, self.members)
                lines.append(f".stop {down}")
            elif kind == "start":
                lines.append(f".start {down or self.chance.randint(1, self.members)}")
                down = None
            elif kind == "clock":
                lines.append(f".clock {NOON + self.chance.choice([-5, 0, 10**6, 10**9])}")
            elif kind == "odd":
                lines.append(self.chance.choice(["", "# a line", "@9;", ".stop", ".stop 99", ".clock", ".format xml", "  ", "@1 DELETE;", ".Help"]))
            elif kind in ("status", "help", "schema"):
                lines.append("." + kind)
        return "".join(f"{line}\n" for line in lines).encode()

    def broken(self, text):
        """A text over some lines."""
        while self.chance.random() < 0.3 and " " in text:
            at = self.chance.choice([it.start() for it in re.finditer(" ", text)])
            if text[:at].count("'") % 2 or text[:at].rstrip().endswith(";"):
                break
            text = text[:at] + "\n" + text[at + 1 :]
        return text if text.endswith(";") else text + ";"

    def words(self, place):
        return ["open", place, "--clock", NOON + len(self.sittings) * 1000, *self.chance.choice([[], [], ["--sync", "no"]])]

    def sit(self, text, is_killed=False):
        """Opens the store and gives it lines, and looks at all that it prints; it ends by itself, or by a kill once all is printed."""
        self.sittings.append(text)
        ended = self.killed(text) if is_killed else self.run(*self.words(self.place), text=text)
        sitting = Sitting(self)
        why = sitting.judge(self.sittings[-1], lines_of(ended.out))
        self.outcomes_printed += [line for line in lines_of(ended.out) if line.startswith("request ")]
        if why:
            raise self.fault(why, ended)
        places, texts = ended.err.count(PLACE), len(re.findall(rb"^(?:request|node) .* refused 1[0-8] ", ended.out, re.M))
        last = ended._replace(err=ended.err[SAID.match(ended.err).end():])
        if sitting.ended and self.program.refusal(last) != sitting.ended:
            raise self.fault(f"it says {ended.err!r}, and not {sitting.ended}", ended)
        refused = re.search(rb"^(-:|request .* refused |node .* refused |request .* unanswered)", ended.out, re.M)
        if not is_killed and (places != texts or not sitting.ended and (last.err or ended.status != bool(refused))):
            raise self.fault(f"it ends with status {ended.status} and says {ended.err!r}", ended)

    def killed(self, text):
        """A sitting whose process is killed as it waits for more: a line that asks for nothing tells that all came."""
        words = [self.program.path, *map(str, self.words(self.place))]
        number = text.count(b"\n") + 1
        marker = f"-:{number}:1: 60 bad script at line {number}\n".encode()
        self.sittings[-1] = text + b".clock x\n"
        with subprocess.Popen(words, stdin=subprocess.PIPE, stdout=subprocess.PIPE, stderr=subprocess.PIPE) as process:
            timer = threading.Timer(PATIENCE, process.kill)
            timer.start()
            try:
                process.stdin.write(self.sittings[-1])
                process.stdin.flush()
            except BrokenPipeError:
                pass
            out = b""
            for line in process.stdout:
                out += line
                if line == marker:
                    break
            process.kill()
            timer.cancel()
            out += process.stdout.read()
            ended = Ended(words, process.wait(), out, process.stderr.read(), 0)
        self.program.refusals.count(out)
        if not out.endswith(marker):
            raise self.fault("it does not take all lines", ended)
        return ended

    # What is kept.

    def look(self):
        """The audit says yes, and the log has what was decided."""
        ended = self.run("audit", self.place)
        if not ended.out.endswith(b"audit: yes\n") or ended.err or ended.status:
            raise self.fault(f"the audit says {ended.out!r} and {ended.err!r}", ended)
        log = self.run("log", self.place)
        told, seen = [], set()
        for line in lines_of(log.out):
            found = re.fullmatch(r"entry [0-9]+ [0-9: .-]{26} (request [0-9]+ [0-9]+) (?!refused 3[01] )(.*)", line)
            if found and found[1] not in seen:
                seen.add(found[1])
                told.append(f"{found[1]} {found[2]}")
        differs = first_difference(told, self.decided)
        if differs and self.is_known:
            raise self.fault(f"of what the log lists {differs}", log)

        self.look_at_journals()
        self.look_at_flights()

    def look_at_journals(self):
        """The journals, played here, give what was printed and what is stored."""
        try:
            played = journals.Journals(copied(self, "read"))
            played.look_at_databases()
        except (journals.Wrong, audits.Bad) as wrong:
            raise Fault(f"its journals: {str(wrong) or 'a line of no form'}", None, {**self.files(), **files_in(self.place, "kept")}) from None
        differs = first_difference(played.printed, self.outcomes_printed)
        if differs:
            raise Fault(f"what its journals say was printed: {differs}", None, {**self.files(), **files_in(self.place, "kept")})

    def look_at_flights(self):
        out = os.path.join(self.folder, "flights")
        shutil.rmtree(out, ignore_errors=True)
        ended = self.run("flights", self.place, out)
        texts = list(files_in(out, "").values())
        if ended.status or audits.verdict(texts) != audits.YES:
            raise Fault(f"of its flights an audit says {audits.verdict(texts)}", ended, {**self.files(), **files_in(self.place, "kept")})
        said = self.run("audit", *sorted(glob.glob(f"{out}/*")))
        if said.out != b"audit: yes\n":
            raise self.fault(f"of its flights the audit says {said.out!r}", said)

    def questions(self):
        return "".join(f"SELECT * FROM {table.name};\n" for table in self.tables).encode()

    def rows(self, ended):
        """What an opening answered, but for the member and the last instant."""
        return [line for line in lines_of(ended.out) if line.startswith(("row ", "rows "))]


def copied(store, name):
    place = os.path.join(store.folder, name)
    shutil.rmtree(place, ignore_errors=True)
    shutil.copytree(store.place, place)
    return place


def alter(chance, place, older):
    """A change of the files of a store; what it is."""
    names = [name for name in os.listdir(place) if os.path.getsize(os.path.join(place, name))]
    kinds = {"journal": 5, "node": 5, "form": 1}
    prefix = chance.choices(list(kinds), kinds.values())[0]
    name = chance.choice(sorted(it for it in names if it.startswith(prefix)))
    path = os.path.join(place, name)
    others = sorted(it for it in names if it.startswith(prefix) and it != name)
    with open(path, "rb") as file:
        text = file.read()
    kind = chance.choices(["byte", "bytes", "cut", "more", "none", "gone", "older", "exchanged"], [12, 3, 3, 1, 1, 2, 2, 1])[0]
    if kind == "gone":
        os.remove(path)
    elif kind == "older" and os.path.exists(os.path.join(older, name)):
        shutil.copy(os.path.join(older, name), path)
    elif kind == "exchanged" and others:
        other = os.path.join(place, chance.choice(others))
        shutil.move(other, path)
        with open(other, "wb") as file:
            file.write(text)
    else:
        with open(path, "wb") as file:
            file.write(with_change(chance, text, kind))
    return f"{kind} of {name}"


def with_change(chance, text, kind):
    if kind == "cut":
        return text[: chance.randrange(len(text))]
    if kind == "more":
        return text + chance.choice([b"\0" * 4096, b"1 1\nx", text[-100:], b"57 12345\ntakes 1 sub"])
    if kind == "none":
        return b""
    whole = bytearray(text)
    filled = len(text.rstrip(b"\0")) or 1
    for _ in range(1 if kind == "byte" else chance.randint(2, 8)):
        at = chance.randrange(filled if chance.random() < 0.9 else len(text))
        whole[at] ^= chance.choice([1, 2, 4, 8, 16, 32, 64, 128, 255])
    return bytes(whole)


def number_of(store, ended, what):
    """The number that a command over a changed store is refused with."""
    refusal = store.program.refusal(ended, store.files())
    if refusal[:2] not in CHANGED:
        raise store.fault(f"{what}: it is refused {refusal}", ended)
    return refusal[:2]


def try_changed(store, chance, older, rows):
    """A change, and what comes of it: as it was, refused, or told by the audit."""
    first = copied(store, "changed")
    what = alter(chance, first, older)
    second = os.path.join(store.folder, "opened")
    shutil.rmtree(second, ignore_errors=True)
    shutil.copytree(first, second)
    try:
        return come(store, chance, what, (first, second), rows)
    except Fault as fault:
        fault.why = f"{what}: {fault.why}"
        fault.files.update(files_in(store.place, "whole"), **files_in(first, "changed"))
        raise


def files_in(place, name):
    found = {}
    for path in glob.glob(f"{place}/*"):
        with open(path, "rb") as file:
            found[f"{name}/{os.path.basename(path)}"] = file.read()
    return found


def is_yes_of(audit, place):
    """Whether an audit says yes of all the journals that are there; where the first ones are away, it has to say on what that rests."""
    first = min((int(it[len("journal"):]) for it in os.listdir(place) if re.fullmatch(r"journal\d+", it)), default=1)
    rests = f", from journal {first} on; it rests on what journal {first - 1} left" if first > 1 else ""
    return audit.status == 0 and audit.out.endswith(f"audit: yes{rests}\n".encode())


def come(store, chance, what, places, rows):
    audit = store.run("audit", places[0])
    is_yes = is_yes_of(audit, places[0])
    if not is_yes and not re.fullmatch(rb"audit: (49|5[1-5]) .*\n", audit.out):
        number_of(store, audit, "audit")
    log = store.run("log", places[0])
    if log.status:
        number_of(store, log, "log")
    opened = store.run("open", places[1], text=store.questions())
    if opened.status:
        return "refused " + number_of(store, opened, "open")
    if not is_yes:
        return "told by the audit"
    if store.rows(opened) != rows:
        raise store.fault(f"it opens with {store.rows(opened)}, and not {rows}", opened)
    again = store.run("audit", places[1])
    if not is_yes_of(again, places[1]):
        raise store.fault(f"the audit said yes before it was opened, and then {again.out!r} {again.err!r}", again)
    return "as it was"


def refuse(store, chance):
    """What a folder is refused for as a whole."""
    empty = os.path.join(store.folder, "empty")
    os.makedirs(empty, exist_ok=True)
    made = os.path.join(store.folder, "tables.sql")
    tried = [("46 no store", ("open", empty)), ("46 no store", ("audit", empty)),
             ("56 folder in use", ("new", store.place, "--nodes", "3", "--schema", made))]
    place = copied(store, "other")
    with open(os.path.join(place, "form"), "r+b") as file:
        file.seek(len(b"bitable store "))
        file.write(b"2")
    tried.append(("47 store of version 2", (chance.choice(["open", "audit", "log"]), place)))
    place = copied(store, "fewer")
    for path in glob.glob(f"{place}/node[1-{store.members // 2 + 1}].db*"):
        os.remove(path)
    tried.append(("39 too few databases", ("open", place)))
    for wanted, words in tried:
        ended = store.run(*words)
        if store.program.refusal(ended) != wanted:
            raise store.fault(f"{words}: it says {ended.err!r}, and not {wanted}", ended)
    refuse_second(store)


def refuse_second(store):
    """A store that another process has."""
    with subprocess.Popen([store.program.path, "open", copied(store, "held")], stdin=subprocess.PIPE, stdout=subprocess.PIPE) as holder:
        holder.stdin.write(b".status\n")
        holder.stdin.flush()
        holder.stdout.readline()
        ended = store.run("open", os.path.join(store.folder, "held"))
        holder.kill()
    if store.program.refusal(ended) != "48 store in use":
        raise store.fault(f"a store that is open says {ended.err!r}", ended)


def sittings(program, folder, chance):
    """A store that takes lines of chance in some sittings; the last ones have changed bytes."""
    store = Store(program, folder, chance)
    for _ in range(chance.randint(1, 3)):
        store.sit(store.draw(), chance.random() < 0.3)
    for _ in range(2):
        text = store.draw()
        for _ in range(chance.randint(1, 3)):
            text = (drawing.changed if chance.random() < 0.7 else drawing.changed_lines)(chance, text)
        store.sit(text)
    store.look()
    if chance.random() < 0.15:
        refuse(store, chance)
    return {"sittings": len(store.sittings), "decided": len(store.decided)}


def changes(program, folder, chance):
    """A store whose files are changed, one change at a time."""
    store = Store(program, folder, chance)
    for _ in range(chance.randint(1, 3)):
        store.sit(store.draw(), chance.random() < 0.4)
    older = copied(store, "older")
    store.sit(store.draw(), chance.random() < 0.5)
    store.look()
    rows = store.rows(store.run("open", copied(store, "whole"), text=store.questions()))
    counts = collections.Counter(changes=0)
    for _ in range(12):
        counts["changes"] += 1
        counts[try_changed(store, chance, older, rows)] += 1
    return counts
