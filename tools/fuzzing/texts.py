"""Scripts as they are drawn, and scripts, schemas and lines with changed bytes: what is printed has to be what is predicted."""
import functools
import glob
import os
import re
import xml.etree.ElementTree

import drawing
import language
import scripts
import shapes
from language import Refused
from trying import Fault

HEAD = re.compile(r"(.*):([0-9]+):([0-9]+): ([1-6][0-9] .*)")
ROOT = os.path.dirname(os.path.dirname(os.path.dirname(os.path.abspath(__file__))))


def write(folder, name, text):
    path = os.path.join(folder, name)
    with open(path, "wb") as file:
        file.write(text)
    return path


def first_difference(one, other):
    """Where what is printed is not what is wanted, or nothing."""
    for number, (printed, wanted) in enumerate(zip([*one, None], [*other, None]), 1):
        if printed != wanted:
            return f"line {number} is {printed!r}, and not {wanted!r}"
    return None


def lines_of(text):
    return text.decode(errors="replace").split("\n")[:-1]


class Texts:
    """Has the program play and check texts in a folder of its own."""

    def __init__(self, program, folder):
        self.program, self.folder = program, folder

    def played(self, text):
        """How what `sim` prints differs from what is predicted, or nothing; and the lines."""
        wanted, refusal = scripts.predicted(text)
        ended = self.program.run("sim", write(self.folder, "played.script", text), files={"script": text})
        differs = first_difference(lines_of(ended.out), wanted)
        if differs is None and refusal:
            said = self.program.refusal(ended, {"script": text})
            differs = None if said == refusal else f"it is refused {said!r}, and not {refusal!r}"
        elif differs is None and (ended.status or ended.err):
            differs = f"it ends with status {ended.status} and says {ended.err[:200]!r}"
        return differs, ended

    def play(self, text):
        """Plays a script; how many lines it printed."""
        differs, ended = self.played(text)
        if differs:
            raise Fault(differs, ended, {"script": text}, text.splitlines(keepends=True), lambda parts: self.still(parts, self.played))
        return len(lines_of(ended.out))

    def look_at_forms(self, text, chance):
        """The same script in another form, and as pictures."""
        path, lines = write(self.folder, "shown.script", text), scripts.predicted(text)[0]
        quiet = [line for line in lines if not line.startswith("sent ")]
        lines, words = (quiet, ["--quiet"]) if chance.random() < 0.5 else (lines, [])
        out, err = "".join(f"{line}\n" for line in lines), ""
        form = chance.choice(["lines", "json", "csv"])
        if form == "json":
            out = shapes.as_json(lines)
        elif form == "csv":
            out, err = shapes.as_csv(lines)
        ended = self.program.run("sim", *words, "--format", form, path, files={"script": text})
        differs = first_difference(ended.out.decode().split("\n"), out.split("\n")) or first_difference(lines_of(ended.err), err.split("\n")[:-1])
        if differs or ended.status:
            raise Fault(f"as {form} {differs}, with status {ended.status}", ended, {"script": text})
        for words in (["sim", "--format", "table", path], ["sim", "--strict", path], ["beliefs", path], ["lanes", path]):
            self.program.run(*words, files={"script": text})
        for command in ("beliefs", "lanes"):
            self.look_at_picture(command, path, text)

    def look_at_picture(self, command, path, text):
        page = os.path.join(self.folder, "page.svg")
        write(self.folder, "page.svg", b"")
        ended = self.program.run(command, "--svg", page, path, files={"script": text})
        if ended.out or (ended.status and not ended.err):
            raise Fault(f"{command} prints {ended.out[:100]!r}", ended, {"script": text})
        if not ended.status:
            try:
                xml.etree.ElementTree.parse(page)
            except xml.etree.ElementTree.ParseError as fault:
                raise Fault(f"the picture of {command}: {fault}", ended, {"script": text}) from None

    def still(self, parts, tried):
        try:
            return bool(tried(b"".join(parts))[0])
        except Fault:
            return True
        except Exception:
            return False

    def checked(self, text):
        """How what `check` tells differs from what is predicted, or nothing."""
        path = write(self.folder, "checked.script", text)
        ended = self.program.run("check", path, files={"script": text})
        heads = [HEAD.fullmatch(line) for line in lines_of(ended.out)]
        told = [(int(head[2]), head[4]) for head in heads if head and head[1] == path]
        wanted = faults_of(text)
        if ended.err or ended.status != bool(told):
            return f"of {len(told)} faults it ends with status {ended.status} and says {ended.err[:200]!r}", ended
        if wanted is None:
            return (None if told else "it tells no fault"), ended
        at = [(line if refusal.startswith("60") or line_known else None, refusal) for line, refusal, line_known in wanted]
        same = len(told) == len(at) and all(one[1] == other[1] and other[0] in (None, one[0]) for one, other in zip(told, at))
        return (None if same else f"it tells {told}, and not {at}"), ended

    def check(self, text):
        differs, ended = self.checked(text)
        if differs:
            raise Fault(differs, ended, {"script": text}, text.splitlines(keepends=True), lambda parts: self.still(parts, self.checked))

    def check_schema(self, text):
        """A schema, read by `check --schema` and by `new`, which leaves out blanks at its end."""
        path = write(self.folder, "tables.sql", text)
        ended = self.program.run("check", "--schema", path, files={"schema": text})
        told = [head[4] for head in map(HEAD.fullmatch, lines_of(ended.out)) if head and head[1] == path]
        wanted = schema_fault(text)
        if told != ([wanted] if wanted else []) or ended.status != bool(wanted):
            raise Fault(f"of a schema it tells {told}, and not {wanted}", ended, {"schema": text})
        return wanted


def schema_fault(text):
    """The refusal of a schema, or nothing."""
    try:
        text.decode()
        language.schema_of(text)
    except UnicodeDecodeError:
        return "60 bad script at line 0"
    except Refused as refusal:
        return str(refusal)
    return None


def faults_of(text):
    """The faults of a script: their lines, the refusals, and whether the line is known. None where all that is known is that it has one."""
    script = scripts.Script(text)
    if script.refusal == "60 bad script at line 0":
        return [(text[: first_bad_byte(text)].count(b"\n") + 1, script.refusal, True)]
    if not text.endswith(b"\n") or (script.refusal and not script.schema_text):
        return None
    faults, tables = [], None
    try:
        tables = language.schema_of(script.schema_text)
    except Refused as refusal:
        faults.append((None, str(refusal), False))
    lines = text.split(b"\n")[:-1]
    at = script.schema_at + script.schema_text.count(b"\n") + 1
    for number, line in list(enumerate(lines, 1))[at:]:
        if line and not line.startswith(b"#"):
            faults += line_faults(script, tables, number, line.decode())
    return faults


def first_bad_byte(text):
    try:
        text.decode()
    except UnicodeDecodeError as fault:
        return fault.start


def line_faults(script, tables, number, line):
    try:
        words = script.words(number, line)
    except Refused as refusal:
        return [(number, str(refusal), True)]
    for text, is_request in scripts.texts_of(words) if tables is not None else []:
        try:
            (language.transaction_of if is_request else language.question_of)(tables, text.encode())
        except Refused as refusal:
            return [(number, str(refusal), True)]
    return []


@functools.cache
def stored_scripts():
    """Scripts of the repository that are short enough to be played often."""
    found = []
    for path in sorted(glob.glob(f"{ROOT}/cases/scripts/*.script") + glob.glob(f"{ROOT}/examples/*.script") + glob.glob(f"{ROOT}/cases/*.script")):
        with open(path, "rb") as file:
            text = file.read()
        if len(text) < 20_000:
            found.append(text)
    return found


def draw_script(program, folder, chance):
    """A script of chance, as it is."""
    texts = Texts(program, folder)
    script = drawing.Drawn(chance, chance.choice([60, 150, 250])).text()
    lines = texts.play(script)
    texts.check(script)
    if chance.random() < 0.3:
        texts.look_at_forms(script, chance)
    return {"scripts": 1, "lines": lines}


def change_script(program, folder, chance):
    """A script with changed bytes and lines, played and checked; and its schema."""
    texts, counts = Texts(program, folder), {"texts": 0, "refused": 0}
    base = chance.choice(stored_scripts()) if chance.random() < 0.4 else drawing.Drawn(chance, 30).text()
    for _ in range(6):
        text = base
        for _ in range(chance.choice([1, 1, 2, 4])):
            text = (drawing.changed if chance.random() < 0.75 else drawing.changed_lines)(chance, text)
        lines = texts.play(text)
        texts.check(text)
        counts["texts"] += 1
        counts["refused"] += not lines
    schema = drawing.Tongue(chance).schema.encode() + b"\n"
    for _ in range(6):
        counts["refused"] += texts.check_schema(drawing.changed(chance, schema)) is not None
        counts["texts"] += 1
    return counts
