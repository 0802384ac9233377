"""Lines of output in the other forms that docs/FORMATS.md has ("Other forms of output")."""
import json
import re

FIELD = re.compile("'(?:[^']|'')*'|[^,]*")
SENT = re.compile("sent ([0-9]+) ([0-9])->([0-9]) ([a-z]+) term ([0-9]+) (.*)")
OUTCOME = re.compile("node ([0-9]+) entry ([0-9]+) request ([0-9]+) ([0-9]+) (accepted|refused) (.*)")
REFUSED = re.compile("node ([0-9]+) refused ([0-9]+) (.*)")
SAID = {"yes": True, "no": False, "none": None}
# Of each kind of message: the words of its line that are values, and their names.
PARTS = {
    "votereq": ("last {} {}", ["last_index", "last_term"]), "vote": ("{} floor {}", ["given", "floor"]), "reply": ("{} {}", ["ok", "matched"]),
    "append": ("prev {} {} commit {} entries {}", ["prev_index", "prev_term", "commit", "entries"]),
    "seek": ("index {} floor {}", ["index", "floor"]), "stored": ("index {} floor {}", ["index", "floor"]),
    "seal": ("index {} floor {}", ["index", "floor"]),
}


def fields_of(row):
    """The values of a `row` line as it has them."""
    fields, at = [], 0
    while True:
        found = FIELD.match(row, at)
        fields.append(found[0])
        if found.end() == len(row):
            return fields
        at = found.end() + 1


def bare(field):
    return field[1:-1].replace("''", "'") if field.startswith("'") else field


def grouped(lines):
    """Lines one by one, but an answer with all of its lines."""
    lines = iter(lines)
    for line in lines:
        if not line.endswith(" answer"):
            yield line
            continue
        answer = [line]
        while not answer[-1].startswith("rows "):
            answer.append(next(lines))
        yield answer


def as_json(lines):
    return "".join(json.dumps(object_of(it), separators=(",", ":")) + "\n" for it in grouped(lines))


def object_of(thing):
    if isinstance(thing, list):
        rows = [[int(it) if re.fullmatch("-?[0-9]+", it) else bare(it) for it in fields_of(line.removeprefix("row "))] for line in thing[3:-1]]
        return {"node": int(thing[0].split(" ")[1]), "last": thing[1].removeprefix("last "), "columns": thing[2].removeprefix("columns ").split(","), "rows": rows}
    sent, outcome = SENT.fullmatch(thing), OUTCOME.fullmatch(thing)
    if sent:
        form, names = PARTS[sent[4]]
        values = re.fullmatch(form.replace("{}", "(.*)"), sent[6]).groups()
        said = {name: SAID[it] if it in SAID else int(it) for name, it in zip(names, values)}
        return {"sent": int(sent[1]), "from": int(sent[2]), "to": int(sent[3]), "kind": sent[4], "term": int(sent[5]), **said}
    if outcome:
        found = dict(zip(["node", "entry", "client", "request"], map(int, outcome.groups()[:4])))
        if outcome[5] == "accepted":
            return {**found, "accepted": outcome[6]}
        number, text = outcome[6].split(" ", 1)
        return {**found, "refused": int(number), "text": text}
    refused = REFUSED.fullmatch(thing)
    return {"node": int(refused[1]), "refused": int(refused[2]), "text": refused[3]}


def as_csv(lines):
    """The answers, and all other lines."""
    answers, others = [], []
    for thing in grouped(lines):
        if isinstance(thing, list):
            rows = [thing[2].removeprefix("columns ").split(","), *(list(map(bare, fields_of(it.removeprefix("row ")))) for it in thing[3:-1])]
            answers.append("".join(",".join(map(quoted, row)) + "\r\n" for row in rows))
        else:
            others.append(thing)
    return "\r\n".join(answers), "".join(f"{line}\n" for line in others)


def quoted(field):
    return '"' + field.replace('"', '""') + '"' if "," in field or '"' in field else field
