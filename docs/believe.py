"""The text of docs/BELIEVE.md: definitions out of the sources, in chapters, with the words of docs/believe.txt between them.

`docs/trusted --text` writes it, and `docs/trusted` says which definitions there are. A comment above a definition is its
sentence; docs/believe.txt has one where the sources have none, or where more has to be said.
"""
import re

WORDS, PATH = "docs/believe.txt", "docs/BELIEVE.md"
KIT = "the kit"
# No line of a definition is longer in the text than this.
WIDE = 120
# What stands before the words that are left out by laws.
LAWS = "By laws: read what stands here in place of these words. The law in brackets proves that it is the same, or says as much here, or all that matters."
# What a line is best broken before or behind, where as much is open: the smaller the number, the better.
BEFORE = {"|": 0, "then": 1, "else": 0, "×": 1, "⊎": 1, "↔": 1, "&&": 1, "||": 1, "++": 2, "▸": 2, "▹": 2, "∷": 3}
BEHIND = {"→": 0, ";": 0, "=": 1}


def raw(path):
    with open(path, encoding="utf-8") as file:
        return file.read().split("\n")


def module(path):
    """A file as the words name it: `model.Tables` of its `specs`, `model.value` of its `src`."""
    return re.sub(r"^crates/(\w+)/(?:specs|src)/(.*)\.\w+$", r"\1.\2", path).replace("/", ".")


def key(definition):
    return f"{module(definition.file)}.{definition.name}"


def counted(count, word):
    return f"{count:,} {word}" + ("" if count == 1 else "s")


# ---- the words


class Chapter:
    def __init__(self, title):
        self.title, self.of, self.text, self.definitions = title, [], "", []


class Part(Chapter):
    """Functions, whose clauses come first, and chapters of what these cite and no part before.

    `by_law` has the words cited in it in whose place others are read.
    """

    def __init__(self, title):
        super().__init__(title)
        self.chapters, self.by_law = [], set()


class Words:
    """docs/believe.txt."""

    def __init__(self, path):
        self.texts, self.parts, self.sentences, self.sources, self.laws = {}, [], {}, {}, []
        place, chapter = None, None
        for line in raw(path):
            head = re.match(r"\[(\w+)\] ?(.*)", line)
            if line.startswith("%"):
                continue
            if head:
                place, title = head.groups()
                chapter = {"part": Part, "chapter": Chapter}.get(place, lambda _: None)(title)
                if place == "part":
                    self.parts.append(chapter)
                elif place == "chapter":
                    self.parts[-1].chapters.append(chapter)
                continue
            if place == "words":
                self.add_word(line)
            elif place == "laws":
                self.add_law(line)
            elif chapter and line.startswith("of: "):
                chapter.of = line[4:].split()
            elif chapter:
                chapter.text = (chapter.text + "\n" + line).lstrip("\n")
            else:
                self.texts[place] = (self.texts.get(place, "") + "\n" + line).lstrip("\n")

    def add_word(self, line):
        """`NAME: SENTENCE` or `NAME @ SOURCE`."""
        word = re.match(r"(\S+?)(: | @ )(.*)", line)
        if word:
            (self.sentences if word[2] == ": " else self.sources)[word[1]] = word[3]

    def add_law(self, line):
        """`NAME ..: SENTENCE`."""
        names, _, sentence = line.partition(": ")
        if sentence:
            self.laws.append((names.split(), sentence))


# ---- what stands in the sources


class Block:
    """Lines of a comment, and whether they are a heading or stand above a module."""

    def __init__(self, lines):
        self.lines = lines
        self.is_heading = lines[0].strip().startswith("-- ----")
        self.opens_module = lines[-1].startswith("module ")


def blocks(lines):
    """The comments among lines without definitions, and whether the last one stands right above what follows."""
    found, block = [], []
    for line in lines:
        if line.strip().startswith("--"):
            block.append(line)
        elif line.startswith("module "):
            found.append(Block(block + [line]))
            block = []
        elif block:
            found.append(Block(block))
            block = []
    return found + [Block(block)] if block else found, bool(block)


class Source:
    """A file: what stands at its head, and of each definition its comment, and what is remarked before it."""

    def __init__(self, path, definitions):
        self.lines, self.comments, self.remarks = raw(path), {}, {}
        if path.endswith(".rt"):
            self.head = [line for line in self.lines if line.startswith("//!")]
            self.comments = {d.name: self.above(d) for d in definitions}
            return
        self.head, behind = [], 0
        for d in sorted(definitions, key=lambda d: d.line):
            found, is_above = blocks(self.lines[behind:d.first - 1])
            if not behind and self.lines[0].startswith("--") and (len(found) > 1 or not is_above):
                self.head = found.pop(0).lines
            has_comment = is_above and not found[-1].is_heading and not found[-1].opens_module
            self.comments[d.name] = found.pop().lines if has_comment else []
            self.remarks[d.name], behind = found, d.last

    def above(self, definition):
        """The comment above a type of the code."""
        found, number = [], definition.line - 1
        while number and re.match(r"\s*(///|//|#\[)", self.lines[number - 1]):
            number -= 1
            found.insert(0, self.lines[number])
        return [line for line in found if not line.lstrip().startswith("#[")]

    def body(self, definition):
        """The definition as it stands there, without what is hidden; of a type with a view, the view too."""
        numbers = [number for number in range(definition.first, definition.last + 1) if number not in definition.hidden]
        lines = [self.lines[number - 1] for number in numbers]
        lines = [line for line in lines if not line.strip().startswith("#[")]
        if definition.hidden:
            lines.insert(-1, "    ..")
        if definition.has_view:
            views = [line for line in definition.text if re.match(r"\s+ghost (Value|view) ", line)]
            lines += [f"impl Model for {definition.name} {{"] + views + ["}"]
        return lines


# ---- lines that are not too long


def breaks(line):
    """The places where a line can be broken: of each how much is open there, and how bad a break there is besides."""
    depth, is_text, found = 0, False, []
    for at, letter in enumerate(line):
        if letter == '"' and line[at - 1:at + 2] != "'\"'":
            is_text = not is_text
        if is_text:
            continue
        depth += (letter in "([{") - (letter in ")]}")
        if letter == " " and line[:at].strip():
            before, behind = line[:at].split()[-1], line[at + 1:].split(" ")[0]
            bad = min(BEFORE.get(behind, 6), BEHIND.get(before[-1], 6), 0 if before == "in" else 6, 3 if behind[:1] in ("(", "[", "λ") else 6)
            found.append((at, depth, bad))
    return found


def folded(line, wide=WIDE):
    """The line as lines that are not longer, each broken where the least is open."""
    start = line.strip().split(" ")[0]
    found, indent, least = [], len(line) - len(line.lstrip()) + (0 if start in BEFORE else 4), 0
    while len(line) > wide:
        places = [it for it in breaks(line) if it[0] <= wide]
        good = [it for it in places if it[0] > indent + 14] or places
        if not good:
            break
        at, depth, _ = min(good, key=lambda it: (it[1] * 4 + it[2], -it[0]))
        found.append(line[:at].rstrip())
        least = max(0, least + depth)
        line = " " * (indent + 2 * least) + line[at:].strip()
    return found + [line]


def wrapped(text, mark, wide=WIDE):
    """Words as the lines of a comment."""
    lines, line = [], mark
    for word in text.split():
        if len(line) + 1 + len(word) > wide and line != mark:
            lines.append(line)
            line = mark
        line += " " + word
    return lines + [line]


def fitted(lines):
    """The lines, where those that are too long are broken, and comments with such a line are filled anew."""
    found, comment = [], []
    for line in lines + [""]:
        mark = re.match(r"(\s*(?:--|//[/!]?)) (?!---- )(?=\S)", line)
        if comment and (not mark or mark[1] != comment[0][0]):
            texts = [text for _, text in comment]
            is_long = any(len(text) > WIDE for text in texts)
            found += wrapped(" ".join(text[len(comment[0][0]):] for text in texts), comment[0][0]) if is_long else texts
            comment = []
        if mark:
            comment.append((mark[1], line))
        elif len(line) > WIDE and line.strip().startswith("-- ---- "):
            found += wrapped(line.strip()[3:], "--")
        else:
            found += folded(line)
    return found[:-1]


# ---- which definition stands where


def place(part, needs):
    """Puts each definition into the first chapter of the part that has its file; gives what is wrong."""
    wrong = []
    for d in needs:
        of = [it for it in part.chapters if {module(d.file), key(d)} & set(it.of)]
        if not of:
            wrong.append(f"{d.file} is in no chapter of {part.title}: give it to one in {WORDS}, in the line `of:`")
        (of or part.chapters[-1:])[0].definitions.append(d)
    for chapter in part.chapters:
        chapter.definitions = in_order(chapter, needs)
    return sorted(set(wrong))


def in_order(chapter, needs):
    """The definitions of a chapter: file by file, or one by one, as it names them, but each after those that it uses."""
    def rank(d):
        of = [chapter.of.index(it) for it in (key(d), module(d.file)) if it in chapter.of]
        return of[0] if of else len(chapter.of), d.file, d.line

    own, order, seen = set(chapter.definitions), [], set()

    def visit(d):
        if d not in seen:
            seen.add(d)
            for other in sorted(needs[d] & own, key=rank):
                visit(other)
            order.append(d)

    for d in sorted(own, key=rank):
        visit(d)
    return order


def opened(title, definitions, text):
    """How a part or a chapter begins."""
    size = f"{counted(len(definitions), 'definition')}, {counted(sum(d.lines() for d in definitions), 'line')}."
    return [title, "", size, "", text.strip(), ""]


def shown(path, lines):
    """Lines of a file, as code."""
    return [f"`{path}`", "", "```"] + fitted(lines) + ["```", ""]


class Book:
    """All parts with their definitions, and the text of them.

    `repository` finds files and names, and `reach` gives what the clauses of a function need, each with what it uses.
    """

    def __init__(self, repository, reach):
        self.repository, self.words = repository, Words(WORDS)
        self.needs, self.wrong = {}, []
        for part in self.words.parts:
            path, *functions = part.of
            reached = reach(repository, path, *functions)
            new = {d: others for d, others in reached.items() if d not in self.needs}
            self.needs.update(new)
            self.wrong += place(part, new)
            part.by_law = repository.by_law(path, functions, new)
        self.parts = self.words.parts
        self.shown_heads, self.by_law = set(), set()
        self.order = [d for part in self.parts for chapter in part.chapters for d in chapter.definitions]
        self.at = {d: number for number, d in enumerate(self.order)}
        self.keys = {key(d): d for d in self.order}
        self.sources = {path: Source(path, self.all_of(path)) for path in {d.file for d in self.order}}
        self.exported = self.exports()
        self.look()

    def all_of(self, path):
        """Every definition of a file, so that a comment is that of the next one; of the code those that are needed."""
        specs = self.repository.specs(path) if path.endswith(".antt") else None
        return list(specs.names.values()) if specs else [d for d in self.order if d.file == path]

    def exports(self):
        """By each name of a definition, a constructor or a variant the files that have it."""
        found = {}
        for d in self.order:
            for name in [d.name] + self.inside(d):
                found.setdefault(name, set()).add(key(d))
        for name in self.repository.kit:
            found.setdefault(name, set()).add(KIT)
        return found

    def inside(self, d):
        """The constructors of a definition or the variants of an enum."""
        if d.kind == "data":
            return [m[1] for m in (re.match(r"\s+(\S+) : ", line) for line in d.text[1:]) if m]
        if d.kind == "enum":
            return [m[1] for m in (re.match(r"    ([A-Z]\w*)\b", line) for line in d.text[1:]) if m]
        return []

    def look(self):
        """What is wrong with the words: a definition without a sentence, a sentence without a definition."""
        for d in self.order:
            if not self.sources[d.file].comments.get(d.name) and key(d) not in self.words.sentences:
                self.wrong.append(f"{key(d)} has no words: write a comment above it, or a line `{key(d)}: ..` in {WORDS}")
        for name in list(self.words.sentences) + list(self.words.sources):
            if name not in self.keys:
                self.wrong.append(f"{WORDS} has words for {name}, which is not reached: drop them")
        by_law, told = {key(d) for part in self.parts for d in part.by_law}, [name for names, _ in self.words.laws for name in names]
        self.wrong += [f"{name} is not in [laws] of {WORDS}" for name in sorted(by_law - set(told))]
        self.wrong += [f"{WORDS} has a law for {name}, which no part cites" for name in told if name not in by_law]
        self.wrong += [f"{name} is left out in vain: {why}" for name, why in self.repository.without_law()]
        told = set(re.findall(r"[^\s`]+", " ".join(re.findall(r"`([^`]+)`", self.words.texts.get("signs", "").replace("\\|", "|")))))
        for word in sorted(self.repository.kit):
            if not set(word.replace("◌", " ").split()) <= told:
                self.wrong.append(f"{word} is a word of the kit and not in the table of signs of {WORDS}")

    def only_here(self):
        """The definitions of which docs/believe.txt alone has a sentence."""
        return [d for d in self.order if not self.sources[d.file].comments.get(d.name) and key(d) in self.words.sentences]

    def before_their_needs(self):
        """The definitions that stand before one which they use."""
        return [(d, other) for d in self.order for other in self.needs[d] if self.at.get(other, -1) > self.at[d]]

    # ---- names that could be taken for others

    def notes(self, path, named, end):
        """What stands in a file for a name of another one, where a reader could take it for something that stood before."""
        found, laws = {}, set()
        for name, other, old in named:
            if other in self.by_law:
                laws.add(name)
            if other not in self.at or other.file == path:
                continue
            of = key(other) if old != other.name else module(other.file)
            if "." in name:
                found.setdefault(of, set()).add(f"{name.split('.')[0]}.X = X")
            elif name != old:
                found.setdefault(of, set()).add(f"{name} = {old}")
            elif self.is_taken(old, end):
                found.setdefault(of, set()).add(name)
        notes = [f"{', '.join(sorted(names))} ({of})" for of, names in sorted(found.items())]
        return notes + ([f"by laws: {', '.join(sorted(laws))}"] if laws else [])

    def is_taken(self, name, end):
        """Whether more than one thing of this name stands in the text up to a place."""
        return sum(it == KIT or self.at[self.keys[it]] <= end for it in self.exported.get(name, ())) > 1

    # ---- the text

    def written_definition(self, d, remarks):
        mark = "--" if d.file.endswith(".antt") else "///"
        source, lines = self.sources[d.file], []
        for block in remarks:
            lines += block.lines + ([] if block.opens_module else [""])
        indent = re.match(r"\s*", source.lines[d.line - 1])[0]
        comment = source.comments.get(d.name, [])
        lines += fitted(comment)
        if key(d) in self.words.sentences:
            sentence = self.words.sentences[key(d)]
            lines += wrapped(f"({sentence})" if comment else sentence, indent + mark)
        if key(d) in self.words.sources:
            lines += wrapped(self.words.sources[key(d)], indent + mark)
        return lines + source.body(d)

    def remarks_of(self, path, definitions):
        """What is remarked in the file before these of its definitions: the last heading, and what stands under it."""
        own, pending, found = {d.name for d in definitions}, [], {}
        source = self.sources[path]
        for name in sorted(source.remarks, key=lambda name: self.repository.specs(path).names[name].line):
            for block in source.remarks[name]:
                pending = [it for it in pending if it.opens_module] + [block] if block.is_heading else pending + [block]
            if name in own:
                found[name], pending = pending, []
        return found

    def written_file(self, path, definitions, remarks):
        source = self.sources[path]
        lines = []
        if path not in self.shown_heads and "\n".join(source.head) not in self.shown_heads:
            head, self.shown_heads = source.head, self.shown_heads | {path, "\n".join(source.head)}
            lines += head + ([""] if head else [])
        mark = "--" if path.endswith(".antt") else "//"
        named = [it for d in definitions for it in self.repository.named_in(d)]
        lines += self.written_notes(mark, path, named, self.at[definitions[-1]])
        for d in definitions:
            lines += self.written_definition(d, remarks.get(d.name, [])) + [""]
        return shown(path, lines[:-1])

    def written_chapter(self, number, chapter):
        lines = opened(f"## {number}. {chapter.title}", chapter.definitions, chapter.text)
        files = {}
        for d in chapter.definitions:
            files.setdefault(d.file, []).append(d)
        remarks = {path: self.remarks_of(path, own) if path.endswith(".antt") else {} for path, own in files.items()}
        run = []
        for d in chapter.definitions + [None]:
            if run and (not d or d.file != run[-1].file):
                lines += self.written_file(run[-1].file, run, remarks[run[-1].file])
                run = []
            run.append(d)
        return lines

    def written_notes(self, mark, path, named, end):
        notes = self.notes(path, named, end)
        return wrapped(f"Names here: {'; '.join(notes)}.", mark) + [""] if notes else []

    def written_clauses(self, part):
        path, *functions = part.of
        lines = self.written_notes("//", path, self.repository.named_in_clauses(path, *functions), len(self.order))
        for function in functions:
            comment = self.repository.comment_of(path, function) if len(functions) > 1 else []
            lines += comment + self.repository.clauses_of(path, function) + [""]
        return shown(path, (lines + self.written_laws(part))[:-1])

    def written_laws(self, part):
        """What is read in place of the words that are left out by laws."""
        keys, lines = {key(d): d for d in part.by_law}, []
        for names, sentence in self.words.laws:
            of = [keys[name] for name in names if name in keys]
            laws = sorted({self.repository.law_of(d) or ("the same but for names", "") for d in of})
            told = ", ".join(f"{law} of {path}" if path else law for law, path in laws)
            lines += wrapped(f"{', '.join(d.name for d in of)}: {sentence} ({told})", "//") if of else []
        return wrapped(LAWS, "//") + lines + [""] if lines else []

    def written(self):
        """The whole text."""
        self.shown_heads, texts, number = set(), self.words.texts, 0
        lines = [f"<!-- Written by `docs/trusted --text`, from the sources and {WORDS}. -->", ""]
        lines += [texts["head"].strip(), "", texts["signs"].strip(), ""]
        for part in self.parts:
            self.by_law = part.by_law
            lines += opened(f"# {part.title}", [d for chapter in part.chapters for d in chapter.definitions], part.text)
            lines += self.written_clauses(part)
            for chapter in part.chapters:
                number += 1
                lines += self.written_chapter(number, chapter)
        lines += [texts["end"].strip(), ""]
        return "\n".join(lines)


def without_code(text):
    """The text without what stands between fences, and without what stands between backticks in a line."""
    return re.sub(r"`[^`\n]+`", "", re.sub(r"^```.*?^```$", "", text, flags=re.M | re.S))
