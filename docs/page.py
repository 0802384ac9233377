"""An SVG page that is read on light and on dark pages: its colours, words and shapes, and whether a stored one is stale.

`docs/layers` and `docs/speedplot` draw with it. Colours and fonts are those of `bitable beliefs --svg`.
"""
import os
import re
import sys
from html import escape

# Each by its name: on a light page, on a dark one.
COLOURS = {
    "page": ("#ffffff", "#14171c"),
    "ink": ("#16191d", "#eef1f4"),
    "soft": ("#4d545c", "#b4bcc6"),
    "line": ("#8a929b", "#78828e"),
    "faint": ("#dfe3e7", "#2b3139"),
    "blue": ("#00589b", "#4593d8"),
    "blue-box": ("#cfe5f5", "#173f5c"),
    "blue-band": ("#edf5fb", "#18252f"),
    "amber": ("#b97700", "#f0b23d"),
    "amber-box": ("#fbe3b5", "#574010"),
    "green": ("#00986e", "#74e8c4"),
}
RULES = (
    "text{font-family:system-ui, -apple-system, 'Segoe UI', Roboto, 'Helvetica Neue', Arial, sans-serif;font-size:13px;"
    "fill:var(--ink);font-variant-numeric:tabular-nums}"
    ".mono{font-family:ui-monospace, SFMono-Regular, Menlo, Consolas, 'DejaVu Sans Mono', monospace;font-size:12px}"
    ".soft{fill:var(--soft)}.small{font-size:11.5px}.bold{font-weight:650}.h{font-size:20px;font-weight:650}"
    ".m{text-anchor:middle}.e{text-anchor:end}.page{fill:var(--page)}"
)


def wide(words, size=13.0):
    """An upper bound of the room that words take in any usual font."""
    def letter(it):
        if it in "mwMW@%":
            return 1.0
        if it.isupper() or it in "&#+<=>~":
            return 0.84
        if it in "iljI.,:;'|!()[]-/ ":
            return 0.42
        return 0.65

    return size * sum(map(letter, words))


def number(value):
    """With one digit behind the point, or none where it is whole."""
    text = f"{value:.1f}"
    return text.removesuffix(".0")


def plain(rules, colours):
    """Rules in which each colour by name follows the one of a light page, for programs that show pictures and know no names."""
    return re.sub(r"([a-z-]+):var\(--([a-z-]+)\)", lambda it: f"{it[1]}:{colours[it[2]][0]};{it[0]}", rules)


class Page:
    """What stands on a page."""

    def __init__(self, title, description, size, rules="", more=None):
        """`more` are colours of this page alone."""
        named = COLOURS | (more or {})

        def colours(which):
            return "svg{" + "".join(f"--{name}:{both[which]};" for name, both in named.items()) + "}"

        width, height = map(number, size)
        self.parts = [
            f'<svg xmlns="http://www.w3.org/2000/svg" viewBox="0 0 {width} {height}" width="{width}" height="{height}" role="img"'
            ' aria-labelledby="t d" style="max-width:100%;height:auto">',
            f'<title id="t">{escape(title, False)}</title>',
            f'<desc id="d">{escape(description, False)}</desc>',
            f"<style>{colours(0)}@media (prefers-color-scheme:dark){{{colours(1)}}}{plain(RULES + rules, named)}</style>",
            f'<rect x="0" y="0" width="{width}" height="{height}" class="page"/>',
        ]
        self.words(24, 38, title, "h")

    def words(self, x, y, words, kind=""):
        kind = f' class="{kind}"' if kind else ""
        self.parts.append(f'<text x="{number(x)}" y="{number(y)}"{kind}>{escape(words, False)}</text>')

    def rect(self, x, y, size, kind, more=""):
        width, height = map(number, size)
        self.parts.append(f'<rect x="{number(x)}" y="{number(y)}" width="{width}" height="{height}" class="{kind}"{more}/>')

    def path(self, places, kind):
        route = "L".join(f"{number(x)} {number(y)}" for x, y in places)
        self.parts.append(f'<path class="{kind}" d="M{route}"/>')

    def dot(self, x, y, kind, radius=3.5):
        self.parts.append(f'<circle class="{kind}" cx="{number(x)}" cy="{number(y)}" r="{number(radius)}"/>')

    def begin(self, tip):
        """Opens a group with a tip."""
        self.parts.append(f"<g><title>{escape(tip, False)}</title>")

    def end(self):
        self.parts.append("</g>")

    def text(self):
        return "\n".join(self.parts) + "\n</svg>\n"


def keep(path, draw):
    """Writes the picture that `draw` gives; with --told says only whether the stored one is it, by the status."""
    os.chdir(os.path.dirname(os.path.dirname(os.path.realpath(__file__))))
    picture = draw().text()
    if "--told" not in sys.argv[1:]:
        with open(path, "w", encoding="utf-8") as file:
            file.write(picture)
        return 0
    stored = ""
    if os.path.exists(path):
        with open(path, encoding="utf-8") as file:
            stored = file.read()
    if stored != picture:
        print(f"{path} is stale: {os.path.relpath(sys.argv[0])} draws it anew")
    return 0 if stored == picture else 1
