"""What include/knotpasture.h says, for the scripts that write tables from it: its refusals, its calls and the order of each call's refusals."""
import pathlib
import re

ROOT = pathlib.Path(__file__).resolve().parent.parent
TEXT = (ROOT / "include/knotpasture.h").read_text()


def refusals():
    """Number, name without KNOT_ and meaning of each answer, 0 (done) first."""
    body = re.search(r"enum knot_answer \{(.*?)\};", TEXT, re.S)[1]
    return [(int(number), name, words) for name, number, words in re.findall(r"KNOT_(\w+) = (\d+),? +/\* (.*?) \*/", body)]


def calls():
    """Each declared call: its name, its declaration in one line, and the comment above it as paragraphs without the stack."""
    found = re.findall(r"((?:/\*(?:[^*]|\*(?!/))*\*/\s*)?)(?:enum \{[^}]*\};\s*)?^((?:uint\w+|size_t|bool) (knot_\w+)\([^;]*\);)", TEXT, re.M)
    return [(name, " ".join(line.split()), paragraphs(comment)) for comment, line, name in found]


def paragraphs(comment):
    lines = [re.sub(r"^\s*(?:/\*|\*/|\*)?\s?", "", line).removesuffix("*/").rstrip() for line in comment.splitlines()]
    pieces = [re.sub(r"\s*Stack: [\d,]+ bytes\.", "", " ".join(piece.split())) for piece in "\n".join(lines).split("\n\n")]
    return [piece for piece in pieces if piece and not piece.startswith("----")]


def without_brackets(text):
    """The text without what is in brackets, however deep."""
    while (less := re.sub(r"\s*\([^()]*\)", "", text)) != text:
        text = less
    return text


def orders():
    """The numbers that each call refuses with, in the order of its checks; () for a call that never refuses."""
    found = {}
    for name, _, pieces in calls():
        said = re.search(r"Refusals: ((?:those of knot_\w+|then|record by record|\d+|[,;\s])+)", without_brackets(" ".join(pieces)))
        found[name.removeprefix("knot_")] = said[1] if said else ""
    return {name: numbers_of(said, found) for name, said in found.items()}


def numbers_of(said, found):
    """The numbers of a list of refusals, those of another call in place of its name."""
    said = re.sub(r"those of \[?`?(?:knot_)?(\w+)`?\]?", lambda other: found[other[1]], said)
    return tuple(int(number) for number in re.findall(r"\b\d+\b", said))
