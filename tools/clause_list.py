"""The clauses of docs/SCOPE.md, and what stands under each: definitions, theorems, calls and tests.

A heading is a comment that begins with clauses, `-- S-12: ..` or `-- S-3, S-17 to S-20: ..`. In specs/ it covers every definition below it, up to the
next heading; a comment without a clause in between belongs to one definition alone and ends nothing. `-- Serves every clause.` heads files of
general definitions, which are below every clause. In proofs/ a heading names the lemma directly below it, and as a file's first line the file;
every lemma `one_outcome` is S-79's.
A test names its clauses in a sentence of a comment, `Holds S-40 to S-46.`
"""
import re

from crate_list import needs

NUMBERS = r"S-\d+(?:(?:,? and |, | to )S-\d+)*"
HEADING = re.compile(rf"\s*-- ({NUMBERS})[:.] |-- (Serves every clause)\.")
EVERY = "every"
TABLE_HEAD = "| clauses | lack | because |"


def expanded(text):
    """The numbers of a list of clauses, with those between the ends of a range."""
    found = []
    for first, last in re.findall(r"S-(\d+)(?: to S-(\d+))?", text):
        found += range(int(first), int(last or first) + 1)
    return found


def clauses(root):
    """For each clause its number and its sentences, as docs/SCOPE.md has them."""
    text = (root / "docs/SCOPE.md").read_text()
    found = {}
    for part in re.split(r"^(?=(?:- )?\*\*S-\d+\*\*|#|\| clauses)", text, flags=re.M):
        begins = re.match(r"(?:- )?\*\*S-(\d+)\*\* (.*?)(?=\n\n|\Z)", part, re.S)
        if begins:
            found.setdefault(int(begins[1]), []).append(" ".join(begins[2].split()))
    return found


def lacking(root):
    """The clauses that by nature have no definition, and those that have no test: the table of docs/SCOPE.md."""
    none = {"a definition": set(), "a test": set()}
    rows = (root / "docs/SCOPE.md").read_text().partition(TABLE_HEAD)[2]
    for numbers, lack in re.findall(rf"^\| ({NUMBERS}) \| (a definition|a test|both) \|", rows, re.M):
        for name, held in none.items():
            if lack in (name, "both"):
                held.update(expanded(numbers))
    return none


def declared(line):
    """The name that a line of a definition's file declares, or nothing."""
    if not line or line[0] in " -\t" or re.match(r"(use|mod|pub mod|unfolding|open|module|infix\w*) ", line):
        return None
    if re.match(r"(abbrev|unfoldable|irreducible|pub|record|data) ", line) or re.match(r"\S+(?: \{[^}]*\})* : ", line):
        return re.match(r"(?:(?:abbrev|unfoldable|irreducible) )?(?:pub )?(?:record |data )?([^\s:({]+)", line)[1]
    return None


def pages(root, room):
    """The files of specs/ or proofs/, in the order of crates.txt: what a block means comes first."""
    order = list(needs(root))
    found = [path for path in root.glob(f"crates/*/{room}/*.antt") if path.stem != "Lib"]
    return sorted(found, key=lambda path: (order.index(path.parts[-3]) if path.parts[-3] in order else len(order), path.parts[-3], path.stem))


def definitions(root):
    """Each definition of specs/: crate, file, name, its line, and the clauses of the heading above it, [EVERY] or nothing."""
    for path in pages(root, "specs"):
        under, before = [], ""
        for line in path.read_text().splitlines():
            begins = HEADING.match(line)
            if begins and (not before.startswith("--") or before.startswith("-- ----")):
                under = [EVERY] if begins[2] else expanded(begins[1])
            name = declared(line)
            if name:
                yield path.parts[-3], path.stem, name, line, under
            before = line


def proved(root):
    """Lemmas of proofs/ by the clauses that a comment names: crate, file, lemma (none for the file as a whole), clauses; and by the type that they have."""
    cited, typed = [], {}
    for path in pages(root, "proofs"):
        lines = path.read_text().splitlines()
        for number, line in enumerate(lines):
            begins = HEADING.match(line)
            if begins and begins[1] and not (number and lines[number - 1].lstrip().startswith("-- ") and not lines[number - 1].lstrip().startswith("-- ----")):
                below = next((later for later in lines[number + 1:] if not later.lstrip().startswith("--")), "")
                lemma = re.match(r"\s*(?:abbrev |unfoldable )?(?:pub )?(?:record )?([^\s:({]+) ", below)
                name = None if number == 0 or not lemma or lemma[1] in ("use", "module", "mod") else lemma[1]
                cited.append((path.parts[-3], path.stem, name, expanded(begins[1])))
            if re.match(r"\s*pub one_outcome :", line):
                cited.append((path.parts[-3], path.stem, "one_outcome", [79]))
            whole = re.match(r"pub ([\w'-]+) : (?:[\w.-]+\.)?([A-Z]\w*)$", line)
            if whole:
                typed.setdefault((path.parts[-3], whole[2]), whole[1])
    return cited, typed


def is_statement(line):
    """A type that stands by itself, for a theorem to prove: without parameters."""
    return bool(re.match(r"abbrev pub [A-Z]\w* : Type 0$|pub record [A-Z]\w* : Type 0 where$", line))


def header_calls(root):
    return [name.removeprefix("knot_") for name in re.findall(r"^[a-z0-9_]+ \**(knot_[a-z0-9_]+)\(", (root / "include/knotpasture.h").read_text(), re.M)]


def contracts(root):
    """For each export and each public function of its name the definitions that its contract names: (crate, file, name). Of functions of one name in
    several crates it is the one that the exports call."""
    sources = {path: path.read_text() for path in sorted(root.glob("crates/*/src/**/*.rt"))}
    exports = "\n".join(text for path, text in sources.items() if "knotpasture" in path.parts[-4:])
    everywhere = [name for text in sources.values() for name in re.findall(r"^\s*pub fn (\w+)\(", text, re.M)]
    for path, text in sources.items():
        crate = path.relative_to(root / "crates").parts[0]
        known = {}
        for of, file, names in re.findall(r"^ghost use Rattle\.(\w+)\.specs\.(\w+)\.\{([^}]*)\}", text, re.M):
            known.update({name.strip(): (of, file, name.strip()) for name in names.split(",")})
        aliases = {alias: (of, file) for of, file, alias in re.findall(r"^ghost use Rattle\.(\w+)\.specs\.(\w+) as ([\w-]+);", text, re.M)}
        for name, contract in re.findall(r"^\s*pub (?:extern \"C\" )?fn (\w+)\((.*?)^\s*\{$", text, re.M | re.S):
            if everywhere.count(name) > 1 and not re.search(rf"\b{crate}::{name}\b", exports):
                continue
            words = re.findall(r"[\w'.-]+", contract)
            cites = {known[word] for word in words if word in known}
            cites |= {(*aliases[word.split(".")[0]], word.split(".")[1]) for word in words if word.count(".") == 1 and word.split(".")[0] in aliases}
            yield name.removeprefix("knot_"), cites


def statements(root):
    """For each statement of specs/ the definitions that it names, (crate, file, name) each."""
    found = {}
    for path in pages(root, "specs"):
        text, here = path.read_text(), (path.parts[-3], path.stem)
        known, aliases = {}, {}
        for of, file, names in re.findall(r"^use Rattle\.(\w+)\.specs\.(\w+)\.\{([^}]*)\}", text, re.M):
            known.update({name.strip(): (of, file, name.strip()) for name in names.split(",")})
        for of, file, alias in re.findall(r"^use Rattle\.(\w+)\.specs\.(\w+) as ([\w-]+)", text, re.M):
            aliases[alias] = of, file
        lines = text.splitlines()
        known.update({name: (*here, name) for name in map(declared, lines) if name})
        name = None
        for line in lines:
            new = declared(line)
            if new:
                name = new if is_statement(line) else None
            if not name or line.startswith("--"):
                continue
            for word in re.findall(r"[\w'.-]+", line):
                alias, _, inner = word.partition(".")
                definition = (*aliases[alias], inner) if inner and alias in aliases else known.get(word)
                if definition and definition != (*here, name):
                    found.setdefault((*here, name), set()).add(definition)
    return found


def refusing(root):
    """The calls that demand 1 has a line for."""
    text = (root / "crates/demands/specs/Silence.antt").read_text()
    return re.findall(r"^  pub ([a-z0-9_]+) : .*Silent", text, re.M)


def tests(root):
    """Each file of tests/ that says which clauses it holds, with their numbers."""
    for path in sorted((root / "tests").rglob("*")):
        if not path.is_file() or path.suffix in (".txt", ".pyc") or path.parent.name in ("__pycache__", "documents"):
            continue
        try:
            text = path.read_text()
        except UnicodeDecodeError:
            continue
        # a comment goes on over the line's end, behind the mark that its language has
        flat = re.sub(r"\n\s*(?://[!/]?|\*|#)?\s*", " ", text)
        held = [number for some in re.findall(rf"\bHolds ({NUMBERS})\b", flat) for number in expanded(some)]
        if held:
            yield path.relative_to(root / "tests"), sorted(set(held))


def cited(root):
    """Every file that names a clause, with the numbers."""
    for top in ("crates", "tests", "tools", "commands", "include", "docs", "python", "rust", "web"):
        for path in sorted((root / top).rglob("*")):
            # tests/documents plants clauses that are not there
            if not path.is_file() or {"target", "out", "__pycache__", "history", "documents"} & set(path.parts) or path.suffix in (".svg", ".png", ".wasm"):
                continue
            try:
                text = path.read_text()
            except UnicodeDecodeError:
                continue
            if "S-" in text:
                yield path.relative_to(root), {number for some in re.findall(rf"(?<![\w-]){NUMBERS}(?![\w-])", text) for number in expanded(some)}


def wrong(root):
    """What docs/SCOPE.md, the definitions and the tests do not say alike, a sentence each."""
    known, none = clauses(root), lacking(root)
    last = max(known, default=0)
    found = [f"docs/SCOPE.md: there is no S-{number}, but there is S-{last}" for number in range(1, last) if number not in known]
    found += [f"docs/SCOPE.md: S-{number} is there {len(texts)} times" for number, texts in known.items() if len(texts) != 1]
    defined, tested = set(), set()
    for crate, file, name, _, under in definitions(root):
        if not under:
            found.append(f"crates/{crate}/specs/{file}.antt: {name} has no clause above it")
        defined.update(under)
    for _, numbers in tests(root):
        tested.update(numbers)
    for number in known:
        for what, there in (("a definition", defined), ("a test", tested)):
            if number not in there and number not in none[what]:
                found.append(f"docs/SCOPE.md: S-{number} has no {what.split()[1]}, and the table does not say why")
            if number in there and number in none[what]:
                found.append(f"docs/SCOPE.md: the table says that S-{number} lacks {what}, but it has one")
    for path, numbers in cited(root):
        found += [f"{path}: docs/SCOPE.md has no S-{number}" for number in sorted(numbers - set(known))]
    return found
