"""The words of a command line: a command declares them, and its help is made of the declaration.

    LINE = Line("STORE", "TEXT --into STORE N OUT", options=[Option("--into", "..")], example="knot ..")

A form names the operands in their order, in capitals; one in brackets may be left out, and one with three dots behind it stands for one or more. A word in small letters stands for itself, and an
option in a form is given in that form and in no other, with its value behind it where it has one. Options may come before, between and behind the operands; behind `--` every word is
an operand, and `-` always is one. No operand is empty: that is a name that a script left out. `run(asked)` of the command gets them by their names in small letters, asked.store, asked.as_store; the form
is asked.chosen.
"""
from .ends import Usage
from .files import shown

STATUSES = "status: 0 done; 1 refused, and the number is on standard output; 2 the words do not fit; 3 input, output or an unexpected error"


class Option:
    """An option: a flag, or one with a value that is named in capitals."""

    def __init__(self, name, help, value=None):
        self.name, self.help, self.value = name, help, value
        self.key = name.lstrip("-").replace("-", "_")

    def told(self):
        return f"{self.name} {self.value}" if self.value else self.name


FORM = Option("--form", "read records of 24 bytes, or of 32 with a place", "24|32")
AS_STORE = Option("--as-store", "take the file as it is given, whatever it looks like")
JSON = Option("--json", "print JSON, for other programs; a refusal is JSON too")


class Form:
    """One way to call a command."""

    def __init__(self, text, valued=()):
        self.text, words = text, text.split()
        self.options = {word for word in words if word.startswith("--")}
        self.words = [word for before, word in zip(["", *words], words) if not word.startswith("--") and before not in valued]

    def least(self):
        return sum(not word.startswith("[") for word in self.words)

    def takes_rest(self):
        return bool(self.words) and self.words[-1].endswith("...")

    def fits(self, operands):
        most = len(operands) if self.takes_rest() else len(self.words)
        return self.least() <= len(operands) <= most and all(not word.islower() or word == given for word, given in zip(self.words, operands))

    def named(self, operands):
        """Each operand by its name, None for one that is left out."""
        names = [word.strip("[]").split(".")[0].lower().replace("-", "_") for word in self.words]
        found = {name: operands[k] if k < len(operands) else None for k, name in enumerate(names)}
        return {**found, names[-1]: operands[len(names) - 1:]} if self.takes_rest() else found


class Asked:
    """What a command line asks for, by name. An operand of another form is None."""

    def __init__(self, names):
        self.__dict__ = names


class Line:
    def __init__(self, *forms, options=(), example="", statuses=STATUSES, dashed=(), choices=()):
        self.options, self.example, self.statuses = list(options), example, statuses
        self.forms = [Form(form, [option.name for option in self.options if option.value]) for form in forms]
        # Words that begin with a dash, and yet are operands; so are names of files that begin so and go on with a point.
        self.dashed = dashed
        # The words that may stand for an operand, by its name, where they are few: completions offer them.
        self.choices = dict(choices)

    def parsed(self, words):
        given, operands = self.split(list(words))
        choosing = {name for form in self.forms for name in form.options}
        chosen = [form for form in self.forms if form.options == choosing & {option.name for option in given}]
        form = next((form for form in chosen if form.fits(operands)), None)
        if form is None:
            raise Usage(f"it takes {' or '.join(form.text for form in chosen or self.forms)}, and {self.counted(operands)}")
        if "" in operands:
            raise Usage(f"{form.words[min(operands.index(''), len(form.words) - 1)].strip('[].')} is empty")
        flags = {option.key: option in given for option in self.options if option.value is None}
        values = {option.key: given.get(option) for option in self.options if option.value is not None}
        none = {name: None for other in self.forms for name in other.named([])}
        return Asked({**none, **flags, **values, **form.named(operands), "chosen": form.text})

    @staticmethod
    def counted(operands):
        return f"{len(operands) or 'no'} word{'' if len(operands) == 1 else 's'} {'is' if len(operands) == 1 else 'are'} given"

    def split(self, words):
        """The options that are given with their values, and the operands."""
        given, operands = {}, []
        while words:
            word = words.pop(0)
            if word == "--":
                return given, operands + words
            if not word.startswith("-") or word == "-" or word[1:2].isdigit() or word.upper().partition(".")[0] in self.dashed:
                operands.append(word)
                continue
            name, has_value, value = word.partition("=")
            option = next((option for option in self.options if option.name == name), None)
            if option is None:
                raise Usage(self.unknown(name))
            if option.value is None and has_value:
                raise Usage(f"{option.name} has no value")
            if option.value is not None and not has_value:
                if not words:
                    raise Usage(f"{option.name} needs a value: {option.told()}")
                value = words.pop(0)
            given[option] = value
        return given, operands

    def unknown(self, name):
        close = meant(name, [option.name for option in self.options] + ["--help"])
        file = "" if name.startswith("--") else f"; a file of that name is ./{shown(name, 40)}"
        return f"there is no option '{shown(name, 40)}'{close}{file}"


def meant(word, known):
    """What a wrong word may have been meant to be, as the end of a message."""
    import difflib
    close = difflib.get_close_matches(word[:40], known, 1)
    return f": did you mean '{close[0]}'?" if close else ""


def number(word, what, most=None):
    """A number in decimal, at most `most` where that is said."""
    span = "from 0 on" if most is None else f"from 0 to {most:,}"
    if not (word.isascii() and word.isdigit()) or len(word) > 4000:
        raise Usage(f"{what} is a number {span} in decimal, and not '{shown(word, 40)}'")
    if most is not None and int(word) > most:
        raise Usage(f"{what} is a number {span}, and not {shown(word, 40)}")
    return int(word)
