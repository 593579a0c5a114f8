"""How a command ends: its status, and the ways to end early."""
import os

ROOT = os.path.dirname(os.path.dirname(os.path.realpath(__file__)))

DONE, REFUSED, USAGE, TROUBLE = 0, 1, 2, 3


class Usage(Exception):
    """The words of the command line do not fit: status 2."""


class Refused(Exception):
    """The input is refused, with its number: status 1. `line` goes to standard output, or `facts` with --json; `name` is what was read last
    unless it is given."""

    def __init__(self, number, line, reason=None, name=None, **facts):
        super().__init__(reason or meaning(number))
        self.number, self.line, self.name, self.facts = number, line, name, facts


class Faulty(Exception):
    """The command has printed its result, which is that something is faulty: status 1."""


class Trouble(Exception):
    """The input could not be read, the output not written, or a program is not what it has to be: status 3."""


class Signalled(BaseException):
    """A signal ends the command: what it began to write goes."""

    def __init__(self, number):
        super().__init__(number)
        self.number = number


def module_at(*places):
    """The names of the first of these files that is there: a Python file that is no part of this package."""
    path = next(path for path in (os.path.join(ROOT, place) for place in places) if os.path.isfile(path))
    names = {"__name__": os.path.basename(path).removesuffix(".py"), "__file__": path}
    with open(path, encoding="utf-8") as source:
        exec(compile(source.read(), path, "exec"), names)
    return names


def meanings():
    """What each number means, in one line: the words of the Python package, which are beside the commands where knot is installed."""
    global known
    known = known or module_at("words.py", "python/knotpasture/words.py")["WORDS"]
    return known


known = None


def meaning(number):
    return meanings().get(number, "a number that this version does not know")
