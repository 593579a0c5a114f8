"""`knot` itself: which commands there are, how one is started and how it ends.

A command is a module of this folder. The first line of its docstring is in `knot help`, the rest in `knot COMMAND --help`; `LINE` declares
its words (line.py). `run(asked)` does the work: it prints by `put`, and ends early by `Usage`, `Refused`, `Faulty` or `Trouble`. A module
without a `LINE` gets the words as they are. What commands share is in ends, files, programs, records and kinds; its names can be had from here.
"""
import os
import sys

from . import ends, files, line
from .ends import DONE, REFUSED, TROUBLE, USAGE, Faulty, Refused, Signalled, Trouble, Usage, meaning  # noqa: F401
from .files import is_standard_output, opened, painted, part, put, read, read_through, reason, remark, say, shown, some_of, tell, write_all, written_so_far  # noqa: F401
from .line import number  # noqa: F401
from .programs import Text, ask, listed, over_store, program, program_at, run_into  # noqa: F401
from .records import BLOCK, PLACED_STORE, RECORD, STORE, no_record, no_record_in_words, record_answers, record_in, record_refused  # noqa: F401

# The commands, in the order of `knot help`.
COMMANDS = [
    "list",
    "check",
    "audit",
    "report",
    "open",
    "clean",
    "restore",
    "survey",
    "infinities",
    "fields",
    "block",
    "record",
    "place",
    "unplace",
    "probe",
    "dds",
    "pfm",
    "export",
]
ASKS_HELP = ("-h", "--help")
# The options of knot itself, which stand alone, and what of about.py they start.
ALONE = {"-h": "tell_overview", "--help": "tell_overview", "-V": "tell_version", "--version": "tell_version", "--check": "check_installation"}

# Whether a refusal is told as JSON.
as_json = False


# What few commands need comes from these modules when it is asked for: a start compiles what it imports.
LATER = {"write_whole": "writing", "write_by": "writing", "same_file": "writing", "keep_apart": "writing", "version": "about"}


def __getattr__(name):
    """What is read late: those names, the words of the refusals, and what changes while a command runs."""
    if name == "read_last":
        return files.read_last
    if name == "MEANINGS":
        return ends.meanings()
    if name == "ROOT":
        import pathlib
        return pathlib.Path(ends.ROOT)
    if name in LATER:
        return getattr(command(LATER[name]), name)
    raise AttributeError(name)


def put_json(facts):
    import json
    put(json.dumps(facts, indent=1) + "\n")


def command(name):
    __import__(f"commands.{name}")
    return sys.modules[f"commands.{name}"]


def known(name):
    if name not in COMMANDS:
        raise Usage(f"there is no command '{shown(name, 40)}'{line.meant(name, COMMANDS)}")
    return name


def tell_help(name):
    put(command("about").help_of(known(name), command(name)))


def start(name, words):
    global as_json
    before = words[:words.index("--")] if "--" in words else words
    if any(word in ASKS_HELP for word in before):
        tell_help(name)
        return
    module = command(name)
    declared = getattr(module, "LINE", None)
    if declared is None:
        module.run(words)
        return
    found = declared.parsed(words)
    as_json = getattr(found, "json", False)
    module.run(found)


def dispatch(words):
    if not words:
        raise Usage("a command is missing")
    name, *rest = words
    if name in ALONE:
        if rest:
            raise Usage(f"{name} takes no words, and '{shown(rest[0], 40)}' is one")
        getattr(command("about"), ALONE[name])()
    elif name == "help":
        if len(rest) > 1:
            raise Usage(f"help takes one command, and '{shown(rest[1], 40)}' is one more")
        tell_help(rest[0]) if rest else command("about").tell_overview()
    elif name.startswith("-"):
        raise Usage(f"there is no option '{shown(name, 40)}'{line.meant(name, list(ALONE))}")
    else:
        start(known(name), rest)


def refusal_in_json(error, reasons):
    import json
    return json.dumps({"refused": error.number, **error.facts, "name": error.name or files.read_last, "reason": "; ".join(reasons)}) + "\n"


def tell_refusal(said, error):
    """The number on standard output, and why on standard error, in one line."""
    reasons, name = [str(error), *(text for _, text in files.remarks)], error.name or files.read_last
    tell(f"{said}: {name + ': ' if name else ''}refused, {error.number}: {'; '.join(reasons)}")
    put(refusal_in_json(error, reasons) if as_json else error.line)


def ended(said, words):
    """Runs the command: its status."""
    try:
        dispatch(words)
        status = DONE
    except Usage as error:
        tell(f"{said}: {error}; see '{said} --help'")
        return USAGE
    except Refused as error:
        tell_refusal(said, error)
        return REFUSED
    except Faulty as error:
        tell(f"{said}: {files.read_last + ': ' if files.read_last else ''}{error}")
        status = REFUSED
    for name, text in files.remarks:
        tell(f"{said}: {name}: {text}")
    return status


def hold_streams():
    """A standard stream that is closed stays one that fails: else the next file that is opened would take its number."""
    for number_of, mode in ((0, os.O_WRONLY), (1, os.O_RDONLY), (2, os.O_WRONLY)):
        try:
            os.fstat(number_of)
        except OSError:
            held = os.open(os.devnull, mode)
            if held != number_of:
                os.dup2(held, number_of)
                os.close(held)


def end_by(number_of):
    """Ends as the signal would have."""
    import signal
    signal.signal(number_of, signal.SIG_DFL)
    os.kill(os.getpid(), number_of)


def main(words):
    said = " ".join(["knot", *words[:1]]) if words[:1] and words[0] in COMMANDS else "knot"
    try:
        hold_streams()
        return ended(said, words)
    except Trouble as error:
        tell(f"{said}: {error}")
    except KeyboardInterrupt:
        return 130
    except Signalled as error:
        end_by(error.number)
    except Exception as error:
        tell(f"{said}: an unexpected error, {type(error).__name__}: {error} ({place_of(error)}); nothing that it printed counts")
    return TROUBLE


def place_of(error):
    """Where an error came from, for a report of it."""
    trace = error.__traceback__
    while trace.tb_next:
        trace = trace.tb_next
    return f"{os.path.basename(trace.tb_frame.f_code.co_filename)}, line {trace.tb_lineno}"
