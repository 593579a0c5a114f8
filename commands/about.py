"""What `knot` says of itself: its commands, its version, and whether an installation is as it was made."""
import os

from . import line, programs
from .ends import ROOT, Trouble
from .files import put, reason
from .house import COMMANDS, command

HELP = line.Option("-h, --help", "print this")


def usage_of(command, declared):
    inside = {name for form in declared.forms for name in form.options}
    free = "[OPTIONS] " if any(option.name not in inside for option in declared.options) else ""
    return "\n".join(f"{'usage:' if k == 0 else '      '} knot {command} {free}{form.text}" for k, form in enumerate(declared.forms))


def help_of(name, module):
    """What `knot COMMAND --help` prints: usage, what it does, options, statuses, an example."""
    text, declared = module.__doc__.strip(), getattr(module, "LINE", None)
    if declared is None:
        return f"{text}\n\n{line.STATUSES}\n"
    options = [*declared.options, HELP]
    width = max(len(option.told()) for option in options)
    lines = [usage_of(name, declared), "", text, "", "options:", *(f"  {option.told():<{width}}  {option.help}" for option in options), "", declared.statuses]
    if declared.example:
        lines += ["", "example:", *(f"  $ {example}" for example in declared.example.splitlines())]
    return "\n".join(lines) + "\n"


def tell_overview():
    put(overview())


def overview():
    lines = ["usage: knot COMMAND [WORDS...]", ""]
    lines += [f"  {name:<11} {command(name).__doc__.strip().splitlines()[0]}" for name in COMMANDS]
    lines += [
        "",
        "'knot COMMAND --help' explains a command, -V or --version prints version, commit and kit, --check checks an installation.",
        line.STATUSES[0].upper() + line.STATUSES[1:] + ".",
    ]
    return "\n".join(lines) + "\n"


def asked(words):
    """What a program prints, in one line; None where it can't be run."""
    import subprocess
    try:
        return subprocess.run(words, stdin=subprocess.DEVNULL, capture_output=True, text=True, check=True).stdout.strip()
    except (OSError, subprocess.CalledProcessError):
        return None


def text_at(*path):
    with open(os.path.join(ROOT, *path), encoding="utf-8") as file:
        return file.read()


def tell_version():
    put(version())


def version():
    """Version, commit, the kit's identity, and how far the libraries are proved. Where knot is installed, what it was built with is beside the commands."""
    number_of = text_at("VERSION").strip()
    if os.path.isfile(os.path.join(ROOT, "BUILT")):
        return f"knot {number_of}\n{text_at('BUILT')}"
    commit = asked(["git", "-C", ROOT, "rev-parse", "--short=12", "HEAD"]) or "not known"
    changed = asked(["git", "-C", ROOT, "status", "--porcelain", "--untracked-files=no"])
    kit = asked(["rt", "version"]) or "not known: there is no 'rt' on the path"
    standing = asked([os.path.join(ROOT, "tools/standing"), os.uname().machine])
    return f"knot {number_of}\ncommit {commit}{' and changes' if changed else ''}\nkit {kit}\n" + (f"{standing}\n" if standing else "")


def check_installation():
    """`knot --check`: every file of the installation has the sum that it was made with."""
    if not os.path.isfile(programs.SUMS):
        raise Trouble("knot is not installed here: a program of the repository is held to its sources each time")
    changed, wanted = [], programs.sums()
    for name, summed in wanted.items():
        try:
            if programs.sum_of(os.path.join(programs.PREFIX, name)) != summed:
                changed.append(f"{name} is another")
        except OSError as error:
            changed.append(f"{name}: {reason(error)}")
    if changed:
        raise Trouble(f"{len(changed)} of {len(wanted)} files of this installation are not as they were made: {'; '.join(changed[:8])}{'; ..' if changed[8:] else ''}")
    put(f"{len(wanted)} files are as they were made\n")
