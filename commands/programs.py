"""Running the proved programs, and whether what they wrote is whole.

A program that could not read its input, or write its output, leaves less than the whole: so each command says what whole output of its
program is, and takes nothing else. What a program writes to standard error is never part of a result.
"""
import os

from .ends import ROOT, Refused, Trouble, meaning, module_at
from .files import read_through, reason, shown, write_all

INSTALLED = os.path.join(ROOT, "programs")
# The SHA-256 sums of an installation, by the paths below its prefix.
SUMS = os.path.join(ROOT, "sums")
PREFIX = os.path.dirname(os.path.dirname(ROOT))

# The programs that are known to be as they were built, in this run.
held = set()


def sums():
    """The sum of each file of this installation, by its path."""
    try:
        with open(SUMS, encoding="utf-8") as file:
            return {name: summed for summed, name in (line.split("  ", 1) for line in file.read().splitlines())}
    except (OSError, ValueError) as error:
        raise Trouble(f"this installation has no list of its sums, which 'knot --check' needs: {reason(error)}") from None


def sum_of(path):
    with open(path, "rb") as file:
        return sha256(file.read()).hexdigest()


def sha256(data):
    """As hashlib has it, which loads OpenSSL for the same sum: that takes longer than the rest of a start."""
    for module in ("_sha2", "_sha256", "hashlib"):
        try:
            return getattr(__import__(module), "sha256")(data)
        except ImportError:
            pass


def hold_installed(name, path):
    """An installed program is the one that was built: another one would print whatever it likes."""
    try:
        if sums().get(os.path.relpath(path, PREFIX)) != sum_of(path):
            raise Trouble(f"the program {name} is not the one that was installed: 'knot --check' looks at all of them")
    except OSError as error:
        raise Trouble(f"the program {name}: {reason(error)}") from None


def hold_built(name):
    """A program of this repository is proved, and built of the sources as they are."""
    if not os.path.isfile(os.path.join(ROOT, "tools/prove")):
        raise Trouble(f"the program {name} is missing from this installation: 'knot --check' looks at all of it")
    if module_at("tools/built.py")["is_as_seen"](name):
        return
    import subprocess
    if subprocess.run([os.path.join(ROOT, "tools/prove"), name], stdin=subprocess.DEVNULL, stdout=subprocess.DEVNULL).returncode != 0:
        raise Trouble(f"the program {name} is not built: the reason is above")


def program_at(name):
    """Where a proved program is: beside the commands where knot is installed, else below target/."""
    installed = os.path.join(INSTALLED, name)
    is_installed = os.path.isfile(installed)
    if name not in held:
        hold_installed(name, installed) if is_installed else hold_built(name)
        held.add(name)
    return installed if is_installed else os.path.join(ROOT, "target/built", name)


def command_of(name, words):
    """The words that run a proved program."""
    return [*([] if os.uname().machine == "x86_64" else [os.path.join(ROOT, "tools/run")]), program_at(name), *words]


def hold_status(name, status, told):
    if status != 0:
        ended = f"was ended by signal {-status}" if status < 0 else f"failed with status {status}"
        raise Trouble(f"the program {name} {ended}{told_last(told)}")


def program(name, data, words=()):
    """Runs a proved program over `data`, bytes or an open file: what it writes to standard output and to standard error."""
    status, out, told = run(command_of(name, words), data)
    if status == 1 and isinstance(data, int):
        # A program ends so where a read or a write of it failed: of a file that cannot be read, this read says why.
        read_through(data, os.fstat(data).st_size)
    hold_status(name, status, told)
    return out, told


class Child:
    """A program that is started on three open files. It has ended when its block ends, however that does."""

    def __init__(self, words, streams):
        actions = [(os.POSIX_SPAWN_DUP2, stream, number) for number, stream in enumerate(streams)]
        self.number = os.posix_spawn(words[0], words, os.environ, file_actions=actions)

    def __enter__(self):
        return self

    def status(self):
        """How it ended: its status, or less than 0 for a signal."""
        status = os.waitstatus_to_exitcode(os.waitpid(self.number, 0)[1])
        self.number = None
        return status

    def __exit__(self, *_):
        if self.number is not None:
            os.kill(self.number, 9)
            os.waitpid(self.number, 0)


def run(words, data):
    """A program's status, and what it writes to both streams. What it reads, where that is no open file yet, and what it writes are files in memory."""
    streams = [os.memfd_create("knot") for _ in range(3)]
    try:
        if isinstance(data, int):
            os.dup2(data, streams[0], inheritable=False)
        else:
            write_all(streams[0], data)
        os.lseek(streams[0], 0, os.SEEK_SET)
        with Child(words, streams) as child:
            status = child.status()
        return status, contents(streams[1]), contents(streams[2])
    except OSError as error:
        raise Trouble(f"the program {os.path.basename(words[0])} could not be run: {reason(error)}") from None
    finally:
        for stream in streams:
            os.close(stream)


def run_into(name, pieces, out, size):
    """Runs a proved program on the open file `out` as its standard output, of which it has to write `size` bytes; its standard input are the
    pieces, one after the other, so that neither is ever in memory whole."""
    words, told, (source, sink) = command_of(name, ()), os.memfd_create("knot"), os.pipe()
    left = {told, source, sink}

    def done_with(stream):
        left.remove(stream)
        os.close(stream)

    try:
        with Child(words, (source, out, told)) as child:
            done_with(source)
            try:
                for piece in pieces:
                    write_all(sink, piece)
            except BrokenPipeError:
                pass
            done_with(sink)
            status, last = child.status(), contents(told)
    except OSError as error:
        raise Trouble(f"the program {name} could not be run: {reason(error)}") from None
    finally:
        for stream in left:
            os.close(stream)
    there = os.fstat(out).st_size
    if status in (0, 1) and there != size:
        # A program's status is 1 where it could not read or write, whatever the reason: where it could not write, this write says why.
        os.lseek(out, 0, os.SEEK_END)
        write_all(out, bytes(max(1, min(size - there, 1 << 20))))
    hold_status(name, status, last)
    if there != size:
        raise Trouble(f"the program {name} did not end its output, {there:,} of {size:,} bytes{told_last(last)}")


def contents(stream):
    size = os.fstat(stream).st_size
    os.lseek(stream, 0, os.SEEK_SET)
    with open(stream, "rb", buffering=0, closefd=False) as file:
        return file.read(size)


def told_last(told):
    """The last line that a program told on standard error, as the end of a reason."""
    lines = told.decode(errors="replace").split("\n")
    return "".join(f": {shown(line)}" for line in [line for line in lines if line.strip()][-1:])


def ask(name, data, is_whole, words=()):
    """What a program writes of `data`, where `is_whole` takes it for whole."""
    out, told = program(name, data, words)
    if not is_whole(out):
        raise Trouble(f"the program {name} did not end its output, {len(out):,} bytes of it{told_last(told)}")
    return out


class Text:
    """What the text of a program over a store is when it is whole: a line `head` where there is one, rows of so many `columns`, and a line
    of the words of `closing`, each with a count behind it. Of the counts `rows` makes the number of rows and, where it is said, `records` that
    of the store's records."""

    def __init__(self, columns, closing, rows, records=None, head=None):
        self.columns, self.closing, self.rows, self.records, self.head = columns, closing.split(), rows, records, head

    def is_whole(self, text, count):
        """Whether it is, for a store of `count` records."""
        lines = text.decode(errors="replace").split("\n")
        counts = self.counts(lines[-2:-1])
        if lines[-1] != "" or counts is None or self.head is not None and lines[0] != self.head:
            return False
        rows = lines[self.head is not None:-2]
        right = len(rows) == self.rows(*counts) and all(len(row.split(" ")) == self.columns for row in rows)
        return right and (self.records is None or self.records(*counts) == count)

    def counts(self, last):
        """The counts of the closing line; None where it is another line."""
        words = last[0].split(" ") if last else []
        return [int(word) for word in words[1::2]] if words[::2] == self.closing and all(map(is_count, words[1::2])) and len(words) % 2 == 0 else None


def is_count(word):
    return word.isascii() and word.isdigit()


def refusal_in(text):
    """The number of the one line that a refused store is; None for any other text."""
    word = text.decode(errors="replace").removeprefix("store refused ").removesuffix("\n")
    return int(word) if is_count(word) and text == f"store refused {word}\n".encode() else None


def over_store(name, store, shape, words=(), size=24):
    """What a program prints of a store of records of `size` bytes: whole, or not at all. A refused store is the one line that says so."""
    text, told = program(name, store, words)
    refused = refusal_in(text)
    if refused is not None:
        raise Refused(refused, text, meaning(refused) + told_last(told))
    if not shape.is_whole(text, len(store) // size):
        raise Trouble(f"the program {name} did not end its text{told_last(told)}")
    return text


LISTING = Text(8, "kept twins bad", rows=lambda *counts: sum(counts), records=lambda *counts: sum(counts))


def listed(store, strict=False):
    """The listing of a store, whole."""
    return over_store("run_list", store, LISTING, ["--strict"] if strict else [])
