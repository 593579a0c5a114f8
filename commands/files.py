"""Reading files whole, standard output, and messages of one line."""
import errno
import os

from .ends import Trouble

# The name of what was read last, which a refusal speaks of, and the files that this run has written.
read_last = None
written: list[str] = []

# What a command has to say of its input beside its result: a line of its own, or the end of the line that tells a refusal.
remarks = []

STANDARD_OUTPUT = ("-", "/dev/stdout", "/dev/fd/1", "/proc/self/fd/1")
COLOURS = {"good": "32", "doubtful": "33", "bad": "31"}


def reason(error):
    return (error.strerror or str(error)).lower() if isinstance(error, OSError) else str(error)


def shown(word, most=160):
    """A word as a part of one line: short, and with nothing in it that would end the line or paint the terminal."""
    text = "".join(sign if sign.isprintable() else f"\\x{ord(sign) & 0xFF:02x}" if "\udc80" <= sign <= "\udcff" else ascii(sign)[1:-1] for sign in str(word))
    return text if len(text) <= most else text[: most // 2] + ".." + text[-(most // 2):]


def read(path, most):
    """The bytes of a file, or of standard input where the path is None or `-`. Of one that is longer, the first most + 1: enough to tell."""
    global read_last
    standard = path in (None, "-")
    name = read_last = "standard input" if standard else shown(path)
    try:
        with open(0 if standard else path, "rb", buffering=0, closefd=not standard) as source:
            pieces, size = [], 0
            while size <= most:
                piece = source.read(min(most + 1 - size, 1 << 20))
                if piece is None:
                    raise Trouble(f"{name}: nothing is there to read yet")
                if not piece:
                    break
                pieces.append(piece)
                size += len(piece)
        return b"".join(pieces)
    except (OSError, ValueError) as error:
        closed = standard and isinstance(error, OSError) and error.errno == errno.EBADF
        raise Trouble(f"{name}: {'it is closed, or a directory' if closed else reason(error)}") from None


def opened(path, most):
    """A file of which any part can be had without reading it whole, open. Standard input and a pipe are read whole all the same, as `read` does."""
    global read_last
    import stat
    try:
        if path not in (None, "-") and stat.S_ISREG(os.stat(path).st_mode):
            read_last = shown(path)
            return os.open(path, os.O_RDONLY | os.O_CLOEXEC)
    except (OSError, ValueError) as error:
        raise Trouble(f"{shown(path)}: {reason(error)}") from None
    file = os.memfd_create("knot")
    write_all(file, read(path, most))
    return file


def some_of(file, at, size):
    """At most `size` bytes of an open file from byte `at` on, none at its end."""
    try:
        return os.pread(file, size, at)
    except OSError as error:
        raise Trouble(f"{read_last}: {reason(error)}") from None


def read_through(file, most):
    """How many bytes an open file has, by reading it; it goes on for no more than `most` and a piece."""
    at = 0
    while at <= most and (piece := some_of(file, at, 1 << 20)):
        at += len(piece)
    return at


def part(file, at, size):
    """`size` bytes of an open file, which has them, from byte `at` on."""
    pieces = []
    while size:
        piece = some_of(file, at, size)
        if not piece:
            raise Trouble(f"{read_last}: it ended early: it was longer when the command began")
        pieces.append(piece)
        at, size = at + len(piece), size - len(piece)
    return b"".join(pieces)


def write_all(file, data):
    rest = memoryview(data)
    while rest:
        rest = rest[os.write(file, rest):]


def put(data):
    """Writes to standard output, all of it."""
    try:
        write_all(1, data.encode(errors="backslashreplace") if isinstance(data, str) else data)
    except OSError as error:
        raise Trouble(f"standard output: {reason(error)}{written_so_far()}") from None


def written_so_far():
    """The files that this run has written, as the end of a message."""
    return f"; {', '.join(map(shown, written))} {'is' if len(written) == 1 else 'are'} written all the same, whole" if written else ""


def tell(message):
    """A line to standard error, where there is one."""
    try:
        write_all(2, (shown(message, 2000) + "\n").encode(errors="backslashreplace"))
    except OSError:
        pass


def is_standard_output(path):
    return os.fspath(path) in STANDARD_OUTPUT


def say(text, out):
    """Prints what a command tells beside the file OUT: to standard output, and to standard error where OUT is standard output."""
    if not is_standard_output(out):
        put(text)
        return
    for line in text.splitlines():
        tell(line)


def remark(text):
    """Says something of what was read last, on standard error, when the command has ended."""
    remarks.append((read_last, text))


def painted(text, colour):
    """A verdict in colour, where standard output is a terminal and NO_COLOR is not set."""
    plain = os.environ.get("NO_COLOR") or os.environ.get("TERM") == "dumb" or not os.isatty(1)
    return text if plain else f"\x1b[{COLOURS[colour]}m{text}\x1b[0m"
