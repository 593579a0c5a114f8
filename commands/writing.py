"""Writing files: whole or not at all, synced, and never over what they are made of."""
import errno
import os
import stat

from .ends import Signalled, Trouble, Usage
from .files import is_standard_output, put, reason, shown, write_all, written

# What a file system answers that has no hard links, and what one answers that cannot sync a folder.
NO_LINKS = {errno.EPERM, errno.EOPNOTSUPP, errno.ENOTSUP, errno.ENOSYS, errno.EINVAL, errno.EMLINK, errno.EACCES}
NO_SYNC = {errno.EINVAL, errno.EOPNOTSUPP, errno.ENOTSUP, errno.EROFS, errno.EBADF}
CURRENT_FOLDER, NO_REPLACE = -100, 1
# The bytes that are copied at a time.
PIECE = 1 << 20


def write_whole(path, data, over=True):
    """Writes a file whole or not at all: beside it first, synced, then in its place. Without `over` a file that is there stays, and is trouble.

    Standard output, a device or a pipe has no beside: it is written as it is."""
    if is_standard_output(path):
        put(data)
        return

    def make(file):
        write_all(file, data)
        return len(data)

    with_folder(path, over, make, lambda target: write_in_place(target, [data]))


def write_by(path, make):
    """The same of a file that is never in memory whole: `make` writes the open file, and answers how many bytes it then has to have.

    What has no beside gets what is whole too: it is made in another place first."""
    if is_standard_output(path):
        pass_on(path, make, lambda pieces: [put(piece) for piece in pieces])
        return
    with_folder(path, True, make, lambda target: pass_on(path, make, lambda pieces: write_in_place(target, pieces)))


def with_folder(path, over, make, in_place):
    """Writes a file beside its place, or `in_place` what has none, and syncs the folder."""
    try:
        # A link is followed to what is written over, and is itself in the way of what may not be.
        target = os.path.realpath(path) if over else os.path.abspath(path)
        if over and is_special(target):
            in_place(target)
        else:
            write_beside(target, make, over)
    except (OSError, ValueError) as error:
        raise Trouble(f"{shown(path)}: {reason(error)}") from None
    written.append(path)
    sync_folder(path, os.path.dirname(target))


def pass_on(path, make, write):
    """Makes a file that has no name, and writes it where it is whole."""
    import tempfile
    try:
        with tempfile.TemporaryFile(buffering=0) as file:
            hold_whole(file.fileno(), make)
            file.seek(0)
            write(iter(lambda: file.read(PIECE), b""))
    except OSError as error:
        raise Trouble(f"{shown(path)}: {reason(error)}") from None


def hold_whole(file, make):
    wanted, there = make(file), os.fstat(file).st_size
    if there != wanted:
        raise Trouble(f"{there:,} of {wanted:,} bytes were written, and nothing is kept of them")


def is_special(target):
    """Neither a file nor a folder, but there: a device, a pipe."""
    try:
        mode = os.stat(target).st_mode
    except FileNotFoundError:
        return False
    return not stat.S_ISREG(mode) and not stat.S_ISDIR(mode)


def write_in_place(target, pieces):
    file = os.open(target, os.O_WRONLY | os.O_CLOEXEC)
    try:
        for piece in pieces:
            write_all(file, piece)
    finally:
        os.close(file)


def heed_signals():
    """Being asked to end is an exception: it passes through what removes a file that is half written."""
    import signal

    def end(number_of, _):
        raise Signalled(number_of)

    for number_of in (signal.SIGTERM, signal.SIGHUP):
        if signal.getsignal(number_of) == signal.SIG_DFL:
            signal.signal(number_of, end)


def write_beside(target, make, over):
    heed_signals()
    beside = os.path.join(os.path.dirname(target), f".knot-{os.urandom(6).hex()}")
    try:
        file = os.open(beside, os.O_RDWR | os.O_CREAT | os.O_EXCL | os.O_CLOEXEC, 0o666)
        try:
            hold_whole(file, make)
            os.fsync(file)
        finally:
            os.close(file)
        if over:
            os.replace(beside, target)
        else:
            put_in_new_place(beside, target)
    finally:
        try:
            os.unlink(beside)
        except FileNotFoundError:
            pass


def put_in_new_place(beside, target):
    """Gives a whole file a name that is not taken yet: by a hard link; where the file system has none, by a renaming that does not replace;
    where it has neither, by taking the name with an empty file first, which the whole one then replaces."""
    try:
        os.link(beside, target)
        return
    except OSError as error:
        if error.errno not in NO_LINKS:
            raise
    if renamed_without_replacing(beside, target):
        return
    os.close(os.open(target, os.O_WRONLY | os.O_CREAT | os.O_EXCL | os.O_CLOEXEC, 0o666))
    try:
        os.replace(beside, target)
    except BaseException:
        os.unlink(target)
        raise


def renamed_without_replacing(beside, target):
    """Linux's renameat2; False where it, or the file system, cannot do that."""
    import ctypes
    call = getattr(ctypes.CDLL(None, use_errno=True), "renameat2", None)
    if call is None:
        return False
    if call(CURRENT_FOLDER, os.fsencode(beside), CURRENT_FOLDER, os.fsencode(target), NO_REPLACE) == 0:
        return True
    number = ctypes.get_errno()
    if number in NO_LINKS:
        return False
    raise OSError(number, os.strerror(number), target)


def sync_folder(path, folder):
    """Makes the new name last: a file whose folder is not synced may be gone after a power failure."""
    try:
        file = os.open(folder, os.O_RDONLY | os.O_DIRECTORY | os.O_CLOEXEC)
    except OSError:
        return
    try:
        os.fsync(file)
    except OSError as error:
        if error.errno not in NO_SYNC:
            raise Trouble(f"{shown(path)}: it is written, whole, but its folder could not be synced: {reason(error)}") from None
    finally:
        os.close(file)


def same_file(path, other):
    """Whether two names are one file."""
    try:
        return os.path.samefile(path, other)
    except (OSError, ValueError):
        return False


def keep_apart(out, *inputs):
    """The result never goes over what it is made of."""
    for given in inputs:
        if same_file(out, given):
            raise Usage(f"{shown(out)} is {shown(given)} itself, which it would overwrite: name another file")
