"""Whether a program below target/built is untouched since it was last held to its sources by content, at a stat call a file.

tools/prove goes by content, which takes a hash of every source. Where it found a program built of the sources as they are, it leaves
target/built/PROGRAM.seen: size, times and inode of each source, of each folder that has them, of the crates' list, the kit, the program and its stamp.
A file that is written, added, removed or put in another's place has another of these: its time of change is the system's, and not to be set.
"""
import os

ROOT = os.path.dirname(os.path.dirname(os.path.realpath(__file__)))
BUILT = os.path.join(ROOT, "target/built")


def seen_at(program):
    return os.path.join(BUILT, f"{program}.seen")


def state(path):
    """What changes with every change of a file or a folder; of one that is not there, 'none'."""
    try:
        found = os.stat(path)
    except OSError:
        return "none"
    return f"{found.st_size} {found.st_mtime_ns} {found.st_ctime_ns} {found.st_ino}"


def kit_files():
    """The `rt` that is on the path, and the kit's identity beside it; none where there is no rt."""
    for folder in os.environ.get("PATH", os.defpath).split(os.pathsep):
        found = os.path.join(folder or ".", "rt")
        if os.path.isfile(found) and os.access(found, os.X_OK):
            found = os.path.realpath(found)
            return [found, os.path.join(os.path.dirname(os.path.dirname(found)), "KIT-ID")]
    return []


def is_as_seen(program):
    """Whether nothing has changed since the program was seen to be built of its sources."""
    try:
        with open(seen_at(program), encoding="utf-8", errors="surrogateescape") as file:
            lines = [line.split("\t", 1) for line in file.read().splitlines()]
    except OSError:
        return False
    kit = kit_files()
    paths = [path for _, path in lines]
    return bool(kit) and paths[:len(kit)] == kit and all(state(os.path.join(ROOT, path)) == was for was, path in lines)


def states(program, crates):
    """The lines of PROGRAM.seen, as things are now, for a program that stands on these crates."""
    paths = [*kit_files(), "crates.txt", f"target/built/{program}", f"target/built/{program}.stamp"]
    for crate in crates:
        for folder, folders, files in os.walk(os.path.join(ROOT, "crates", crate)):
            # the kit writes there, whatever it is asked
            folders[:] = [name for name in folders if name != "out"]
            paths += [os.path.relpath(folder, ROOT), *(os.path.relpath(os.path.join(folder, name), ROOT) for name in files)]
    return "".join(f"{state(os.path.join(ROOT, path))}\t{path}\n" for path in paths)


def keep_states(program, lines):
    """Leaves the lines for the next time. Where that cannot be, the next time goes by content again."""
    beside = f"{seen_at(program)}.{os.getpid()}"
    try:
        with open(beside, "w", encoding="utf-8", errors="surrogateescape") as file:
            file.write(lines)
        os.replace(beside, seen_at(program))
    except OSError:
        pass
