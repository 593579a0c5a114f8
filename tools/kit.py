"""Where the kit is, and the words by which its `rattle` reads a crate of a checkout over the built libraries below it."""
import pathlib
import re
import shutil
import sys

from crate_list import in_order, needs


def home():
    """The kit's folder, by the `rt` that is on the path."""
    found = shutil.which("rt")
    if not found:
        sys.exit(f"{sys.argv[0]}: there is no 'rt' on the path: Knotpasture needs the Rattle kit (README)")
    return pathlib.Path(found).resolve().parent.parent


def library(root, crate):
    """The folder of a crate's built library."""
    return root / f"crates/{crate}/out/rlib/{crate}.rlib"


def below(root, crate):
    """The crates that a crate stands on, each after what it stands on itself."""
    table = needs(root)
    return [name for name in in_order([crate], table) if name in table and name != crate]


def is_static(root, crate):
    return any(re.match(rf"{crate} +staticlib\b", line) for line in (root / "crates.txt").read_text().splitlines())


def words(root, crate):
    """For `rattle check` and `rattle build`, in the crate's folder."""
    kit, table, source = home(), needs(root), "src/main.rt" if (root / "crates" / crate / "src/main.rt").is_file() else "src/lib.rt"
    found = ["--crate-name", crate, source, "--extern", f"std={kit}/rlibs/std.rlib", "-L", f"dependency={kit}/rlibs"]
    for name in table[crate]:
        found += ["--extern", f"{name}={library(root, name) if name in table else f'{kit}/rlibs/{name}.rlib'}"]
    for name in below(root, crate):
        found += ["-L", f"dependency={library(root, name).parent}"]
    found += ["--antt-project", f"{kit}/rattle/logic/antt-project.json"]
    return found + (["--crate-type", "staticlib"] if is_static(root, crate) else [])
