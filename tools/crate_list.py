"""The crates of a repository's crates.txt, what each stands on, an order in which each comes after that, and their files."""
import os


def needs(root):
    """For each crate of the list, in the list's order, the crates and kit libraries that it names."""
    found = {}
    for line in (root / "crates.txt").read_text().splitlines():
        name, colon, rest = line.split("#")[0].partition(":")
        if colon:
            # a static library is listed as `NAME staticlib: ..`
            found[name.split()[0]] = rest.split()
    return found


def in_order(crates, table):
    """The crates and all that they stand on, kit libraries too, each after what it stands on."""
    order = []

    def visit(crate):
        if crate not in order:
            for below in table.get(crate, []):
                visit(below)
            order.append(crate)

    for crate in crates:
        visit(crate)
    return order


def files(folder):
    """Every file of a crate's folder, in order, but what the kit wrote below out/."""
    found = []
    for here, folders, names in os.walk(folder):
        folders[:] = sorted(name for name in folders if name != "out" or here != str(folder))
        found += [os.path.join(here, name) for name in sorted(names)]
    return sorted(found)
