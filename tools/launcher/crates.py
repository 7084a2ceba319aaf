"""The crates that a program stands on, as crates.txt lists them, and whether what was built of them is current."""
import os

TOP = os.path.dirname(os.path.dirname(os.path.dirname(os.path.realpath(__file__))))
CRATES = os.path.join(TOP, "crates.txt")
SOURCES = (".rt", ".antt")


def crates():
    """The libraries of this repository that each crate stands on."""
    found = {}
    with open(CRATES, encoding="utf-8") as lines:
        for line in lines:
            name, colon, rest = line.partition("#")[0].partition(":")
            if colon:
                found[name.split()[0]] = rest.split()
    return {name: [dep for dep in deps if dep in found] for name, deps in found.items()}


def order_of(name):
    """The crate and those below it, lower ones first."""
    deps, order = crates(), []

    def visit(crate):
        if crate not in order:
            for dep in deps[crate]:
                visit(dep)
            order.append(crate)

    visit(name)
    return order


def folder_of(name):
    return os.path.join(TOP, "crates", name)


def files(name):
    """The crate's sources, specifications and proofs."""
    for folder, folders, names in os.walk(folder_of(name)):
        folders[:] = [it for it in folders if it != "out"]
        yield from (os.path.join(folder, it) for it in names if it.endswith(SOURCES))


def is_current(built, order):
    """Whether a program is there and not older than anything that it is made of."""
    if not os.access(built, os.X_OK):
        return False
    when = os.stat(built).st_mtime
    sources = (it for name in order for it in files(name))
    return os.stat(CRATES).st_mtime <= when and all(os.stat(it).st_mtime <= when for it in sources)
