"""The certificate of the whole, from the certificates of its pieces."""
from spreading.certificates import as_case, certificate_in, opened, turns_of

MOST_TURNS = 10_000_000


def head_of(tree):
    """What the certificate of a settled tree states."""
    root = tree.root
    return root.kind if root.value is None else f"{root.kind} {root.value}"


def write_whole(tree, path):
    """Writes the certificate of the whole to a file. What it states is not to be believed before it is checked."""
    with open(path, "wb") as file:
        for chunk in certificate(tree):
            file.write(chunk)


def certificate(tree):
    root = tree.root
    if root.is_settled():
        return settled(tree) if root.children else copied(root.file)
    return left_open(tree)


def copied(path):
    with opened(path) as data:
        yield from certificate_in(data)


def settled(tree):
    yield b"qcert 2\n%s\n" % head_of(tree).encode()
    yield from Merge(tree).split(tree.root, 0)


def left_open(tree):
    """Of an open outcome as much is told as an open certificate may have turns: pieces in order, as long as they fit. Where none
    fits, what the whole began with stands for itself."""
    if tree.root.children is None:
        yield from copied(tree.root.file)
        return
    shut = {leaf.path for leaf in tree.leaves()}
    turns = turns_of(Merge(tree, shut).split(tree.root, 0)) - 1
    for leaf in tree.leaves():
        if leaf.file or leaf.is_settled():
            more = turns_of(Merge(tree).piece(leaf, leaf.level))
            if turns + more <= MOST_TURNS:
                turns += more
                shut.remove(leaf.path)
    if not turns:
        yield from copied(tree.root.opener)
        return
    yield b"qcert 2\nopen %d\n" % turns
    yield from Merge(tree, shut).split(tree.root, 0)


def left_out(parts, letter):
    """The lines of values that no case goes into."""
    if not parts:
        return []
    return ([b"r %d\n" % parts[-1].high] if sum(map(len, parts)) > 1 else []) + [letter]


class Merge:
    """The lines of a tree of pieces, in chunks. The pieces whose paths are in `shut` are left open by one line."""

    def __init__(self, tree, shut=frozenset()):
        self.tree, self.shut = tree, shut

    def piece(self, piece, level):
        if piece.bound:
            yield piece.bound
        if piece.children is not None:
            yield from self.split(piece, level)
        elif piece.file is None:  # its bound leaves nothing of it
            yield b"e\n"
        else:
            with opened(piece.file) as data:
                yield from as_case(self.tree.problem, piece.box, level, data)

    def split(self, piece, level):
        for scope, steps in enumerate(piece.steps):
            if scope > level:
                yield b"n\n"
            yield from steps
        yield b"v %d\n" % (piece.branch + 1)
        yield from self.cases(piece)
        yield b".\n"

    def cases(self, piece):
        """Each part as a case; those in a row that aren't needed are left out together."""
        needed = self.tree.needed(piece) if piece.is_settled() else piece.children
        spared = []
        for child in piece.children:
            if child not in needed:
                spared.append(child.part)
                continue
            yield from left_out(spared, b"s\n")
            spared = []
            if child.path in self.shut:
                yield from left_out([child.part], b"o\n")
                continue
            if len(child.part) > 1:
                yield b"r %d\n" % child.part.high
            yield from self.piece(child, piece.scope)
        yield from left_out(spared, b"s\n")
