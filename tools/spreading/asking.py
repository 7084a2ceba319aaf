"""What a program is asked for a piece, as one text.

`qecode solve` is asked with the problem's text, narrowed. `qpart solve` is asked with the whole text and with words that keep the piece; they
stand in a comment that is put before the text, so that the text alone says what is asked, in a file, on another host, and for the
result's name.
"""
from spreading.problem import LONGEST_TEXT

MARK = b"%qpart "
# What a system may hand to a program in one word, and some room.
LONGEST_WORDS = 100_000


def text_of(tree, piece):
    """The text that asks for a piece."""
    words = words_of(tree.problem, piece) if tree.has_part else None
    if words:
        return MARK + " ".join(words).encode() + b"\n" + tree.problem.data
    text = tree.problem.narrowed(piece.box)
    return b"\n" + text if text.startswith(MARK) else text


def words_of(problem, piece):
    """The words that keep the piece of the whole; None where no words do, for the holes of its box."""
    words = []
    for name, domain, declared in zip(problem.names, piece.box, problem.domains):
        if domain != declared:
            if declared.within(domain.low, domain.high) != domain:
                return None
            words += ["--keep", name, str(domain.low), str(domain.high)]
    if piece.reached is not None:
        words += ["--reached", str(piece.reached)]
    size = sum(len(word) + 1 for word in words)
    return words if size <= LONGEST_WORDS and size + len(MARK) + len(problem.data) <= LONGEST_TEXT else None


def words_in(text):
    """The words for `qpart` that a text has; none where it's for `qecode`."""
    if not text.startswith(MARK):
        return []
    return text[len(MARK) : text.index(b"\n")].decode().split()


def asked(text, turns):
    """Whether the text is for `qpart`, and the words behind the text's file."""
    words = words_in(text)
    return bool(words), [*words, "--turns", str(turns)]
