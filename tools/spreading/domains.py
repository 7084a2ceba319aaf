"""Sets of whole numbers as ascending spans with gaps between them."""

# What a text may list between braces.
LONGEST_LIST = 100_000


class Domain:
    __slots__ = ("spans",)

    def __init__(self, spans):
        self.spans = tuple(spans)

    @classmethod
    def of(cls, values):
        spans = []
        for value in sorted(set(values)):
            if spans and spans[-1][1] == value - 1:
                spans[-1] = spans[-1][0], value
            else:
                spans.append((value, value))
        return cls(spans)

    def __len__(self):
        return sum(high - low + 1 for low, high in self.spans)

    def __bool__(self):
        return bool(self.spans)

    def __eq__(self, other):
        return self.spans == other.spans

    def __hash__(self):
        return hash(self.spans)

    @property
    def low(self):
        return self.spans[0][0]

    @property
    def high(self):
        return self.spans[-1][1]

    def without(self, low, high):
        """The values that aren't from low to high."""
        return Domain(part for a, b in self.spans for part in ((a, min(b, low - 1)), (max(a, high + 1), b)) if part[0] <= part[1])

    def within(self, low, high):
        return Domain((max(a, low), min(b, high)) for a, b in self.spans if max(a, low) <= min(b, high))

    def parted(self, count):
        """The first so many values, and the rest."""
        first, rest = [], []
        for low, high in self.spans:
            some = min(high - low + 1, count)
            count -= some
            if some:
                first.append((low, low + some - 1))
            if low + some <= high:
                rest.append((low + some, high))
        return Domain(first), Domain(rest)

    def parts(self, most):
        """At most so many parts of about the same size, in order."""
        size, rest, parts = len(self), self, []
        many = min(most, size)
        for k in range(many):
            part, rest = rest.parted(size * (k + 1) // many - size * k // many)
            parts.append(part)
        return parts

    def has_text(self):
        return len(self.spans) == 1 or bool(self.spans) and len(self) <= LONGEST_LIST

    def text(self):
        if len(self.spans) == 1:
            return "{}..{}".format(*self.spans[0])
        return "{" + ",".join(str(value) for low, high in self.spans for value in range(low, high + 1)) + "}"

    def __repr__(self):
        return self.text() if self.spans else "{}"
