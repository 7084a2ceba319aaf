"""Reads an assignment from the certificate of a problem of one scope of the player.

It goes over the lines once with a box, and stops at a leaf that is won, and reaches the optimum where there is one. What it
reads isn't trusted: the caller evaluates the assignment.
"""


class Box:
    """For each variable the values that are left, as bits from its least value on, and what they were before."""

    def __init__(self, domains):
        self.low = [domain[0] for domain in domains]
        self.left = [bits_of(domain) for domain in domains]
        self.trail = []

    def put(self, at, bits):
        self.trail.append((at, self.left[at]))
        self.left[at] = bits

    def back(self, length):
        while len(self.trail) > length:
            at, bits = self.trail.pop()
            self.left[at] = bits

    def take_out(self, at, low, high):
        low, high = max(low - self.low[at], 0), high - self.low[at]
        if high >= low:
            self.put(at, self.left[at] & ~(((1 << (high - low + 1)) - 1) << low))

    def values(self):
        """The values where each variable has one, or None."""
        if any(bits == 0 or bits & (bits - 1) for bits in self.left):
            return None
        return [low + bits.bit_length() - 1 for low, bits in zip(self.low, self.left)]


def bits_of(domain):
    low = domain[0]
    if len(domain) == domain[-1] - low + 1:
        return (1 << len(domain)) - 1
    return sum(1 << (value - low) for value in domain)


class Branch:
    """A branch that isn't done: its variable, the values for which cases are owed, and the trail before it."""

    def __init__(self, at, owed, trail):
        self.at, self.owed, self.trail = at, owed, trail

    def take(self, box, upto):
        """Takes the values of the next case: the least one, or all up to a value."""
        if upto is None:
            taken = self.owed & -self.owed
        else:
            taken = self.owed & ((1 << (upto - box.low[self.at] + 1)) - 1)
        self.owed &= ~taken
        return taken


# How lines begin (docs/certificates.md).
REMOVALS, ENDS, NOT_GONE_INTO = "pb", "gext", "so"


def assignment(lines, domains, target=None, best=None):
    """The values at the first won leaf at which the variable `target` has the value `best`; None where there is none.

    Domains are sequences of values, and lines those after the outcome.
    """
    box, branches = Box(domains), []
    is_at_case = is_leaf = False
    upto = horizon = None
    for line in lines:
        op = line[0]
        if horizon is not None:
            if op == ".":
                box.back(horizon)
                horizon = None
            continue
        if is_at_case:
            branch = branches[-1]
            if op == "r":
                upto = int(line[2:])
                continue
            if op == ".":
                box.back(branches.pop().trail)
                is_at_case = bool(branches)
                continue
            taken, upto = branch.take(box, upto), None
            if op in NOT_GONE_INTO:
                continue
            is_at_case = False
            box.back(branch.trail)
            box.put(branch.at, taken)
        if op in REMOVALS:
            at, low, high = map(int, line.split()[1:4])
            box.take_out(at - 1, low, high)
        elif op == "n":
            is_leaf = True
        elif op == "v":
            at = int(line[2:]) - 1
            branches.append(Branch(at, box.left[at], len(box.trail)))
            is_at_case = True
        elif op == "h":
            horizon = len(box.trail)
        elif op in ENDS:
            if op == "g" and is_leaf:
                values = box.values()
                if values and (target is None or values[target] == best):
                    return values
            is_leaf, is_at_case = False, bool(branches)
    return None
