"""Values as ascending lists of ranges (low, high): a domain may have a million values."""


def spans(values):
    """The ranges of ascending numbers."""
    if isinstance(values, range):
        return [(values[0], values[-1])] if values else []
    found = []
    for value in values:
        if found and value == found[-1][1] + 1:
            found[-1] = (found[-1][0], value)
        else:
            found.append((value, value))
    return found


def kept(ranges, low, high):
    return [(max(a, low), min(b, high)) for a, b in ranges if a <= high and low <= b]


def without(ranges, low, high):
    found = []
    for a, b in ranges:
        if a < low:
            found.append((a, min(b, low - 1)))
        if b > high:
            found.append((max(a, high + 1), b))
    return found
