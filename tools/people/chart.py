"""What the values of a variable come to, as a table with bars on a terminal."""
import shutil

from people.trials import best_of, is_best, is_number, shown

PAPER = 100  # columns where the output is no terminal
LEAST_BAR, MOST_BAR = 10, 60
MOST_LABELS = 8


def tell(trial, rows, out):
    columns = columns_of(trial, rows)
    widths = [max(map(len, column)) for column in columns]
    bars = bars_of(trial, rows, bar_width(widths, out))
    for k, cells in enumerate(zip(*columns)):
        line = "  ".join(cell.rjust(width) for cell, width in zip(cells, widths))
        print(f"  {line}  {bars[k]}".rstrip(), file=out)
    print(file=out)
    for line in conclusions(trial, rows):
        print(line, file=out)


def parts_of(trial):
    """What stands in a row, by the name of its field, with its title."""
    wish = trial.problem.wish()
    return [("best", wish[1] if wish else "outcome"), *([("worst", trial.worst_words())] if trial.worst else [])]


def columns_of(trial, rows):
    sense, _ = trial.problem.wish() or (None, None)
    columns = [[trial.name, *(row.label for row in rows)]]
    for part, title in parts_of(trial):
        best = best_of(rows, part, sense)
        marks = [" *" if is_number(best) and is_best(row, part, best) else "  " for row in rows]
        columns.append([title + "  ", *(shown(getattr(row, part)) + mark for row, mark in zip(rows, marks))])
    return columns


def bar_width(widths, out):
    room = shutil.get_terminal_size((PAPER, 24)).columns if out.isatty() else PAPER
    return max(LEAST_BAR, min(MOST_BAR, room - sum(widths) - 2 * len(widths) - 3))


def bars_of(trial, rows, width):
    """A bar for each line, the head's too; none where the outcome is no number."""
    if not trial.problem.wish():
        return [""] * (len(rows) + 1)
    numbers = [0, *(it for row in rows for it in (row.best, row.worst) if is_number(it))]
    return ["", *(bar(row, min(numbers), max(numbers), width) for row in rows)]


def bar(row, low, high, width):
    """Cells from 0 to the number nearer to it are full, those on to the other one are light."""
    numbers = sorted((it for it in (row.best, row.worst) if is_number(it)), key=abs)
    if not numbers:
        return {None: "", True: "won", False: "×"}[row.best]
    near, far = numbers[0], numbers[-1]
    near = 0 if near * far < 0 else near
    scale = width / max(1, high - low)
    zero = round(-low * scale)
    cells = [" "] * (width + 1)
    for number, char in (far, "░"), (near, "█"):
        at = round((number - low) * scale)
        cells[min(zero, at) : max(zero, at)] = char * abs(at - zero)
    if low < 0:
        cells.insert(zero, "│")
    return "".join(cells).rstrip() or "▏"


def conclusions(trial, rows):
    yield from best_lines(trial, rows)
    left = [row.label for row in rows if row.best is None or trial.worst and row.worst is None]
    if left:
        yield f"Left open, for want of turns (--turns): {', '.join(left)}."
    total = sum(row.size for row in rows)
    yield f"Each answer was confirmed by check; {total:,} bytes of certificates were read and not kept."


def best_lines(trial, rows):
    wish = trial.problem.wish()
    if not wish:
        yield best_line(trial, rows, "best", None, "Won")
        if trial.worst:
            yield best_line(trial, rows, "worst", None, "Won at the worst ties too")
        return
    sense, name = wish
    goal = {"minimize": "least", "maximize": "greatest"}[sense]
    is_sure = trial.worst == "1"
    yield best_line(trial, rows, "best", sense, f"The {goal} value of {name}" + (" that may be hoped for is" if is_sure else " is"))
    if trial.worst:
        yield best_line(trial, rows, "worst", sense, f"What is sure is {name} =" if is_sure else f"{trial.worst_words().capitalize()} it is")
        near, far = ("sure", "hoped for") if sense == "maximize" else ("hoped for", "what it may come to")
        yield f"Bars: █ {near}, ░ {far}." if is_sure else "Bars: █ the nearer to 0 of both numbers, ░ on to the other one."
    elif trial.problem.has_followers():
        yield "Later owners have wishes of their own; their ties are counted in favour here. --worst 1 tells what is sure."


def best_line(trial, rows, part, sense, words):
    best = best_of(rows, part, sense)
    if all(getattr(row, part) is None for row in rows):
        return "Nothing was settled."
    if best is None:
        return f"No value of {trial.name} that was settled wins{', at the worst ties' if part == 'worst' else ''}."
    where = [row.label for row in rows if is_best(row, part, best)]
    labels = ", ".join(where) if len(where) <= MOST_LABELS else f"{len(where)} values, the first {where[0]}"
    return f"{words}{f' {best},' if is_number(best) else ''} at {trial.name} = {labels}."


def table(trial, rows, out):
    """The same for other programs: a head and a line for each value, parted by tabs."""
    parts = [part for part, _ in parts_of(trial)]
    print("\t".join([trial.name, *parts]), file=out)
    for row in rows:
        print("\t".join([row.label, *(shown(getattr(row, part)) for part in parts)]), file=out)
