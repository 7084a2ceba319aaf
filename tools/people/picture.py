"""What the values of a variable come to, as an SVG picture: bars side by side, and a table of them for readers who don't see it."""
from html import escape

from people.trials import best_of, is_best, is_number, shown

STYLE = """
  svg { color-scheme: light dark; font: 13px system-ui, sans-serif; background: var(--back);
        --back: #fff; --ink: #1c1c1c; --soft: #5f6368; --line: #d8d8d8; --full: #20639b; --light: #8fbbe0; --bad: #b3261e; }
  @media (prefers-color-scheme: dark) {
    svg { --back: #16181c; --ink: #ececec; --soft: #a5a9b0; --line: #3a3e45; --full: #7db8ec; --light: #3c6185; --bad: #ff8a80; }
  }
  text { fill: var(--ink); } .soft { fill: var(--soft); } .bad { fill: var(--bad); } .back { fill: var(--back); }
  .line { stroke: var(--line); } .zero { stroke: var(--soft); } .full { fill: var(--full); } .light { fill: var(--light); }
  .title { font-size: 17px; font-weight: 600; } .top { font-weight: 600; }
"""
TOP, HEIGHT, FOOT, EDGE = 102, 240, 64, 16
LEAST_WIDTH, LEAST_SLOT, MOST_SLOTS = 460, 90, 420
LETTER = 8  # pixels at most that a digit takes
MOST_TICKS = 6
BAR_ALONE = {"best": (0.12, 0.76, "full")}  # where a bar begins in its slot, how wide it is, and its look
BARS = {"best": (0.1, 0.4, "light"), "worst": (0.5, 0.4, "full")}


def picture(trial, rows):
    return Picture(trial, rows).text()


class Picture:
    """Lays out the bars; `marks` are the numbers at the left."""

    def __init__(self, trial, rows):
        self.trial, self.rows = trial, rows
        self.sense, self.wish = trial.problem.wish() or (None, None)
        self.bars = BARS if trial.worst else BAR_ALONE
        numbers = [0, *(it for row in rows for it in self.parts(row) if is_number(it))]
        self.marks = ticks(min(numbers), max(numbers)) if self.wish else range(2)
        self.left = 22 + LETTER * max(len(str(mark)) for mark in self.marks)
        self.slot = self.slot_width(max(len(str(it)) for it in numbers))
        self.width = max(self.left + self.slot * len(rows) + 24, LEAST_WIDTH)

    def parts(self, row):
        return [getattr(row, part) for part in self.bars]

    def slot_width(self, digits):
        labels = (LETTER + 1) * max(len(row.label) for row in self.rows) + LETTER
        return max((LETTER * digits + 10) * len(self.bars) + 6, labels, min(LEAST_SLOT, MOST_SLOTS // len(self.rows)))

    def y(self, number):
        return TOP + HEIGHT - (number - self.marks[0]) * HEIGHT / max(1, self.marks[-1] - self.marks[0])

    def title(self):
        return f"{self.wish} for each value of {self.trial.name}" if self.wish else f"Who wins, for each value of {self.trial.name}"

    def text(self):
        height = TOP + HEIGHT + FOOT
        size = f'viewBox="0 0 {self.width} {height}" width="{self.width}" height="{height}"'
        parts = [self.head(), *self.lines(), *(self.group(k, row) for k, row in enumerate(self.rows)), self.foot()]
        return (
            f'<svg xmlns="http://www.w3.org/2000/svg" {size} role="img" aria-labelledby="t d">\n'
            f'<title id="t">{escape(self.title())}</title>\n<desc id="d">{escape(self.summary())}</desc>\n<style>{STYLE}</style>\n'
            f'<rect width="{self.width}" height="{height}" class="back"/>\n' + "\n".join(parts) + "\n</svg>\n"
        )

    def summary(self):
        return "; ".join(self.told(row) for row in self.rows)

    def told(self, row):
        worst = f", {self.trial.worst_words()}: {shown(row.worst)}" if self.trial.worst else ""
        return f"{self.trial.name} = {row.label}: {shown(row.best)}{worst}"

    def head(self):
        better = {"minimize": "less is better", "maximize": "more is better"}.get(self.sense, "won or not")
        head = words(EDGE, 28, self.title(), "title")
        head += words(EDGE, 48, f"{self.trial.problem.name}; {better}; each answer checked", "soft")
        return head + (self.legend() if self.trial.worst else "")

    def legend(self):
        is_sure = self.trial.worst == "1"
        names = ["hoped for", "sure, at the worst ties"] if is_sure else ["as it is", self.trial.worst_words()]
        at = (EDGE, EDGE + 110)
        return "".join(box(x, 58, 12, 12, look) + words(x + 18, 69, name) for x, look, name in zip(at, ("light", "full"), names))

    def lines(self):
        """The numbers at the left, with a line each."""
        for mark in self.marks if self.wish else ():
            y, look = self.y(mark), "line" if mark else "zero"
            line = f'<line x1="{self.left}" x2="{self.width - EDGE}" y1="{y:.1f}" y2="{y:.1f}" class="{look}"/>'
            yield line + words(self.left - 8, y + 4, mark, "soft", "end")

    def group(self, k, row):
        """The bars of one value, with its label below and all of it in a title."""
        x = self.left + self.slot * k
        bars = "".join(self.bar(x, row, part) for part in self.bars)
        label = words(x + self.slot / 2, TOP + HEIGHT + 20, row.label, "", "middle")
        return f"<g><title>{escape(self.told(row))}</title>{bars}{label}</g>"

    def bar(self, x, row, part):
        it, (at, share, look) = getattr(row, part), self.bars[part]
        middle = x + self.slot * (at + share / 2)
        if it is None or it is False:
            return words(middle, self.y(0) - 5, "×" if it is False else "?", "bad", "middle")
        top, low = sorted((self.y(0), self.y(int(it))))
        is_top = is_best(row, part, best_of(self.rows, part, self.sense))
        above = self.y(int(it)) + (-5 if it >= 0 else 15)
        number = words(middle, above, it if is_number(it) else "won", "top" if is_top else "soft", "middle")
        return box(x + self.slot * at, top, self.slot * share, max(1.5, low - top), look) + number

    def foot(self):
        found = [it for row in self.rows for it in self.parts(row)]
        marks = "; × can't win" * any(it is False for it in found) + "; ? left open" * any(it is None for it in found)
        middle = self.left + self.slot * len(self.rows) / 2
        return words(middle, TOP + HEIGHT + 44, f"{self.trial.name}{marks}", "soft", "middle")


def ticks(low, high):
    """Round numbers from at most low to at least high."""
    span, step = max(1, high - low), 1
    while span / step > MOST_TICKS:
        step = step * 2 if str(step)[0] in "15" else step * 5 // 2
    return range(low // step * step, -(-high // step) * step + 1, step)


def words(x, y, text, look="", anchor=""):
    look, anchor = f' class="{look}"' * bool(look), f' text-anchor="{anchor}"' * bool(anchor)
    return f'<text x="{x:.1f}" y="{y:.1f}"{anchor}{look}>{escape(str(text))}</text>'


def box(x, y, width, height, look):
    return f'<rect x="{x:.1f}" y="{y:.1f}" width="{width:.1f}" height="{height:.1f}" class="{look}"/>'
