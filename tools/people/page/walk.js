/* Walks the tree of a certificate that was checked. Nothing here touches the page, so that it runs in tests too. Scopes,
   variables, constraints and lines are counted from 0. A box is a list of ranges for each variable. */

const UNKNOWN = 1, AT_MOST = 2, EXACT = 3, BEATEN = 4; // what a node comes to; 0 is lost

// ---- Boxes.

const keep = (ranges, low, high) =>
  ranges.filter(([a, b]) => a <= high && low <= b).map(([a, b]) => [Math.max(a, low), Math.min(b, high)]);

function drop(ranges, low, high) {
  const found = [];
  for (const [a, b] of ranges) {
    if (a < low) found.push([a, Math.min(b, low - 1)]);
    if (b > high) found.push([Math.max(a, high + 1), b]);
  }
  return found;
}

const has = (ranges, value) => ranges.some(([a, b]) => a <= value && value <= b);
const count = (ranges) => ranges.reduce((total, [a, b]) => total + b - a + 1, 0);
const put = (box, x, ranges) => box.map((old, k) => (k === x ? ranges : old));
const least = (ranges) => ranges[0][0];

function* members(ranges) {
  for (const [a, b] of ranges) for (let v = a; v <= b; v++) yield v;
}

// ---- The tree.

class Tree {
  constructor(data) {
    this.data = data;
    this.goal = data.kinds.length;
    this.lines = data.certificate.trimEnd().split("\n").slice(2).map((line) => line.split(" "));
    this.k = 0;
    this.nodes = 0;
    this.root = this.node(0);
    this.box = data.domains;
  }

  number(k, at) {
    return Number(this.lines[k][at]);
  }

  node(scope) {
    const node = { line: this.k, scope, horizon: null, kind: "cases", steps: [], end: null, note: this.data.notes[this.nodes++] };
    if (this.lines[this.k][0] === "h") {
      node.horizon = { scope: this.number(this.k++, 1) - 1, steps: this.steps() };
      this.k++; // its dot
    }
    const letter = this.lines[this.k][0];
    if (letter === "t" || letter === "g") {
      node.kind = letter === "t" ? "stuck" : "goal";
      this.k++;
    } else {
      node.steps = this.steps();
      node.end = this.end(scope);
    }
    return node;
  }

  steps() {
    const found = [];
    for (; "pb".includes(this.lines[this.k][0]); this.k++) {
      const [letter, x, low, high, c] = this.lines[this.k];
      found.push({ x: x - 1, low: Number(low), high: Number(high), constraint: letter === "p" ? c - 1 : null });
    }
    return found;
  }

  end(scope) {
    const end = { line: this.k, kind: { e: "empty", x: "barred", n: "next", v: "branch" }[this.lines[this.k][0]] };
    this.k++;
    if (end.kind === "next") end.node = this.node(scope + 1);
    if (end.kind === "branch") {
      end.x = this.number(end.line, 1) - 1;
      end.cases = [];
      while (this.lines[this.k][0] !== ".") end.cases.push(this.oneCase(scope));
      this.k++;
    }
    end.stop = this.k;
    return end;
  }

  oneCase(scope) {
    const one = { line: this.k, high: null, kind: "taken", steps: [], end: null };
    if (this.lines[this.k][0] === "r") one.high = this.number(this.k++, 1);
    const letter = this.lines[this.k][0];
    if (letter === "s" || letter === "o") {
      one.kind = letter === "s" ? "skipped" : "open";
      this.k++;
    } else {
      one.steps = this.steps();
      one.end = this.end(scope);
    }
    one.stop = this.k;
    return one;
  }

  // What each step takes away, and the box after all.
  after(steps, box) {
    const gone = [];
    for (const step of steps) {
      gone.push({ step, ranges: keep(box[step.x], step.low, step.high), box });
      box = put(box, step.x, drop(box[step.x], step.low, step.high));
    }
    return { gone, box };
  }

  // The values that each case of a branch covers.
  parts(end, box) {
    let left = box[end.x];
    return end.cases.map((one) => {
      const low = least(left), high = one.high === null ? low : one.high;
      const part = keep(left, low, high);
      left = drop(left, low, high);
      return { one, part, box: put(box, end.x, part) };
    });
  }

  hasNext(node) {
    const look = (end) => end.kind === "next" || (end.kind === "branch" && end.cases.some((one) => one.end && look(one.end)));
    return look(node.end);
  }

  // Goes down a scope's own tree, by the case that `fits` at each branch, to its end or to a case that wasn't gone into; a
  // removal that `stops` it ends it there. `trail` has the places passed, `gone` the removals.
  down(node, box, fits, stops) {
    const trail = [], passed = [];
    let { steps, end } = node;
    for (;;) {
      const { gone, box: after } = this.after(steps, box), cut = gone.find(stops);
      passed.push(...gone);
      if (cut) return { kind: "removed", cut, gone: passed, trail };
      if (end.kind !== "branch") return { kind: end.kind, end, box: after, gone: passed, trail };
      const { one, box: inner } = this.parts(end, after).find((part) => fits(part, end.x));
      trail.push(one.line);
      if (one.kind !== "taken") return { kind: one.kind, box: inner, gone: passed, trail };
      box = inner;
      ({ steps, end } = one);
    }
  }

  // Where these values of the scope's variables lead: to an end, or to what takes them away. An earlier scope of the same
  // block may have taken a value away already: `before` has what was.
  follow(node, box, values, before) {
    const own = this.data.own[node.scope], takes = ({ step, ranges }) => own.includes(step.x) && has(ranges, values[step.x]);
    if (own.some((x) => !has(box[x], values[x]))) return { kind: "removed", cut: before.find(takes), gone: [], trail: [] };
    return this.down(node, box, (part, x) => has(part.part, values[x]), takes);
  }

  // The end whose line is picked by the note of the node, with its values.
  taken(node, box) {
    const line = node.note[1];
    return this.down(node, box, ({ one }) => one.line <= line && line < one.stop, () => false);
  }

  constraintsOf(scope) {
    return this.data.constraints.filter((it) => it.owner === scope);
  }

  failing(scope, values) {
    return this.constraintsOf(scope).filter((it) => !holds(it, values));
  }

  // The allowed tuples of a scope after these values; null where there are too many to look at.
  tuples(scope, values, most) {
    const own = this.data.own[scope];
    if (own.reduce((total, x) => total * count(this.data.domains[x]), 1) > most) return null;
    const constraints = this.constraintsOf(scope), found = [];
    const go = (k) => {
      if (k === own.length) {
        if (constraints.every((it) => holds(it, values))) found.push(own.map((x) => values[x]));
        return;
      }
      for (const v of members(this.data.domains[own[k]])) {
        values[own[k]] = v;
        go(k + 1);
      }
    };
    values = [...values];
    go(0);
    return found;
  }
}
