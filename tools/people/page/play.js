/* A play: one side by the certificate, the other by somebody's moves. Nothing here touches the page. */

class Play {
  constructor(tree) {
    this.tree = tree;
    this.side = tree.data.stated === "false" ? "forall" : "exists"; // the certificate's
    this.state = { node: tree.root, box: tree.box, values: [], gone: [], trail: [], events: [], over: null, hand: null };
    this.past = [];
    this.go();
  }

  step(leaf, by) {
    const s = this.state, { data } = this.tree, scope = s.node.scope;
    const values = [...s.values];
    for (const x of data.own[scope]) values[x] = least(leaf.box[x]);
    this.state = {
      ...s, node: leaf.end.node, box: leaf.box, values, gone: [...s.gone, ...leaf.gone],
      trail: [...s.trail, ...leaf.trail, `n${leaf.end.node.line}`],
      events: [...s.events, { scope, by, values: data.own[scope].map((x) => values[x]) }],
    };
  }

  // Goes on while the certificate moves.
  go() {
    for (;;) {
      const s = this.state, { node } = s, kind = this.tree.data.kinds[node.scope];
      if (node.scope === this.tree.goal) { // by `g`, or by `t` where a horizon stands at the goal
        const failing = this.tree.failing(node.scope, s.values);
        return this.finish({ kind: "goal", holds: !failing.length, failing });
      }
      if (node.kind === "stuck" || (kind !== this.side && !this.tree.hasNext(node))) {
        return this.finish({ kind: "stuck", scope: node.scope });
      }
      if (kind !== this.side) {
        this.state = { ...s, hand: node.scope };
        return;
      }
      this.step(this.tree.taken(node, s.box), "certificate");
    }
  }

  finish(over) {
    this.state = { ...this.state, over, hand: null };
  }

  // A move of the other side: null where it was made, else why it wasn't.
  move(tuple) {
    const s = this.state, { node } = s, own = this.tree.data.own[node.scope];
    const values = [...s.values];
    own.forEach((x, k) => (values[x] = tuple[k]));
    const outside = own.filter((x) => !has(this.tree.data.domains[x], values[x]));
    const failing = outside.length ? [] : this.tree.failing(node.scope, values);
    if (outside.length || failing.length) return { outside, failing, values };
    this.past.push(s);
    const found = this.tree.follow(node, s.box, values, s.gone);
    if (found.kind === "next") {
      this.step(found, "hand");
      this.go();
    } else {
      const event = { scope: node.scope, by: "hand", values: tuple };
      this.state = { ...s, values, trail: [...s.trail, ...found.trail], events: [...s.events, event] };
      this.finish({ kind: "hopeless", scope: node.scope, found });
    }
    return null;
  }

  back() {
    if (this.past.length) this.state = this.past.pop();
  }
}

// What `qecode play` writes for these moves: for tests.
function playText(tree, moves) {
  const play = new Play(tree), { data } = tree;
  let at = 0;
  while (!play.state.over) {
    const scope = play.state.hand, size = data.own[scope].length;
    if (moves.length - at < size) return `move missing at scope ${scope + 1}\n`;
    if (play.move(moves.slice(at, at + size))) return `move not allowed at scope ${scope + 1}\n`;
    at += size;
  }
  const { events, over } = play.state;
  const lines = events.map((it) => [it.scope + 1, data.kinds[it.scope], ...it.values].join(" "));
  lines.push(over.kind === "goal" ? `goal ${over.holds}` : `${over.kind} ${over.scope + 1}`);
  return [...lines, `unused ${moves.length - at}`].join("\n") + "\n";
}
