/* The tree. A part of it is made when it is opened first. */

const MOST_CASES = 60;
const TREE_WORDS = "How the answer is shown, choice by choice. Open a case to see what follows from it and why values went;"
  + " “taken” marks the choice that a strategy takes.";
const places = new Map(); // from a line, or `n` and a node's line, to what shows it, or to what brings that about

function fold(key, summary, make) {
  const it = el("details", {}, el("summary", {}, ...summary));
  let made = false;
  it.fill = () => {
    if (!made) it.append(...make());
    made = true;
  };
  it.addEventListener("toggle", () => it.open && it.fill());
  places.set(key, it);
  return it;
}

// ---- A node.

function nodeParts(node, box) {
  const body = el("div", {}, ...horizonParts(node, box), ...scopeParts(node, box));
  places.set(`n${node.line}`, body);
  return [body];
}

function horizonParts(node, box) {
  if (!node.horizon) return [];
  const until = node.horizon.scope === tree.goal ? "the goal" : `scope ${node.horizon.scope + 1}`;
  const words = `Looking ahead: nobody can get through all rules from scope ${node.scope + 1} to ${until}.`;
  return [el("div", { class: "plain" }, words, stepList(tree.after(node.horizon.steps, box).gone))];
}

function scopeParts(node, box) {
  if (node.scope === tree.goal) return [goalLine(box)];
  const head = `Scope ${node.scope + 1}: ${side(node.scope)}${wishOf(node.scope)}`;
  if (node.kind === "stuck") return [el("p", { class: "plain" }, `${head}: no move, as was seen ahead.`)];
  return [el("p", { class: "scope" }, el("b", {}, head)), ...endParts(node, node.steps, node.end, box)];
}

function goalLine(box) {
  const failing = tree.failing(tree.goal, box.map(least));
  if (!failing.length) return el("p", { class: "plain" }, el("span", { class: "good" }, "The goal holds."));
  return el("p", { class: "plain" }, el("span", { class: "bad" }, "The goal doesn’t hold: "), ...failingWords(failing));
}

// ---- The end of a part of a scope's own tree, after its removals.

function endParts(node, steps, end, box) {
  const { gone, box: after } = tree.after(steps, box);
  const parts = { empty: emptyParts, barred: barredParts, next: nextParts, branch: caseList }[end.kind](node, end, after);
  return [stepList(gone), ...parts].filter(Boolean);
}

function emptyParts(node, end, box) {
  const x = box.findIndex((some) => !some.length);
  return [el("p", { class: "plain" }, `So ${data.names[x]} has no value left: nothing is to be looked at here.`)];
}

function barredParts(node, end, box) {
  const values = box.map((some) => (some.length ? least(some) : null));
  return [el("p", { class: "plain" }, "Not allowed: ", ...failingWords(tree.failing(node.scope, values)))];
}

function nextParts(node, end, box) {
  const own = data.own[node.scope], isSaid = own.length === 1 && end !== node.end; // by the case above
  if (isSaid) return nodeParts(end.node, box);
  const what = own.length ? `${isExists(node.scope) ? "Choice" : "Move"}: ` : "Nothing to choose. ";
  const line = el("p", { class: "plain" }, what, ...own.map((x) => chip(x, least(box[x]))), tag(outcome(end.node.note, end.node.scope)));
  return [line, ...nodeParts(end.node, box)];
}

// ---- The cases of a branch.

function nodesOf(one) {
  const found = [], look = (end) => {
    if (end.kind === "next") found.push(end.node);
    if (end.kind === "branch") end.cases.forEach((it) => it.end && look(it.end));
  };
  look(one.end);
  return found;
}

const isExact = (node) => Array.isArray(node.note) && node.note[0] === EXACT;

// A case in a word: what its only end comes to, or the best of them for its owner.
function caseTag(node, one) {
  const nodes = nodesOf(one), scope = node.scope + 1;
  if (!nodes.length) return { text: "nothing left", look: "soft" };
  const outcomes = nodes.map((it) => outcome(it.note, scope)), exact = nodes.filter(isExact);
  if (new Set(outcomes.map((it) => it.text)).size === 1) return outcomes[0];
  if (isExists(node.scope) && exact.length) {
    const [asked] = data.asked[scope];
    return asked ? outcome([EXACT, 0, 0, bestValue(exact, asked[0])], scope) : { text: "won", look: "good" };
  }
  if (!isExists(node.scope) && outcomes.some((it) => it.text === "lost")) return { text: "lost", look: "bad" };
  return { text: plural(nodes.length, "way"), look: "soft" };
}

function bestValue(nodes, sense) {
  const values = nodes.map((it) => it.note[3]);
  return values.reduce((a, b) => ((sense === "minimize" ? a <= b : a >= b) ? a : b));
}

// As good for the owner of this scope as what is taken, so that it may be done in its place.
function isTie(node, one) {
  if (!data.conditions[node.scope] || !isExact(node)) return false;
  return nodesOf(one).some((it) => isExact(it) && it.note[3] === node.note[2]);
}

function caseShown(node, end, { one, part, box }) {
  const label = el("span", { class: "chip" }, `${data.names[end.x]} = `, el("b", {}, ranges(end.x, part)));
  const more = () => endParts(node, one.steps, one.end, box);
  if (one.kind === "taken") return fold(one.line, [label, tag(caseTag(node, one)), caseMark(node, one)], more);
  const winner = isExists(node.scope) ? "the player has a choice" : "the opponent has a move";
  const why = one.kind === "skipped" ? `left out: ${winner} that wins` : "left open: the turns were used up";
  const it = el("div", { class: "plain soft" }, label, why);
  places.set(one.line, it);
  return it;
}

function caseMark(node, one) {
  const pick = isExact(node) || (Array.isArray(node.note) && node.note[0] === BEATEN) ? node.note[1] : -1;
  if (one.line <= pick && pick < one.stop) return el("b", {}, " ← taken");
  return isTie(node, one) ? el("span", { class: "tag tie" }, "a tie: its owner likes it as much") : "";
}

function caseList(node, end, box) {
  const parts = tree.parts(end, box);
  if (parts.length <= MOST_CASES) return parts.map((part) => caseShown(node, end, part));
  const list = el("div"), more = el("button", { type: "button", onclick: () => showTo(shown + MOST_CASES - 1) });
  let shown = 0;
  const showTo = (k) => {
    while (shown < parts.length && shown <= k) more.before(caseShown(node, end, parts[shown++]));
    more.textContent = `Show more (${parts.length - shown} left)`;
    if (shown === parts.length) more.remove();
  };
  list.append(more);
  showTo(MOST_CASES - 1);
  parts.forEach(({ one }, k) => places.has(one.line) || places.set(one.line, { reveal: () => showTo(k) }));
  return [list];
}

// ---- Where the play stands in the tree.

function placeOf(key) {
  const it = places.get(key);
  if (it && it.reveal) it.reveal();
  return places.get(key);
}

function markHere() {
  document.querySelectorAll(".here").forEach((it) => it.classList.remove("here"));
  for (const key of play.state.trail) {
    const it = places.get(key);
    if (it && it.classList && typeof key === "number") it.classList.add("here");
  }
}

// Opens the tree along the play, as far as it was gone through.
function openTrail() {
  let last = null;
  for (const key of play.state.trail) {
    const it = placeOf(key);
    if (!it) break;
    if (it.fill) {
      it.fill();
      it.open = true;
    }
    last = it;
  }
  return last;
}

function showHere() {
  const last = openTrail();
  markHere();
  (last || byId("tree")).scrollIntoView({ block: "center" });
  const summary = last && last.querySelector(":scope > summary");
  if (summary) summary.focus({ preventScroll: true });
}

function showTree() {
  byId("tree-body").append(el("p", { class: "soft" }, TREE_WORDS), ...nodeParts(tree.root, tree.box));
}
