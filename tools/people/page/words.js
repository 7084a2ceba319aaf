/* What is told in words, and how it gets onto the page: all text goes in as text, never as markup. */

const data = JSON.parse(document.getElementById("data").textContent);
const tree = new Tree(data);
const MOST_KNOWN = 6, MOST_STEPS = 4;

const byId = (id) => document.getElementById(id);

function el(name, attributes = {}, ...children) {
  const it = document.createElement(name);
  for (const [key, value] of Object.entries(attributes)) {
    if (key.startsWith("on")) it.addEventListener(key.slice(2), value);
    else if (value !== null && value !== false) it.setAttribute(key, value === true ? "" : value);
  }
  it.append(...children.filter((child) => child !== null && child !== undefined));
  return it;
}

// ---- Numbers, values, scopes.

const minus = (n) => String(n).replace("-", "−");
const plural = (n, one) => `${n.toLocaleString("en")} ${one}${n === 1 ? "" : "s"}`;
const capital = (text) => text[0].toUpperCase() + text.slice(1);
const value = (x, v) => (data.isBool[x] ? ["false", "true"][v] : minus(v));
const chip = (x, v) => el("span", { class: "chip" }, `${data.names[x]} = `, el("b", {}, value(x, v)));
const chips = (scope, values) => data.own[scope].map((x) => chip(x, values[x]));
const tag = ({ text, look }) => el("span", { class: `tag ${look}` }, text);
const isExists = (scope) => data.kinds[scope] === "exists";
const side = (scope) => (isExists(scope) ? "the player’s side" : "the opponent");
const best = (sense) => (sense === "minimize" ? "least" : "greatest");

function ranges(x, some) {
  return some.map(([a, b]) => (a === b ? value(x, a) : data.isBool[x] ? "false, true" : `${minus(a)}..${minus(b)}`)).join(", ");
}

const assigned = (xs, values) => xs.map((x) => `${data.names[x]} = ${value(x, values[x])}`).join(", ");

function wishOf(scope) {
  const wish = data.conditions[scope];
  return wish ? `, wants the ${best(wish[0])} ${wish[1]}` : "";
}

// ---- Constraints, and what they take away.

const whereOf = (constraint) => (constraint.owner === tree.goal ? "of the goal" : `of scope ${constraint.owner + 1}`);

function ruleLink(c) {
  const constraint = data.constraints[c];
  const title = [constraint.call, constraint.comment].filter(Boolean).join(" % ");
  return el("span", {}, el("a", { href: `#rule-${c + 1}`, title }, `constraint ${c + 1}`), `, ${constraint.formula},`);
}

const linkTo = (constraint) => ruleLink(data.constraints.indexOf(constraint));
const failingWords = (failing) => failing.flatMap((it) => [linkTo(it), " doesn’t hold. "]);

// What a constraint knows: the values left to its other variables.
function known(c, box, but) {
  const xs = variablesOf(data.constraints[c]).filter((x) => x !== but && box[x].length);
  const shown = xs.slice(0, MOST_KNOWN).map((x) => `${data.names[x]} = ${ranges(x, box[x])}`);
  return shown.length ? ` (${shown.join(", ")}${xs.length > MOST_KNOWN ? ", …" : ""})` : "";
}

function stepLine({ step, ranges: gone, box }) {
  const what = `${data.names[step.x]} = ${ranges(step.x, gone)}`;
  if (step.constraint === null) return el("li", {}, `${what}: not looked at, since nothing better than what an earlier choice reached.`);
  return el("li", {}, ruleLink(step.constraint), ` leaves ${what} no chance${known(step.constraint, box, step.x)}.`);
}

function stepList(gone) {
  if (!gone.length) return null;
  const list = el("ul", { class: "steps" }, ...gone.map(stepLine));
  if (gone.length <= MOST_STEPS) return list;
  return el("details", {}, el("summary", { class: "soft" }, `${gone.length} removals, with their reasons`), list);
}

// ---- What a node comes to, as seen from the scope before it.

function outcome(note, scope) {
  if (note === 0 || note[0] === BEATEN) return { text: "lost", look: "bad" };
  if (note === UNKNOWN) return { text: "not settled", look: "soft" };
  const asked = data.asked[scope];
  if (note[0] === AT_MOST) {
    const [sense, name] = asked[0];
    return { text: `${name} at ${sense === "minimize" ? "least" : "most"} ${minus(note[1])}`, look: "soft" };
  }
  const reached = note.slice(3).map((v, k) => `${asked[k][1]} = ${minus(v)}`);
  return { text: [...new Set(reached)].join(", ") || "won", look: "good" };
}
