/* Playing against the answer. `picked` has the values that were picked for the scope that is to be played, `note` why they
   can't be played. */

const MOST_BUTTONS = 40, MOST_TRIED = 20000;
const FOLDS = { sum: "the sum", least: "the least", greatest: "the greatest" };

let play = null, note = null, picked = {};

function reset() {
  picked = {};
  note = null;
}

function startPlay(focus) {
  play = new Play(tree);
  reset();
  showPlay(focus);
}

// ---- Why something isn't allowed.

function whyRefused({ outside, failing, values }) {
  if (outside.length) return [`${outside.map((x) => data.names[x]).join(", ")}: not a value of its domain.`];
  return failing.map((it) => el("span", {}, "Not allowed: ", linkTo(it), ` doesn’t hold with ${assigned(variablesOf(it), values)}. `));
}

// Whether a constraint holds for some values of a scope's variables out of these domains.
function canHold(constraint, own, domains, values) {
  const seen = new Set(variablesOf(constraint)), filled = [...values];
  const go = (k) => {
    if (k === own.length) return holds(constraint, filled);
    const some = seen.has(own[k]) ? domains[k] : [[least(domains[k]), least(domains[k])]];
    for (const v of members(some)) {
      filled[own[k]] = v;
      if (go(k + 1)) return true;
    }
    return false;
  };
  return go(0);
}

// Which constraint alone forbids what is picked; where none does, all of them together do.
function whyUnfit(scope, values) {
  const own = data.own[scope], domains = own.map((x) => (x in picked ? [[picked[x], picked[x]]] : data.domains[x]));
  if (domains.reduce((total, some) => total * count(some), 1) > MOST_TRIED) return ["Not allowed, with what is picked so far."];
  const found = tree.constraintsOf(scope).filter((it) => !canHold(it, own, domains, values));
  const so = assigned(own.filter((x) => x in picked), values);
  if (!found.length) return [`${so}: its rules taken together don’t allow that.`];
  return found.map((it) => {
    const before = assigned(variablesOf(it).filter((x) => !own.includes(x)), values);
    return el("span", {}, `${so} isn’t allowed: `, linkTo(it), ` can’t hold then${before ? ` (${before})` : ""}. `);
  });
}

// ---- How a play ends.

// Where the first scope's wish is folded over the opponent's moves: what this play brings to it.
function comesTo() {
  const wish = data.conditions[0], number = minus(data.stated.split(" ")[1]);
  if (!wish) return "";
  const fold = data.aggregates.find((it) => it.name === wish[1]), x = fold ? data.names.indexOf(fold.target) : -1;
  if (x < 0) return ` ${wish[1]} is ${number}.`;
  return ` ${fold.target} is ${minus(play.state.values[x])} here; ${FOLDS[fold.fold]} over all that the opponent may do is ${fold.name} = ${number}.`;
}

function goalWords(over) {
  if (over.holds) return el("p", { class: "note good" }, "The goal holds: the player has won.", comesTo());
  return el("p", { class: "note bad" }, "The goal doesn’t hold: the opponent has won. ", ...failingWords(over.failing));
}

function stuckWords(over) {
  const { node, box } = play.state, isWon = data.stated !== "false", scope = over.scope + 1;
  const words = isWon
    ? `The opponent has no move at scope ${scope} that its rules allow: the player has won.`
    : `At scope ${scope} no choice is left with which the player could still win: the opponent has won.`;
  const why = node.kind === "stuck" ? [] : tree.after(node.steps, box).gone;
  return el("div", { class: `note ${isWon ? "good" : "bad"}` }, el("p", {}, words), stepList(why.length ? why : horizonOf(node)));
}

function hopelessWords({ found }) {
  const words = "That is allowed, but nobody can get through the player’s next rules after it: the opponent has won.";
  const why = found.cut ? el("ul", { class: "steps" }, stepLine(found.cut)) : stepList(found.gone);
  return el("div", { class: "note bad" }, el("p", {}, words), why);
}

const overWords = (over) => ({ goal: goalWords, stuck: stuckWords, hopeless: hopelessWords })[over.kind](over);

// The horizon that told that this scope can't be passed stands at an earlier node of the play.
function horizonOf(node) {
  const places = [...play.past.map((s) => [s.node, s.box]), [node, play.state.box]];
  const last = places.filter(([at]) => at.horizon && at.horizon.scope === node.scope).pop();
  return last ? tree.after(last[0].horizon.steps, last[1]).gone : [];
}

// ---- The form.

function logLine({ scope, by, values }) {
  const named = [];
  data.own[scope].forEach((x, k) => (named[x] = values[k]));
  const who = `${scope + 1}. ${capital(side(scope))}${by === "hand" ? " (you)" : ""}`;
  return el("li", {}, el("span", { class: "who" }, who), ...(values.length ? chips(scope, named) : ["nothing to choose"]));
}

function showPlay(focus = false) {
  const { events, over } = play.state, body = byId("play-body");
  const hand = data.stated === "false" ? "the player" : "the opponent";
  const intro = el("p", { class: "soft" }, `You are ${hand}; the certificate answers. Struck values aren’t allowed: pick one to see why.`);
  body.replaceChildren(intro, el("ol", { id: "log" }, ...events.map(logLine)), over ? "" : form());
  // This one stays in the page: what a screen reader tells is what changes in it.
  byId("live").replaceChildren(...(over ? [overWords(over)] : []), ...(note ? [el("p", { class: "note bad" }, ...note)] : []));
  byId("play-buttons").replaceChildren(
    el("button", { type: "button", onclick: takeBack, disabled: !play.past.length }, "Take back"),
    el("button", { type: "button", onclick: () => startPlay(true), disabled: !play.past.length }, "Start again"),
    el("button", { type: "button", onclick: showHere }, "Show it in the tree"));
  markHere();
  const first = body.querySelector("form input, form button") || byId("play-buttons").querySelector("button:not(:disabled)");
  if (focus) first.focus({ preventScroll: true });
}

function takeBack() {
  play.back();
  reset();
  showPlay(true);
}

// Whether some allowed tuple goes with what is picked, where x has the value v; where there are too many to look at, it may be.
function fits(tuples, own, x, v) {
  const wanted = (y) => (y === x ? v : picked[y]);
  return !tuples || tuples.some((tuple) => own.every((y, k) => wanted(y) === undefined || tuple[k] === wanted(y)));
}

function form() {
  const { hand: scope, values } = play.state, own = data.own[scope], tuples = tree.tuples(scope, values, MOST_TRIED);
  const title = `Scope ${scope + 1}: ${own.length ? "your choice" : "nothing to choose"}`;
  const field = (x) => (count(data.domains[x]) <= MOST_BUTTONS ? buttons(tuples, own, x) : numberField(x));
  const fields = own.map((x) => el("fieldset", {}, el("legend", {}, data.names[x]), field(x)));
  const submit = el("button", { class: "main", type: "submit" }, own.length ? "Play this" : "Go on");
  return el("form", { onsubmit: played }, el("h3", {}, title), ...fields, el("div", { class: "buttons" }, submit));
}

function buttons(tuples, own, x) {
  return el("div", { class: "values" }, ...[...members(data.domains[x])].map((v) => {
    const ok = fits(tuples, own, x, v), label = `${data.names[x]} = ${value(x, v)}${ok ? "" : ", not allowed"}`;
    const input = el("input", { type: "radio", name: `v${x}`, value: v, checked: picked[x] === v, "aria-label": label, onchange: () => pick(x, v) });
    return el("label", { class: ok ? "value" : "value no" }, input, el("span", {}, value(x, v)));
  }));
}

function numberField(x) {
  const domain = data.domains[x], most = domain[domain.length - 1][1];
  const changed = (event) => {
    if (event.target.value === "") delete picked[x];
    else picked[x] = Number(event.target.value);
  };
  const limits = { value: x in picked ? picked[x] : null, min: least(domain), max: most };
  const input = el("input", { type: "number", name: `v${x}`, ...limits, "aria-label": data.names[x], oninput: changed });
  return el("div", {}, input, el("span", { class: "soft" }, ` from ${ranges(x, domain)}`));
}

function pick(x, v) {
  const { hand: scope, values } = play.state, own = data.own[scope];
  picked[x] = v;
  const filled = [...values];
  for (const y of own) if (y in picked) filled[y] = picked[y];
  note = fits(tree.tuples(scope, values, MOST_TRIED), own, x, v) ? null : whyUnfit(scope, filled);
  showPlay();
  const again = byId("play-body").querySelector(`input[name="v${x}"]:checked`);
  if (again) again.focus({ preventScroll: true });
}

function played(event) {
  event.preventDefault();
  const own = data.own[play.state.hand], left = own.filter((x) => !Number.isInteger(picked[x]));
  const refused = left.length ? null : play.move(own.map((x) => picked[x]));
  if (left.length) note = [`Pick a value for ${left.map((x) => data.names[x]).join(", ")}.`];
  else if (refused) note = whyRefused(refused);
  else reset();
  showPlay(!note);
}
