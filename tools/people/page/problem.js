/* The problem's text, and its constraints by their numbers. */

function sourceLine(line, k) {
  const at = line.indexOf("%"), code = at < 0 ? line : line.slice(0, at);
  const comment = at < 0 ? null : el("span", { class: "comment" }, line.slice(at));
  return el("div", { id: `line-${k + 1}` }, el("i", {}, String(k + 1)), el("span", {}, code, comment || ""));
}

function ruleLine(constraint, c) {
  const more = [whereOf(constraint), `line ${constraint.line}`, constraint.comment].filter(Boolean).join("; ");
  const words = el("span", {}, constraint.formula, el("span", { class: "soft" }, ` — ${more}`));
  return el("li", { id: `rule-${c + 1}` }, el("span", { class: "soft" }, String(c + 1)), words);
}

function showProblem() {
  const lines = data.source.replace(/\n$/, "").split("\n").map(sourceLine);
  byId("problem-body").append(el("pre", { class: "source", tabindex: "0", "aria-label": "The problem’s text" }, ...lines));
  if (!data.constraints.length) return;
  const title = el("h3", { class: "below" }, "Its constraints, by their numbers");
  byId("problem-body").append(title, el("ol", { class: "rules" }, ...data.constraints.map(ruleLine)));
}
