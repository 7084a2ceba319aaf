/* The answer, and the two files to save. */

const FOOTER = "The answer was confirmed by the check above when this page was made. The page’s own script only shows it and isn’t"
  + " proved: whoever relies on it saves both files and runs qecode check on them.";
const FOLLOWERS = "Later owners have wishes of their own. Where one of them is indifferent, this answer counts on what suits the"
  + " owners before it: the number is a hope there.";

function verdictWords(word, number) {
  const wish = data.conditions[0];
  if (word === "open") return `Not settled after ${plural(Number(number), "turn")}.`;
  if (word === "false") return "No, the player can’t win, whatever it chooses.";
  return wish ? `Yes, and the ${best(wish[0])} value of ${wish[1]} is ${minus(number)}.` : "Yes, the player wins, whatever the opponent does.";
}

// The choice of the first scope, where it's the certificate's side that begins.
function firstMove(word) {
  const begins = data.kinds.length && tree.root.kind === "cases" && data.kinds[0] === (word === "true" ? "exists" : "forall");
  if (word === "open" || !begins || !data.own[0].length) return null;
  const { box } = tree.taken(tree.root, tree.box);
  return data.own[0].map((x) => chip(x, least(box[x])));
}

function followersNote() {
  if (!data.sure) return el("p", { class: "note" }, FOLLOWERS, " What is sure is told by “qecode worst”.");
  return el("p", { class: "note" }, FOLLOWERS, el("br"), el("b", {}, "Sure is "), `${data.sure.replace(/`/g, "")}.`);
}

function save(name, content) {
  return () => {
    const url = URL.createObjectURL(new Blob([content], { type: "text/plain" }));
    el("a", { href: url, download: name }).click();
    setTimeout(() => URL.revokeObjectURL(url), 1000);
  };
}

// Comments may hold bytes that are no text: what is saved is the very file that was checked.
function problemContent() {
  return data.bytes ? Uint8Array.from(atob(data.bytes), (it) => it.charCodeAt(0)) : data.source;
}

function facts(word) {
  const move = firstMove(word), list = el("dl");
  const row = (name, ...what) => list.append(el("dt", {}, name), el("dd", {}, ...what));
  if (move) row("First move", ...move);
  const isPlayed = data.isPlayed && move ? "; qecode play has played the first move" : "";
  row("Checked", `by ${data.checker}, which said: yes ${data.stated}${isPlayed}`);
  row("Certificate", `${plural(data.certificateSize, "byte")}, ${plural(tree.lines.length + 2, "line")}, ${plural(data.turns, "turn")}`);
  row("SHA-256", el("code", {}, `problem ${data.problemSum.slice(0, 16)}…  certificate ${data.certificateSum.slice(0, 16)}…`));
  return list;
}

function showAnswer() {
  const [word, number] = data.stated.split(" "), look = { true: "good", false: "bad" }[word] || "";
  byId("name").textContent = data.name;
  byId("question").textContent = data.question;
  byId("answer-body").append(el("p", { class: `verdict ${look}` }, verdictWords(word, number)));
  if (word === "true" && data.followers) byId("answer-body").append(followersNote());
  byId("answer-body").append(facts(word), el("div", { class: "buttons" },
    el("button", { type: "button", onclick: save(data.name, problemContent()) }, "Save the problem"),
    el("button", { type: "button", onclick: save(`${data.name.replace(/\.qc$/, "")}.cert`, data.certificate) }, "Save the certificate")));
  byId("footer").append(el("p", {}, FOOTER));
}
