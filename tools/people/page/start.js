/* Puts everything onto the page. */

showAnswer();
showProblem();
showTree();
if (data.stated.startsWith("open")) {
  byId("play-body").append(el("p", {}, "There is nothing to play against: the game isn’t settled."));
} else {
  startPlay(false);
}
