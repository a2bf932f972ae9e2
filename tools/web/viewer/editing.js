
// ---- Editing: the board's men by their places, each the number of its kind, who is to move, and what a press puts down (null for the next kind in turn). The
// text is asked about after each change. Stepping and play wait until the board is done.
function edit() {
  if (editor) return finish();
  picked = mine = puzzled = null;
  editor = { men: menOf(game, textAt(at), side(at)), who: side(at), brush: squared(game) ? 0 : null, text: textAt(at), row: null };
  say();
  editing();
  redrawn();
  return become();
}
// Leaves the edited board: with its position, or with the one before.
function finish() {
  const { row, who } = editor;
  if (row !== null) return begin(row, who);
  return drawEdited();
}
function cancel() {
  editor = null;
  editing();
  draw();
  $("edit").focus();
}
// The kinds of men that the game has.
const kinds = () => [...game.men].flatMap((letter, kind) => !squared(game) || hasMan(game, letter) ? [kind] : []);
// Shows what belongs to editing, or hides it.
function editing() {
  const many = editor && game.men.length > 0;
  $("edit").setAttribute("aria-pressed", editor !== null);
  for (const id of ["finish", "counted"]) $(id).hidden = !editor;
  $("steps").hidden = editor !== null;
  $("palette").hidden = !many;
  $("typed").hidden = $("text").hidden = editor !== null;
  if (many) layPalette();
}
function redrawn() {
  for (const part of [setButtons, drawMoves, drawLine]) part();
}
function layPalette() {
  const button = (kind, name, ...picture) => {
    const made = html("button", { "aria-pressed": editor.brush === kind }, ...picture, name);
    made.onclick = () => { editor.brush = kind; layPalette(); };
    return made;
  };
  const men = kinds().map(kind => button(kind, kindName(game, kind), icon(...manOf(board, kind, 0, 0, board.crossed ? 8 : 10))));
  const held = $("palette").contains(document.activeElement);
  $("palette").replaceChildren(...(squared(game) ? [] : [button(null, "Next in turn")]), ...men, button(-1, "Empty"));
  if (held) $("palette").querySelector("[aria-pressed=true]").focus();
}
// A press on a place: the kind that is chosen, or none if it is there already; else the next kind in turn.
function change(k) {
  if (board.inRow) editor.text = game.points[k];
  else if (heapsOf(game)) cut(k);
  else {
    const all = [-1, ...kinds()], now = editor.men[k], { brush } = editor;
    put(k, brush === null ? all[(all.indexOf(now) + 1) % all.length] : now === brush ? -1 : brush);
  }
  return become();
}
// A press on a counter or a square takes it with those after it, and one on an empty place fills the row up to there. No row of a bar becomes longer than the
// one above it.
function cut(k) {
  const [row, column] = cellsOf(game)[k], long = editor.men[k] < 0 ? column + 1 : column, bar = BARS[game.game];
  const isLeft = (has, [at, place]) => at === row ? place < long : !bar ? has : at < row ? has || place < long : has && place < long;
  editor.men = cellsOf(game).map((cell, j) => isLeft(editor.men[j] === 0, cell) ? 0 : -1);
}
// Puts a man down. On a board of chess only hounds are several.
function put(k, kind) {
  if (squared(game) && kind >= 0 && game.men[kind] !== "h") editor.men = editor.men.map(it => it === kind ? -1 : it);
  editor.men[k] = kind;
}
// A drag takes a man to another place.
function carry(from, to) {
  const kind = editor.men[from];
  if (board.inRow || heapsOf(game) || kind < 0) return;
  editor.men[from] = -1;
  put(to, kind);
  become();
}
// The same men with the other side to move.
function swap() {
  editor.who = 1 - editor.who;
  return become();
}
async function become() {
  const it = editor, text = it.text = board.inRow ? it.text : textOf(game, it.men, it.who);
  if (game.men.length === 1 && ADDS[game.game]) it.who = firstOf(game, text);
  drawPlaces();
  const row = await find(text);
  if (editor !== it || it.text !== text) return;
  const slides = row !== null && (!rows[row].moves.length || rows[row].moves.some(m => m.name.includes("-")));
  it.row = row !== null && (slides || !ADDS[game.game] || !whyNoTurn()) ? row : null;
  drawEdited();
}
const countsOf = men => [...game.men].map((_, kind) => men.filter(it => it === kind).length);
// Why the side to move can't be so, in a game whose moves add men.
const whyNoTurn = () => whyNoCounts(game, editor.who, countsOf(editor.men));
function drawEdited() {
  const { men, who, row } = editor, counts = countsOf(men);
  const worth = row === null ? html("span", { class: "none" }, "No position of the game") : hidden ? "" : pill(rows[row][1]);
  $("state").replaceChildren(swatch(who), game.sides[who] + " to move", worth);
  const told = kinds().map(kind => `${kindName(game, kind)} ${counts[kind]}`).join(", ");
  const why = row !== null ? "" : whyNoPosition(game, men, who);
  $("counted").textContent = [told, why].filter(Boolean).join(". ");
  $("done").setAttribute("aria-disabled", row === null);
}
