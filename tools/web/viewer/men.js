
// ---- Sides and men: who is to move in a position, and whose man is on each place. What the page knows of a game beside its line is in ADDS, TURNS, ROWS,
// DROPS, HEAPS and BARS.
// On a board of chess each square has the same capital letter, and a position's text has a word for each man, its letter and its square.
const squared = of => of.board.includes("A A");
// Whether the points are numbers, of which a position is one.
const numbered = of => !/[A-Z]/.test(of.board);
// The rows of a game whose position is how long each of them is: heaps, or the rows of a bar. Each counter or square has a place of its own.
const heapsOf = of => HEAPS[of.game] || BARS[of.game];
const cellsOf = of => heapsOf(of).flatMap((most, row) => [...Array(most).keys()].map(column => [row, column]));
for (const of of games.filter(heapsOf)) {
  of.points = cellsOf(of).map(([row, column]) => BARS[of.game] ? `${row + 1}-${column + 1}` : `heap ${row + 1}, ${column + 1}`);
}
// Whether a position's text ends with the side to move.
const sided = of => squared(of) || (of.men !== "" && of.start.length > of.points.length);
const sideLetters = of => squared(of) && of.men !== "fh" ? "wb" : of.men;
// The side to move, 0 or 1: by the text's end if it is there; else by turns, k moves after the first side's turn.
const sideOf = (of, text, k) => sided(of) ? Math.max(0, sideLetters(of).indexOf(text.at(-1))) : k % 2;
// The side to move in a position that a line begins with. Where moves only add men, their number tells it.
function firstOf(of, text) {
  const men = [...text].filter(byte => of.men.includes(byte)).length;
  return ADDS[of.game] ? Math.floor(men / ADDS[of.game]) % 2 : sideOf(of, text, 0);
}
// Where the byte k of a text is on the board, and back. For the second side some games turn the board; it is drawn as the first side sees it.
function turned(of, who, k) {
  const many = of.points.length, wide = Math.sqrt(many);
  if (!who || !TURNS[of.game] || k < 0) return k;
  return TURNS[of.game] === "half" ? many - 1 - k : k % wide * wide + Math.floor(k / wide);
}
// The words of a move with the names of the points where it is on the board.
function shownMove(of, who, name) {
  const put = end => { const k = of.points.indexOf(end); return k < 0 ? end : of.points[turned(of, who, k)]; };
  return who && TURNS[of.game] ? name.split("-").map(put).join("-") : name;
}
// The kind of the man on the place k of a position, by its place in the list of men, or -1. If sides swap, the text's first kind is that of the side to move,
// and here that of the first side.
function kindIn(of, text, who, k) {
  if (numbered(of)) return -1;
  if (heapsOf(of)) return cellsOf(of)[k][1] < Number(text[2 * cellsOf(of)[k][0]]) ? 0 : -1;
  if (squared(of)) return of.men.indexOf(text.split(" ").find(word => word.length === 3 && word.endsWith(of.points[k]))?.[0] ?? " ");
  const kind = of.men.indexOf(text[turned(of, who, k)] ?? " ");
  return kind < 0 || !of.swap || who === 0 ? kind : 1 - kind;
}
const menOf = (of, text, who) => of.points.map((_, k) => kindIn(of, text, who, k));
// The side that has a kind of men: on a board of chess the last kind is the second side's.
const ownerOf = (of, kind) => squared(of) && kind >= 0 ? Number(kind === of.men.length - 1) : kind;
// The text of a position with these men.
function textOf(of, men, who) {
  if (heapsOf(of)) return heapsOf(of).map((_, row) => men.filter((kind, k) => kind === 0 && cellsOf(of)[k][0] === row).length).join(" ");
  const words = kind => men.flatMap((it, k) => it === kind ? [of.men[kind] + of.points[k]] : []).sort((a, b) => a[2] + a[1] < b[2] + b[1] ? -1 : 1);
  if (squared(of)) return [...[...of.men].flatMap((_, kind) => words(kind)), sideLetters(of)[who]].join(" ");
  const byte = kind => kind < 0 ? "." : of.men[of.swap && who ? 1 - kind : kind];
  const text = men.map((_, k) => byte(men[turned(of, who, k)])).join("");
  return sided(of) ? text + of.start.at(-2) + of.men[who] : text;
}
// Whether a game on a chess board can have men with this letter: those of its start, and what a pawn becomes.
const hasMan = (of, letter) => of.start.includes(letter) || (of.start.includes("P") && "QRBN".includes(letter));
const NAMES = { K: "king", Q: "queen", R: "rook", B: "bishop", N: "knight", P: "pawn", k: "king", f: "fox", h: "hound" };
// The name of a kind of men.
function kindName(of, kind) {
  if (kind < 0) return "empty";
  if (of.men.length < 2) return BARS[of.game] ? "square" : "counter";
  return of.sides[ownerOf(of, kind)] + (squared(of) ? ` ${of.men === "fh" ? of.men[kind] : NAMES[of.men[kind]]}` : "");
}

// How many places the first row of a board has.
const wideOf = of => of.board.split("\n").find(text => /[A-Z]/.test(text)).match(/[A-Z]/g).length;
// Where a man falls that is dropped into the column of the place k, or -1 if the column is full.
const landingOf = (of, text, k) => of.points.findLastIndex((_, to) => to % wideOf(of) === k % wideOf(of) && text[to] === ".");

// ---- Rows, in the sense of the game's rules: places that end it if one side has them all.
function rowsOf(of) {
  const told = ROWS[of.game] || [];
  if (Array.isArray(told)) return told.map(names => [...names].map(name => of.points.indexOf(name)));
  const wide = wideOf(of), each = [...Array(wide).keys()], inner = each.slice(1), all = [...of.points.keys()];
  const at = (row, column) => wide * row + column, isOn = ([row, column]) => row < all.length / wide && column >= 0 && column < wide;
  const shapes = {
    rows: () => each.map(r => each.map(c => at(r, c))),
    columns: () => each.map(c => each.map(r => at(r, c))),
    diagonals: () => [each.map(r => at(r, r)), each.map(r => at(r, wide - 1 - r))],
    squares: () => inner.flatMap(r => inner.map(c => [at(r, c), at(r, c - 1), at(r - 1, c), at(r - 1, c - 1)])),
    fours: () => [[0, 1], [1, 0], [1, 1], [1, -1]].flatMap(([down, right]) => all.map(k => [0, 1, 2, 3].map(n =>
      [Math.floor(k / wide) + n * down, k % wide + n * right]))).filter(four => four.every(isOn)).map(four => four.map(([row, column]) => at(row, column))),
    corners: () => [[at(0, 0), at(0, wide - 1), at(wide - 1, 0), at(wide - 1, wide - 1)]],
  };
  return told.split(" ").flatMap(shape => shapes[shape]());
}
// The rows that are full of one kind of men.
const fullRows = (of, men) => rowsOf(of).filter(row => men[row[0]] >= 0 && row.every(k => men[k] === men[row[0]]));
// The places of the men that ended the game, where the page can tell: a row, or the king that is mated.
function endedBy(of, text, who, value) {
  const men = menOf(of, text, who);
  if (squared(of) && of.men !== "fh" && value === "lose in 0") return men.flatMap((kind, k) => kind === of.men.length - 1 ? [k] : []);
  return value === "tie in 0" ? [] : [...new Set(fullRows(of, men).flat())];
}
