// ---- The engine, in a thread of its own. It answers questions in turn. Its text unpacks to the script of that thread, a zero, and the module.
const lacking = ["WebAssembly", "DecompressionStream", "Worker"].filter(name => typeof globalThis[name] === "undefined");
// Whether games are solved here: not if the page has no engine, if the browser can't run it, or if it doesn't know the game.
let solving = engined && !lacking.length;
let worker = null, asks = 0;
const awaited = new Map();
async function unpacked(text) {
  const bytes = Uint8Array.from(atob(text), byte => byte.charCodeAt(0));
  return new Uint8Array(await new Response(new Blob([bytes]).stream().pipeThrough(new DecompressionStream("gzip"))).arrayBuffer());
}
const ask = (act, given = {}, tell) => new Promise((done, failed) => {
  awaited.set(++asks, { done, failed, tell });
  worker.postMessage({ id: asks, act, ...given });
});
async function startEngine() {
  const bytes = await unpacked($("engine").textContent), end = bytes.indexOf(0);
  worker = new Worker(URL.createObjectURL(new Blob([bytes.subarray(0, end)], { type: "text/javascript" })));
  worker.onmessage = ({ data }) => {
    const waits = awaited.get(data.id);
    if (data.told) return waits.tell?.(data.told);
    awaited.delete(data.id);
    if (data.failed) waits.failed(new Error(data.failed));
    else waits.done(data.said);
  };
  worker.onerror = error => { for (const { failed } of awaited.values()) failed(new Error(error.message)); };
  return ask("begin", { bytes: bytes.slice(end + 1).buffer });
}
let engine = null;

// ---- What the engine has said of the game: rows of a text, its worth and its moves, and the row of each text.
let rows = [], numbers = new Map();
const word = value => value.split(" ")[0], number = value => Number(value.split(" ")[2] || 0);
const worth = (value, count) => value === "draw" ? value : value + " in " + count;
function rowOf(text, value) {
  if (!numbers.has(text)) { numbers.set(text, rows.length); rows.push([text, value]); }
  return numbers.get(text);
}
// Takes what was answered of a row.
function take(row, got) {
  rows[row][1] = worth(got.positionValue, got.remoteness);
  const to = m => rowOf(m.position, worth(m.positionValue, m.remoteness));
  rows[row].moves = got.moves.map(m => ({ name: m.move, worth: worth(m.moveValue, m.moveRemoteness), to: to(m) }));
}
// The rows of the positions that the page has been given, if games are not solved here. A move is followed by the number of its result's row, if the page
// has it.
function takeGiven() {
  const moveOf = (worth, rest) => (name, k) => typeof name === "number" ? [] : [{ name, worth, to: typeof rest[k + 1] === "number" ? rest[k + 1] : null }];
  given.forEach(([text, value, ...groups]) => {
    rows[rowOf(text, value)].moves = groups.flatMap(([worth, ...rest]) => rest.flatMap(moveOf(worth, rest)));
  });
}
// Asks for the moves of those of these rows that have none yet, unless the answer is awaited already.
let awaits = new Map();
async function fill(...some) {
  const lacking = some.filter(row => row !== null && !rows[row].moves), fresh = lacking.filter(row => !awaits.has(row));
  if (fresh.length) {
    const answer = askFor(fresh, awaits);
    for (const row of fresh) awaits.set(row, answer);
  }
  await Promise.all(lacking.map(row => awaits.get(row)));
}
async function askFor(fresh, waits) {
  const of = game;
  try {
    const said = await ask("ask", { game: of.game, text: fresh.map(row => rows[row][0] + "\n").join("") });
    if (of === game) said.trim().split("\n").forEach((line, k) => take(fresh[k], JSON.parse(line)));
  } finally { for (const row of fresh) waits.delete(row); }
}
// The row of the position with this text, with its moves, or null.
async function find(text) {
  const of = game;
  if (!numbers.has(text) || !rows[numbers.get(text)].moves) {
    if (!solving || /[\n\r]/.test(text)) return null;
    const got = JSON.parse(await ask("ask", { game: of.game, text: text + "\n" }));
    if (got.error || of !== game) return null;
    take(rowOf(text, ""), got);
  }
  return numbers.get(text);
}
// The places of a move's ends. In heaps and bars that is the first counter or square of those that are taken, and in a column the place to which a man falls.
function endsOf(row, who, m) {
  const [text] = rows[row], result = m.to === null ? null : rows[m.to][0];
  if (!game.men && result === null) return [];
  if (heapsOf(game)) {
    const heap = heapsOf(game).findIndex((_, k) => text[2 * k] !== result[2 * k]);
    return [cellsOf(game).findIndex(([row, column]) => row === heap && column === Number(result[2 * heap]))];
  }
  if (DROPS[game.game]) return [landingOf(game, text, game.points.indexOf(m.name))];
  const named = game.men ? m.name.split("-").map(end => squared(game) ? end.slice(-2) : end) : [result];
  return named.map(end => turned(game, who, game.points.indexOf(end)));
}
// The moves of a row in which `who` is to move: each with its name, the name that is shown, its worth, the row of its result, and the places of its ends.
const movesOf = (row, who) => rows[row].moves.map(m => ({ ...m, shown: shownMove(game, who, m.name), ends: endsOf(row, who, m) }));

// The line of play: its positions, each with the move that led to it. `at` is the one that is shown, `moves` what can be played there, `picked` the place that
// was pressed first, and `hidden` whether values are hidden. `starter` is the side to move at its first position.
let line = [], at = 0, moves = [], picked = null, hidden = false, starter = 0;
// The side that the player has against the solver, or null; the puzzle at the line's first position, or null; the board that is edited, or null; and the place
// that the keyboard is at.
let mine = null, puzzled = null, editor = null, cursor = 0;
const textAt = k => rows[line[k].row][0], valueAt = k => rows[line[k].row][1];
const side = k => sideOf(game, textAt(k), k + starter);
function winner(k) {
  return { win: side(k), lose: 1 - side(k) }[word(valueAt(k))] ?? null;
}
// The value of a position of the line, told by who wins.
function told(k) {
  const left = number(valueAt(k)), who = winner(k);
  if (who === null) return valueAt(k) === "tie in 0" ? "a tie" : valueAt(k);
  return game.sides[who] + (left ? " in " + left : " won");
}

