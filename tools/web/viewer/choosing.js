// ---- The address: the game, the position, and the moves played from it.
let turns = 0;
async function route() {
  const turn = ++turns, [name, asked, parts] = addressed(location.hash);
  const wanted = games.find(of => single || of.game === name);
  if (!wanted || !(solving || given.length)) return showGames(solving && name ? "There is no game " + name + " here." : unable());
  try {
    await open(wanted, turn);
    if (turn !== turns) return;
    const [text, ...names] = parts, path = [{ row: await find(text || game.start) }];
    hidden = asked.includes("?");
    let found = path[0].row !== null && (!name || name === game.game);
    if (!found) path[0].row = await find(game.start);
    const who = firstOf(game, rows[path[0].row][0]), first = asked.includes("!") ? 1 - who : who;
    if (found) found = await follow(path, names.filter(Boolean), first);
    if (turn !== turns) return;
    line = path;
    starter = first;
    mine = puzzled = null;
    $("versus").value = "";
    await go(line.length - 1);
    if (!found) say(solving ? "There is no such position or move." : "What the address names is not in this page.");
  } catch (error) { if (turn === turns) fail(error); }
}
// Goes on with a path by the moves of these names. Returns whether the page has them all.
async function follow(path, names, first) {
  for (const name of names) {
    const { row } = path.at(-1), m = movesOf(row, sideOf(game, rows[row][0], path.length - 1 + first)).find(m => m.name === name);
    if (!m || m.to === null) return false;
    await fill(m.to);
    path.push(stepOf(m));
  }
  return true;
}
// The game that an address names, its marks (? if values are hidden, ! if the side moves first that else would not), the text of a position, and the moves
// played from it. In a page of one game the game's name may be missing: the address is then a position's text, or moves from the start with a / before each.
function addressed(hash) {
  const [, name, asked, slash, rest] = hash.match(/^#?([^/?!]*)([?!]*)(\/?)(.*)$/);
  try {
    const parts = rest.split("/").map(decodeURIComponent);
    if (!single || name === games[0].game) return [name, asked, parts];
    if (name) return ["", asked, [decodeURIComponent(name), ...parts]];
    return ["", asked, slash ? ["", ...parts] : parts];
  } catch { return [name, asked, ["?"]]; }
}
// What a page that can't solve its game says of itself, or nothing.
function unable() {
  if (solving || !engined) return "";
  if (!lacking.length) return "The engine of this page does not know the game, so it shows the positions that it has been given.";
  return `This browser has no ${lacking.join(", no ")}, so this page can't solve games in it. ${given.length ? "It shows the positions that it has been given."
    : "Browsers of the last years have all of them."}`;
}
function fail(error) {
  $("work").hidden = true;
  $("fault").textContent = "The engine does not run in this browser: " + (error.message || error);
}
// Browsers refuse many changes of the address in a short time, as while a key is held down.
let waiting = 0;
function writeAddress() {
  clearTimeout(waiting);
  const address = addressOf(line.slice(0, at + 1), starter, hidden);
  waiting = setTimeout(() => history.replaceState(null, "", address), 400);
}
function addressOf(steps, who, hides = false) {
  const first = rows[steps[0].row][0], names = steps.slice(1).map(step => "/" + encodeURIComponent(step.name)).join("");
  const marks = (hides ? "?" : "") + (who === firstOf(game, first) ? "" : "!"), from = first === game.start ? "" : encodeURIComponent(first);
  return "#" + game.game + marks + (from || names || marks.includes("!") ? "/" + from + names : "");
}

// ---- The list of games, and a game that is opened.
function showGames(fault) {
  clearTimeout(waiting);
  game = null;
  $("explorer").hidden = $("work").hidden = $("way").hidden = $("rules").hidden = true;
  $("games").hidden = false;
  $("fault").textContent = fault;
  document.title = $("title").textContent = "Games, solved";
  $("about").textContent = "Choose a game. It is solved here and now, in this page, and then every position of it shows what it and each move is worth.";
}
const many = of => LEGAL[of.game] ? counted(LEGAL[of.game]) + " positions" : "";
const tile = of => html("li", {}, html("a", { href: "#" + of.game }, drawing(of), html("b", {}, of.title),
  html("span", {}, [WORTHS[of.game], many(of)].filter(Boolean).join("; "))));
// The games by their kinds; those of no known kind at the end.
function layGames() {
  const kinds = [...new Set(games.map(of => FAMILIES[of.game]).filter(Boolean)), undefined];
  for (const kind of kinds) {
    const tiles = games.filter(of => FAMILIES[of.game] === kind).map(tile);
    if (tiles.length) $("games").append(html("h2", {}, kind || "Other games"), html("ul", {}, ...tiles));
  }
  const larger = Object.keys(LEGAL).filter(name => !games.some(of => of.game === name)), command = html("code", {}, "gamesman page GAME --folder TABLES");
  if (!single) $("games").append(html("h2", {}, "Larger games"), html("p", {}, "The program solves them, and writes a page of each: ", command, ". GAME is ",
    larger.slice(0, -1).join(", "), " or ", larger.at(-1), ", and TABLES a folder that keeps its tables."));
}
layGames();
// Solves a game, and shows how far that is: how many canonical positions have each record.
async function solve(wanted, turn) {
  $("about").textContent = "";
  $("work").hidden = false;
  $("bar").removeAttribute("value");
  $("working").textContent = engine ? "Solving" : "Unpacking the engine";
  await (engine ||= startEngine());
  if (turn !== turns) return null;
  $("working").textContent = "Solving";
  return ask("solve", { game: wanted.game }, ({ filled, total, done, tiers }) => {
    if (turn !== turns || tiers < 2) return;
    $("bar").value = filled / total;
    $("working").textContent = `Solving: ${done} of ${tiers} tiers`;
  });
}
async function open(wanted, turn) {
  $("fault").textContent = unable();
  if (game === wanted) return;
  document.title = $("title").textContent = wanted.title;
  $("way").hidden = single;
  $("games").hidden = $("explorer").hidden = $("rules").hidden = true;
  let solved = { counts: [] };
  if (solving) {
    try { solved = await solve(wanted, turn); } catch (error) {
      if (!given.length || error.message !== "no such game") throw error;
      solving = false;
      $("fault").textContent = unable();
    }
  }
  if (turn !== turns) return;
  game = wanted;
  rows = [];
  numbers = new Map();
  awaits = new Map();
  line = [];
  mine = editor = puzzled = null;
  cursor = 0;
  if (!solving) takeGiven();
  layBoard();
  editing();
  $("ruled").textContent = RULES[game.game] || RULES[game.game.replace(/-\d(x\d)?/, "")] || "";
  $("rules").hidden = !$("ruled").textContent;
  $("versus").replaceChildren(html("option", { value: "" }, "nobody: explore"),
    ...game.sides.map((name, who) => html("option", { value: who }, "as " + name + ", against the solver")));
  $("work").hidden = true;
  $("random").hidden = $("against").hidden = $("worths").hidden = $("setting").hidden = !solving;
  $("explorer").hidden = false;
  $("about").textContent = "Opening explorer: " + (solving ? `all ${many(game) || "positions"}, solved here and now`
    : `${game.whole ? "all " : ""}${counted(rows.length)} ${game.whole ? "" : "of the "}positions that play from here reaches`);
  $("naming").textContent = game.naming;
  $("sides").replaceChildren(...game.sides.map(name => html("span", {}, name)));
  counts = solved.counts;
  drawCounts();
  layLengths();
  $("title").focus({ preventScroll: true });
}
// How many positions there are of each worth; a press picks one of them. The number of a record is the code of its value times 1,048,576, plus its remoteness.
const CODE = 1048576;
function drawCounts() {
  const most = Math.max(...counts.map(([, count]) => count)), words = ["", "lose", "draw", "tie", "win"], code = record => Math.floor(record / CODE);
  const order = [...counts].sort(([a], [b]) => code(b) - code(a) || a - b);
  $("counts").replaceChildren(...order.map(([record, count]) => {
    const kind = words[code(record)], value = worth(kind, record % CODE), bar = html("i", { class: kind });
    bar.style.width = Math.max(1, 100 * count / most) + "%";
    const name = `${counted(count)} positions are ${value}: show one of them`;
    const button = html("button", { "aria-label": name }, pill(value), bar, html("em", {}, counted(count)));
    button.onclick = () => random(record);
    return html("li", {}, button);
  }));
}

