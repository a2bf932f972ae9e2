// What players do with the page, tried in the page itself: an expression that gives the parts by their names. Each part returns what is wrong, a line for each
// fault. browser.py runs it in Chromium, and firefox.mjs in Firefox.
(() => {
  let wrong = [];
  // (while a part is tried, the page's own pauses are a twentieth of theirs)
  const clock = setTimeout, pause = time => new Promise(done => clock(done, time));
  const want = (what, got, wanted = true) => {
    if (JSON.stringify(got) !== JSON.stringify(wanted)) wrong.push(`${what}: ${JSON.stringify(got)?.slice(0, 200)}, not ${JSON.stringify(wanted)}`);
  };
  // Waits until a fact holds.
  async function soon(what, holds) {
    for (let k = 0; k < 500; k++) {
      if (holds()) return;
      await pause(10);
    }
    throw new Error(`${what}: never; the page's words are '${$("say").textContent}'`);
  }
  async function opened(address) {
    history.replaceState(null, "", address);
    await route();
    await soon(address, () => line.length && rows[line[at].row].moves && !$("explorer").hidden);
    await pause(20);
  }
  const press = k => board.places[k].g.dispatchEvent(new MouseEvent("click", { bubbles: true }));
  const key = name => document.activeElement.dispatchEvent(new KeyboardEvent("keydown", { key: name, bubbles: true, cancelable: true }));
  // Returns what is drawn on each place: the colour of a man or its stroke, with its letter.
  const drawn = () => board.places.map(({ g }) => {
    const man = g.querySelector(".man, .stroke, .here"), letter = g.querySelector(".letter");
    return man ? man.getAttribute("class").replace("man ", "") + man.tagName + (letter?.textContent ?? "") : "";
  });
  const state = () => $("state").textContent, said = () => $("say").textContent;
  const choose = (id, value) => { $(id).value = value; $(id).dispatchEvent(new Event("change")); };
  const playNamed = async name => {
    const before = at;
    await play(moves.find(m => m.name === name) ?? moves[0]);
    await soon("a move", () => at > before);
  };
  // A game for each kind of board: crosses, cells, letters, chess, counters, numbers, a board that is turned, columns, heaps, and a bar.
  const KINDS = ["tictactoe", "dao", "hare", "krk", "tactix-3", "countdown", "dodgem", "connect4-4x4", "nim", "chomp"];

  // Editing leaves men and mover as they are, with either side to move.
  async function editing(game, steps) {
    await opened("#" + game);
    for (let k = 0; k < steps; k++) await playNamed();
    const men = drawn(), mover = side(at), text = textAt(at), names = games.find(of => of.game === game).sides;
    $("edit").click();
    await soon("editing", () => $("edit").getAttribute("aria-pressed") === "true");
    await pause(30);
    want(`men of ${game} while edited, ${steps} moves on`, drawn(), men);
    want(`mover of ${game} while edited`, state().includes(names[mover] + " to move"));
    want(`moves of ${game} while edited`, $("moves").querySelectorAll("button").length, 0);
    want(`stepping in ${game} while edited`, ["best", "back", "end", "random", "puzzle"].every(id => $(id).disabled));
    $("swap").click();
    await soon(`mover of ${game}, other side`, () => state().includes(names[1 - mover] + " to move"));
    want(`men of ${game}, other side`, drawn(), men);
    $("swap").click();
    await soon("the side is back", () => state().includes(names[mover] + " to move"));
    await pause(30);
    $("edit").click();
    await soon("done", () => $("edit").getAttribute("aria-pressed") === "false" && line.length === 1);
    await pause(30);
    want(`men of ${game} afterwards`, [drawn(), side(at), textAt(at)], [men, mover, text]);
    const address = addressOf(line, starter);
    await opened(address);
    want(`men of ${game} at their address ${address}`, [drawn(), side(at)], [men, mover]);
  }
  const parts = {};
  for (const game of KINDS) for (const steps of [0, 1]) parts[`editing ${game}, ${steps ? "second" : "first"} side to move`] = () => editing(game, steps);

  parts["what is wrong with a board"] = async () => {
    await opened("#dao");
    $("edit").click();
    await soon("the palette", () => $("palette").querySelectorAll("button").length === 4);
    want("names of the palette", [...$("palette").querySelectorAll("button")].map(it => it.textContent), ["Next in turn", "Black", "White", "Empty"]);
    $("palette").querySelectorAll("button")[1].click();
    press(1);
    await soon("a fifth stone", () => state().includes("No position of the game"));
    want("its reason", $("counted").textContent, "Black 5, White 4. Black has 5, and 4 at the start.");
    $("edit").click();
    want("no position is not taken", $("edit").getAttribute("aria-pressed"), "true");
    key("Escape");
    $("cancel").click();
    want("left as it was", textAt(at), "x..o.xo..ox.o..x");
    await opened("#tictactoe");
    $("edit").click();
    press(4);
    await soon("a cross in the middle", () => $("counted").textContent.includes("With 1 and 0 men O is to move."));
    $("swap").click();
    await soon("its worth", () => state() === "O to movetie in 8");
  };
  parts["men of chess"] = async () => {
    await opened("#krk");
    $("back").disabled = false;
    $("edit").focus();
    key("e");
    await pause(50);
    want("a board is edited only where the button is", $("edit").getAttribute("aria-pressed") === "true" && $("edit").getClientRects().length > 0);
    [...$("palette").querySelectorAll("button")].find(it => it.textContent.endsWith("White rook")).click();
    press(game.points.indexOf("e4"));
    await soon("check", () => $("counted").textContent.includes("Black is in check, and White is to move."));
    press(game.points.indexOf("e4"));
    press(game.points.indexOf("h4"));
    await soon("the rook is on h4", () => !state().includes("No position"));
    [...$("palette").querySelectorAll("button")].find(it => it.textContent.endsWith("White king")).click();
    press(game.points.indexOf("e1"));
    await soon("no king", () => $("counted").textContent.includes("There is no White king."));
    press(game.points.indexOf("d3"));
    await soon("a king", () => !state().includes("No position"));
    $("edit").click();
    await soon("done", () => textAt(at) === "Kd3 Rh4 ke8 w");
  };
  parts["keys of what is hidden"] = async () => {
    await opened("#dao");
    $("edit").hidden = true;
    $("best").focus();
    key("e");
    await pause(30);
    want("the key of a hidden button", $("edit").getAttribute("aria-pressed"), "false");
    $("edit").hidden = false;
  };
  parts["replies"] = async () => {
    await opened("#tictactoe");
    const shown = name => [...$("moves").querySelectorAll("button")].find(it => it.textContent.split(" ")[0] === name)?.querySelector("small")?.textContent;
    await soon("replies", () => shown("a1"));
    want("replies to a corner, the middle", [shown("a1"), shown("b2")], ["1/8", "4/8"]);
    want("the hardest move", [...$("moves").querySelectorAll("p")].map(it => it.textContent), ["Hardest: a1, 1 of 8 replies keeps the tie, a slip loses in 6."]);
    await opened("#ponghauki");
    await soon("replies of a draw", () => $("moves").querySelector("small"));
    $("hide").click();
    want("hidden with the values", $("moves").querySelector("small"), null);
    $("hide").click();
    await opened("#tactix-2");
    await soon("replies to lost moves", () => $("moves").querySelector("small"));
    want("a lost move", $("moves").querySelector("button").title.includes(" win"));
  };
  parts["a draw by repetition"] = async () => {
    await opened("#ponghauki");
    for (let k = 0; k < 130 && !said().includes("by repetition"); k++) await playNamed(moves[k % moves.length].name);
    want("the third time is noticed", said(), "The position is on the board for the third time: by repetition a draw.");
    await opened("#ponghauki");
    choose("versus", "0");
    for (let k = 0; k < 60 && !said().includes("draw"); k++) {
      await soon("the player's turn", () => side(at) === 0 && at === line.length - 1 || said().includes("a draw"));
      if (!said().endsWith("is a draw.")) await play(moves[0]);
      await pause(60);
      if (said().includes("The third time is a draw.")) $("say").textContent = "";
    }
    want("the game is drawn", said(), "The position is on the board for the third time: the game is a draw.");
    const long = line.length;
    await pause(200);
    want("the solver goes on", line.length, long);
  };
  // A game of noughts against the solver on a level: its moves, and how many of the solver's were bad.
  async function played(level, seed) {
    await opened("#tictactoe");
    $("level").value = level;
    $("seed").value = seed;
    choose("versus", "1");
    let bad = 0;
    for (let k = 0; k < 20 && moves.length; k++) {
      await soon("the player's turn", () => !moves.length || side(at) === 1);
      if (moves.length) await play([...moves].sort((a, b) => a.name < b.name ? -1 : 1)[0]);
      await soon("the solver's", () => !moves.length || side(at) === 1);
    }
    const worthOf = k => rows[line[k - 1].row].moves.find(m => m.name === line[k].name).worth;
    for (let k = 1; k < line.length; k += 2) bad += word(valueAt(k - 1)) !== word(worthOf(k));
    want(`the end at level ${level}`, ["A tie.", "You won.", "The solver won."].includes(said()));
    want("the banner", $("state").classList.contains("over"));
    want("the row that ended it", document.querySelectorAll("#board .ended circle").length >= 3, winner(at) !== null);
    return [line.slice(1).map(step => step.name).join(" "), bad];
  }
  for (const level of ["0", "8", "4", "2"]) parts[`level ${level}`] = async () => {
    const first = await played(level, 7), again = await played(level, 7), others = [first];
    want("the same seed gives the same game", again, first);
    for (let seed = 11; level === "2" && seed < 14; seed++) others.push(await played(level, seed));
    want("errors", others.some(([, bad]) => bad > 0), level === "2" || first[1] > 0 && level !== "0");
  };
  parts["a hint, and a move taken back"] = async () => {
    await opened("#tictactoe");
    choose("versus", "0");
    $("help").click();
    want("the first hint", said(), "Hint: 9 of 9 moves keep the tie. Press Hint again for one of them.");
    $("help").click();
    want("the second hint", said(), "Hint: a1.");
    await playNamed("a1");
    await soon("the answer", () => line.length === 3 && at === 2);
    $("undo").click();
    await soon("taken back", () => said() === "Taken back.");
    want("the line", [line.length, at, mine], [1, 0, 0]);
  };
  async function puzzled(game, length) {
    await opened("#" + game);
    if (length) $("length").value = [...$("length").options].find(it => it.textContent === length).value;
    $("puzzle").click();
    await soon("a puzzle", () => said().startsWith("A puzzle: "));
    if (length) want("its length", said().includes(length));
    const first = textAt(0);
    const worse = moves.find(m => word(m.worth) !== "win");
    if (worse) {
      await play(worse);
      await soon("a wrong move", () => said().startsWith("That gives the win away."));
      $("undo").click();
      await soon("taken back", () => said() === "Taken back." && at === 0);
    }
    for (let k = 0; k < 40 && !said().startsWith("Solved"); k++) {
      await soon("the player's turn", () => side(at) === side(0) || said().startsWith("Solved"));
      if (!said().startsWith("Solved")) await play(moves[0]);
    }
    want(`the end of a puzzle of ${game}`, said().includes(`won in ${line.length - 1} moves. Next puzzle`));
    want("the button", $("puzzle").textContent, "Next puzzle");
    $("puzzle").click();
    await soon("the next puzzle", () => said().startsWith("A puzzle: ") && at === 0);
    return first;
  }
  parts["a puzzle to its end"] = () => puzzled("dao", "win in 5");
  parts["a puzzle of Tic-Tac-Toe to its end"] = () => puzzled("tictactoe", "");
  parts["a puzzle of chess to its end"] = () => puzzled("krk", "win in 5");
  parts["a puzzle with tries"] = async () => {
    await opened("#dao");
    $("least").value = "5";
    $("puzzle").click();
    await soon("a puzzle", () => said().startsWith("A puzzle: "));
    const soonOver = m => ["lose", "tie"].includes(word(m.worth)) && number(m.worth) <= 4;
    const tries = moves.filter(m => m.worth !== moves[0].worth && !soonOver(m)).length;
    want("five tries at least", tries >= 5);
    want("what is told of them", said().endsWith(`It has ${tries} tries.`));
    $("least").value = "0";
  };
  async function typed(text) {
    const before = line;
    if ($("why")) $("why").textContent = "";
    $("typing").value = text;
    $("typed").requestSubmit();
    await soon(`an answer to ${text}`, () => line !== before || $("why").textContent !== "");
    await pause(30);
  }
  parts["texts that are pasted"] = async () => {
    await opened("#dao");
    await typed(" x.x. .x.x .o.o o..o ");
    want("a board in rows", textAt(at), "x.x..x.x.o.oo..o");
    for (const [text, why] of [["x.x..x.x.o.oo.", "It has 14 characters, not 16: one for each point."],
      ["x.x..x.x.o.oo..z", "'z' is no man of this game: men are x and o, and an empty point is a dot."], ["xxx..x.x.o.oo..o", "Black has 5, and 4 at the start."]]) {
      await typed(text);
      want(`the reason of ${text}`, $("why").textContent, why);
    }
    await opened("#hare");
    await typed("dd . d . . . . . . h  d");
    want("a board with its side", textAt(at), "dd.d......h d");
    await opened("#krk");
    for (const [text, means] of [["8/8/8/8/8/2K5/1R6/k7 b - - 0 1", "Kc3 Rb2 ka1 b"], ["Rb7 Kc2 ka1 w", "Kc2 Rb7 ka1 w"],
      [" Kc2  Rb7 ka1 b ", "Kc2 Rb7 ka1 b"]]) {
      await typed(text);
      want(`what ${text} means`, textAt(at), means);
    }
    await typed("Kc2 Kb7 ka1 w");
    want("two kings", $("why").textContent, "There is more than one White king.");
  };
  parts["columns, heaps and a bar"] = async () => {
    const pressed = async (k, text) => {
      const before = at;
      press(k);
      await soon(`a press on ${k}`, () => at > before);
      want(`the position after a press on ${k}`, textAt(at), text);
    };
    await opened("#connect4-4x4");
    await pressed(2, "..............o.");
    await pressed(14, "..........o...x.");
    await opened("#connect4-4x4/........xxx.oooo");
    want("the four that ended it", document.querySelectorAll("#board .ended circle").length, 4);
    await opened("#nim");
    await pressed(9, "1 3 5 0");
    await pressed(7, "1 3 3 0");
    await typed("1357");
    want("a text without spaces", textAt(at), "1 3 5 7");
    await typed("1 3 5 8");
    want("the reason of a large heap", $("why").textContent, "A position is 4 numbers, at most 1, 3, 5, 7.");
    await opened("#chomp");
    await pressed(17, "7 7 3 3");
    $("edit").click();
    await soon("editing", () => editor !== null);
    for (const [k, text] of [[2, "2 2 2 2"], [27, "7 7 7 7"], [27, "7 7 7 6"]]) {
      press(k);
      want(`the bar after a press on ${k}`, editor.text, text);
    }
    $("cancel").click();
  };
  parts["the title, the link, the help"] = async () => {
    await opened("#dao//a1-a3");
    want("the title", document.title, "Dao: " + textAt(1));
    $("copy").click();
    await soon("the link", () => /link/i.test(said()));
    want("its address", decodeURIComponent(location.hash), "#dao//a1-a3");
    want("help of tables", [...document.querySelectorAll("footer code")].some(it => it.textContent === "--limit" && !it.closest("[hidden]")), false);
  };
  parts["the list of games"] = async () => {
    const heads = [...$("games").querySelectorAll("h2")].map(it => it.textContent), dao = $("games").querySelector("a[href='#dao']").textContent;
    want("kinds", heads.length >= 4);
    want("a tile", dao, "Daodraw; 891,990 positions");
  };
  parts["a larger board, and moves beside it"] = async () => {
    await opened("#dao");
    want("the board's width", innerWidth < 1200 || $("board").getBoundingClientRect().width > 450);
    want("the moves' top", $("moves").getBoundingClientRect().top < innerHeight);
  };
  parts["a board that is turned stays as it is"] = async () => {
    await opened("#dodgem");
    for (let k = 0; k < 8 && moves.length; k++) {
      const before = drawn(), { name, shown = name } = moves[0];
      await playNamed(name);
      const changed = drawn().flatMap((man, place) => man === before[place] ? [] : [game.points[place]]);
      want(`what ${shown} changes`, changed.sort(), shown.split("-").sort());
    }
  };
  parts["the end of each game"] = async () => {
    for (const { game: name } of games) {
      await opened("#" + name);
      await lead();
      await go(line.length - 1);
      want(`the end of ${name}`, said() !== "" || state().includes("The game is over") || times(at) > 1);
    }
    await opened("#krk/" + encodeURIComponent("Kb6 Ra1 kb8 w"));
    await lead();
    await go(line.length - 1);
    const marked = board.places.flatMap(({ g }, k) => g.getAttribute("aria-label").includes("ended the game") ? [kindAt(k)] : []);
    want("the king that is mated", marked, [game.men.indexOf("k")]);
  };
  return Object.fromEntries(Object.entries(parts).map(([name, part]) => [name, async () => {
    wrong = [];
    globalThis.setTimeout = (act, time) => clock(act, time / 20);
    try { await part(); } catch (error) { wrong.push(String(error.message || error)); }
    globalThis.setTimeout = clock;
    if ($("cancel")?.getClientRects().length) $("cancel").click();
    return wrong.map(why => `${name}: ${why}`);
  }]));
})()
