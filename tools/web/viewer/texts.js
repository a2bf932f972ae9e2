
// ---- Texts that are typed or pasted: what they may mean, and why one is no position.
// The texts that a typed text may stand for, the likeliest first.
function meantBy(of, typed) {
  const text = typed.trim(), packed = text.replace(/\s+/g, "");
  if (squared(of)) return [text, ...fromForsyth(of, text), ...inOrder(of, text)];
  if (heapsOf(of)) return [text, [...text.replace(/\D/g, "")].join(" ")];
  if (sided(of)) return [text, packed.slice(0, -1) + of.start.at(-2) + packed.slice(-1)];
  return [text, packed, packed.toLowerCase()];
}
// The same men in the order of the game's texts.
function inOrder(of, text) {
  const words = text.split(/[\s,;]+/), who = sideLetters(of).indexOf(words.at(-1)), men = of.points.map(() => -1);
  if (who < 0) return [];
  for (const word of words.slice(0, -1)) {
    const k = of.points.indexOf(word.slice(1)), kind = of.men.indexOf(word[0]);
    if (k < 0 || kind < 0 || word.length !== 3 || men[k] >= 0) return [];
    men[k] = kind;
  }
  return [textOf(of, men, who)];
}
// The text of a chess position in Forsyth's notation (FEN): the ranks from the eighth down, and who moves.
function fromForsyth(of, text) {
  const spread = byte => /[1-8]/.test(byte) ? Array(Number(byte)).fill(".") : byte === "/" ? [] : [byte];
  const [ranks, mover = "w"] = text.split(/\s+/), bytes = [...ranks].flatMap(spread);
  const who = "wb".indexOf(mover), men = bytes.map(byte => of.men.indexOf(byte));
  if (of.men === "fh" || ranks.split("/").length !== 8 || bytes.length !== 64 || who < 0 || bytes.some((byte, k) => byte !== "." && men[k] < 0)) return [];
  return [textOf(of, men, who)];
}
// Why a text is no position of the game.
function whyNoText(of, typed) {
  if (!solving) return "This page does not have a position with this text.";
  const text = typed.trim(), packed = text.replace(/\s+/g, ""), many = of.points.length, long = sided(of) ? many + 1 : many;
  if (!text) return "Type a position, as " + of.start + ".";
  if (numbered(of)) return `The positions are the numbers ${of.points[0]} to ${of.points.at(-1)}.`;
  if (squared(of)) return whyNoSquares(of, text);
  if (heapsOf(of)) {
    return `A position is ${heapsOf(of).length} numbers, at most ${heapsOf(of).join(", ")}${BARS[of.game] ? ", and none is greater than the one before" : ""}.`;
  }
  const strange = [...packed.toLowerCase()].find(byte => byte !== "." && !of.men.includes(byte));
  if (strange) return `'${strange}' is no man of this game: men are ${[...of.men].join(" and ")}, and an empty point is a dot.`;
  if (packed.length !== long) return `It has ${packed.length} characters, not ${long}: one for each point${sided(of) ? ", and the side to move" : ""}.`;
  const full = meantBy(of, packed).at(-1), who = sided(of) ? sideOf(of, full, 0) : firstOf(of, full);
  return whyNoPosition(of, menOf(of, full, who), who);
}
function whyNoSquares(of, text) {
  const found = fromForsyth(of, text)[0] ?? inOrder(of, text)[0];
  if (!found && text.includes("/")) return `It is no position in Forsyth's notation with the men ${[...of.men].filter(letter => hasMan(of, letter)).join(", ")}.`;
  const words = text.split(/[\s,;]+/), bad = words.slice(0, -1).find(word => !hasMan(of, word[0]) || !of.points.includes(word.slice(1)));
  if (bad) return `'${bad}' is no man on a square, as ${of.start.slice(0, 3)} is.`;
  if (!sideLetters(of).includes(words.at(-1))) return `At its end must be the side to move, ${[...sideLetters(of)].join(" or ")}.`;
  return found ? whyNoPosition(of, menOf(of, found, 0), sideOf(of, found, 0)) : "Two of its men are on one square.";
}
const NOWHY = "No position of the game has its men like this.";
// Why these men are no position, as far as the page can tell.
function whyNoPosition(of, men, who) {
  const counts = [...of.men].map((_, kind) => men.filter(it => it === kind).length);
  if (squared(of) && of.men !== "fh") return whyNoChess(of, men, who, counts) || NOWHY;
  const row = fullRows(of, men).find(row => of.men.length > 1 && men[row[0]] === who);
  const hangs = DROPS[of.game] && men.some((kind, k) => kind < 0 && men[k - wideOf(of)] >= 0);
  return whyNoCounts(of, who, counts) || (hangs ? "A man is above an empty place."
    : row ? `${of.sides[who]} has a full row, so the game was over before.` : NOWHY);
}
function whyNoCounts(of, who, counts) {
  const [mine, theirs] = of.sides, first = [...of.men].map((_, kind) => menOf(of, of.start, firstOf(of, of.start)).filter(it => it === kind).length);
  if (of.men.length < 2) return "";
  if (!ADDS[of.game]) {
    const wrong = counts.findIndex((count, kind) => count !== first[kind]);
    return wrong < 0 ? "" : `${kindName(of, wrong)} has ${counts[wrong]}, and ${first[wrong]} at the start.`;
  }
  const more = counts[0] - counts[1];
  if (more < 0 || more > 1) return `${mine} begins, and each move adds a man: ${mine} has as many as ${theirs}, or one more, and not ${counts[0]} and ${counts[1]}.`;
  return more === who ? "" : `With ${counts[0]} and ${counts[1]} men ${of.sides[more]} is to move.`;
}
function whyNoChess(of, men, who, counts) {
  const king = kind => men.indexOf(kind), [white, black] = [king(0), king(of.men.length - 1)], place = k => [k % 8, Math.floor(k / 8)];
  const named = kind => kindName(of, kind), has = kind => hasMan(of, of.men[kind]);
  const wrong = counts.findIndex((count, kind) => NAMES[of.men[kind]] === "king" ? count !== 1 : count > Number(has(kind)));
  if (wrong >= 0 && counts[wrong]) return has(wrong) ? `There is more than one ${named(wrong)}.` : `This game has no ${named(wrong)}.`;
  if (wrong >= 0) return `There is no ${named(wrong)}.`;
  if (men.filter(kind => kind >= 0).length > 3) return `${of.sides[0]} has more than one man beside the king.`;
  const apart = (a, b) => Math.max(...place(a).map((it, axis) => Math.abs(it - place(b)[axis])));
  if (apart(white, black) < 2) return "The kings are side by side.";
  const from = men.findIndex(kind => kind > 0 && kind < of.men.length - 1);
  return who === 0 && from >= 0 && attacks(men, from, black, of.men[men[from]]) ? "Black is in check, and White is to move." : "";
}
// Whether a man of White on one place attacks another.
function attacks(men, from, to, letter) {
  const across = to % 8 - from % 8, down = Math.floor(to / 8) - Math.floor(from / 8), far = Math.max(Math.abs(across), Math.abs(down));
  if (letter === "N") return Math.abs(across * down) === 2;
  if (letter === "P") return Math.abs(across) === 1 && down === -1;
  const straight = !across || !down, slanting = Math.abs(across) === Math.abs(down);
  if (!(straight && letter !== "B" || slanting && letter !== "R")) return false;
  const step = Math.sign(across) + 8 * Math.sign(down);
  return [...Array(far - 1).keys()].every(k => men[from + step * (k + 1)] < 0);
}
