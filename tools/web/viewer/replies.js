
// ---- How hard a move is to answer, if it does not win: how many of the other side's replies keep the position's worth, and how soon a slip loses. The page
// has the results of all moves by then.
function repliesTo(m) {
  const replies = m.to === null || word(m.worth) === "win" ? null : rows[m.to].moves;
  if (!replies?.length) return null;
  const kind = word(rows[m.to][1]), slips = replies.filter(reply => word(reply.worth) === "lose").map(reply => number(reply.worth));
  return { kind, kept: replies.filter(reply => word(reply.worth) === kind).length, all: replies.length, soon: slips.length ? Math.min(...slips) : null };
}
// The same in words.
function toldReplies({ kind, kept, all, soon }) {
  const does = kind === "win" ? kept === 1 ? "wins" : "win" : `${kept === 1 ? "keeps" : "keep"} the ${kind}`;
  const slip = kind === "win" ? kept < all ? ", a slip lets the win go" : "" : soon === null ? "" : `, a slip loses in ${soon}`;
  return `${kept} of ${all} ${all === 1 ? "reply" : "replies"} ${does}${slip}`;
}
// The move of a group that leaves the smallest part of the replies good, and then the one after which a slip loses soonest.
function hardest(group) {
  const told = group.map(m => ({ m, it: repliesTo(m) })).filter(({ it }) => it);
  return told.sort((a, b) => a.it.kept / a.it.all - b.it.kept / b.it.all || (a.it.soon ?? Infinity) - (b.it.soon ?? Infinity))[0];
}
// Writes these numbers on the buttons of the moves, and names the hardest move of each group.
function drawReplies() {
  if (hidden || editor) return;
  for (const entry of $("moves").children) {
    const buttons = [...entry.querySelectorAll("button")].filter(button => button.move), most = hardest(buttons.map(button => button.move));
    for (const button of buttons) {
      const it = repliesTo(button.move);
      if (!it || button.querySelector("small")) continue;
      button.append(" ", html("small", {}, `${it.kept}/${it.all}`));
      button.title = toldReplies(it);
      button.setAttribute("aria-label", `${button.move.shown}, ${it.kept}/${it.all}: ${button.title}`);
    }
    if (most && most.it.kept < most.it.all && !entry.querySelector("p")) entry.append(html("p", {}, `Hardest: ${most.m.shown}, ${toldReplies(most.it)}.`));
  }
}
