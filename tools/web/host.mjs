// The page's engine in node, with what the page has no use for: a solve by one call, and a check.
import fs from "fs";
import { Engine, NAMES, REFUSED, REASONS, STEP } from "./page/engine.js";
export { NAMES, STEP };
export const load = file => Engine.load(fs.readFileSync(file));
const n = BigInt;

// What an export answers: a number, or the words of its refusal.
export const answer = told => {
  const number = BigInt.asUintN(64, told);
  return number >= REFUSED ? REASONS[Number(number - REFUSED)] : Number(number);
};
// Solves a game by one call, into room of its own: gives the order of tiers and the records.
export function whole(engine, name) {
  const game = NAMES.indexOf(name), held = engine.games.get(name), order = engine.room(8192), out = engine.room(held.total);
  const count = engine.number(engine.x.web_solve_game(game, n(order), 1024n, n(out), n(held.total)));
  const found = { tiers: [...engine.view(BigUint64Array, order, count)], bytes: engine.view(Uint8Array, out, held.total).slice() };
  engine.free(order);
  engine.free(out);
  return found;
}
export const check = (engine, { game, order, done, records, filled }) => answer(engine.x.web_check(game, n(order), n(done), n(records), n(filled)));
// The texts of a game's canonical positions, each `step`th one.
export function texts(engine, name, step) {
  const { game, tiers, sizes } = engine.games.get(name), records = engine.kept(name).slice(), out = engine.room(64), found = [];
  let base = 0, met = 0;
  tiers.forEach((tier, t) => {
    for (let i = 0; i < sizes[t]; i++) {
      if (!records[base + i] || met++ % step) continue;
      const long = engine.number(engine.x.web_text(game, tier, n(i), n(out), 64n));
      found.push(Buffer.from(engine.view(Uint8Array, out, long)).toString("latin1"));
    }
    base += sizes[t];
  });
  engine.free(out);
  return found;
}
