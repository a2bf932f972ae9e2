// check.mjs MODULE PROGRAM: each answer of the module beside that of `gamesman ask`, changed records, wrong order and wrong room. The last line is
// 'answers: N compared, R refusals, F faults'; the status is 1 where there is a fault.
import { execFileSync } from "child_process";
import fs from "fs";
import os from "os";
import path from "path";
import { NAMES, STEP, answer, check, load, texts, whole } from "./host.mjs";
const [file, program] = process.argv.slice(2), engine = await load(file), n = BigInt;
const CHOICES = [0, 1, 2, 4, 8, 16, 32, 62], WORDS = ["canonical", "parents", "symmetric", "best"], SMALL = 2000, SAMPLE = 400, ROOM = 96 << 20;
const kept = fs.mkdtempSync(path.join(os.tmpdir(), "web-"));
let compared = 0, refusals = 0, faults = 0;
function want(what, got, wanted) {
  if (got === wanted) return;
  if (faults++ < 10) console.log(`WRONG: ${what}: ${String(got).slice(0, 200)}, not ${String(wanted).slice(0, 200)}`);
}
function refused(what, got, wanted) {
  refusals++;
  want(what, got, wanted);
}
function flagsOf(asked) {
  const more = WORDS.filter((_, k) => asked >> (k + 2) & 1);
  return [...(asked & 1 ? ["--values"] : []), ...(asked & 2 ? ["--distinct"] : []), ...(more.length ? ["--with", more.join(",")] : [])];
}
// The program's answers, over tables that it keeps.
function said(name, asked, input) {
  const words = ["ask", name, ...flagsOf(asked), "--folder", path.join(kept, name)];
  fs.mkdirSync(path.join(kept, name), { recursive: true });
  return execFileSync(program, words, { input, maxBuffer: 1 << 30, stdio: ["pipe", "pipe", "ignore"] }).toString("latin1");
}
// Every canonical position of a small game and all results of its moves; of a large one a sample. And what is no position.
function linesOf(name) {
  const count = engine.counts(name).reduce((sum, [, of]) => sum + of, 0), step = count > SMALL ? Math.floor(count / SAMPLE) : 1;
  const some = texts(engine, name, step), seen = new Set(some);
  const moves = engine.ask(name, some.map(text => text + "\n").join(""), 0, ROOM).trim().split("\n");
  for (const line of moves) for (const m of JSON.parse(line).moves) seen.add(m.position);
  return [...seen, "no position", "", "x".repeat(70), "\u00e9\u00e9"];
}
// A solve by one call writes what a solve tier by tier does.
function solved(name) {
  const held = engine.solve(name), one = whole(engine, name);
  want(`${name}: tiers by one call`, one.tiers.join(), held.tiers.join());
  want(`${name}: records by one call`, Buffer.compare(Buffer.from(one.bytes), Buffer.from(engine.bytes(name))), 0);
}
function compare(name) {
  solved(name);
  const all = linesOf(name);
  for (const asked of CHOICES) {
    const step = asked ? Math.max(1, all.length >> 6) : 1, some = all.filter((_, k) => k % step === 0);
    const input = some.join("\n") + "\n\u00ff\n\r\nlast", wanted = said(name, asked, input);
    const got = Buffer.from(engine.ask(name, input, asked, ROOM)).toString("latin1");
    compared += wanted.split("\n").length - 1;
    want(`${name} ${flagsOf(asked).join(" ")}`, got, wanted);
  }
}
// Records with one byte changed, at places all over: a record's remoteness by one, and a lost position where there is none.
function change(name) {
  const held = engine.games.get(name), width = held.width, tries = Math.min(held.filled / width, 20);
  want(`${name}: its own records`, check(engine, held), 0);
  for (let k = 0; k < tries; k++) {
    const place = Math.floor(held.filled / width * k / tries), has = engine.kept(name)[place] !== 0, at = width * place + (has || width === 1 ? 0 : 2);
    const bytes = engine.bytes(name), was = bytes[at];
    bytes[at] = has ? was ^ 1 : width === 1 ? 32 : 16;
    refused(`${name}: record ${place} changed`, check(engine, held), "wrong records");
    engine.bytes(name)[at] = was;
  }
}
// A game with records of four bytes: its longest, and rooms and records that are not whole.
function wide(name) {
  const held = engine.games.get(name), room = n(engine.room(8192)), out = n(engine.room(held.total));
  want(`${name}: its longest`, Math.max(...engine.counts(name).map(([record]) => record % STEP)), 32);
  for (const size of [held.total - 1, held.total + 1, held.total / 4])
    refused(`${name}: room of ${size} bytes`, answer(engine.x.web_solve_game(held.game, room, 1024n, out, n(size))), "no room");
  for (const size of [held.total - 1, held.total - 3, held.total - 4])
    refused(`${name}: ${size} bytes`, answer(engine.x.web_check(held.game, n(held.order), n(held.done), n(held.records), n(size))), "wrong records");
}
// Each reason for which nothing is done.
function reasons() {
  const held = engine.games.get("tictactoe"), { game, tiers, sizes, total } = held, x = engine.x, out = n(engine.room(1 << 16));
  const order = n(held.order), records = n(held.records), count = n(tiers.length), most = n(total);
  const backwards = n(engine.room(8 * tiers.length));
  engine.view(BigUint64Array, Number(backwards), tiers.length).set([...tiers].reverse());
  const line = new TextEncoder().encode(".........\n");
  engine.view(Uint8Array, Number(out), line.length).set(line);
  const half = n(sizes.slice(0, 5).reduce((a, b) => a + b)), first = tiers.at(-1);
  const asks = (of, room) => answer(x.web_ask(of, order, count, records, most, 0, out, n(line.length), out + 100n, room));
  for (const [what, got, wanted] of [
    ["a game past the last", answer(x.web_order(77, out, 1024n)), "no such game"],
    ["an answer of none", asks(77, 4000n), "no such game"],
    ["a check of none", answer(x.web_check(77, order, count, records, most)), "no such game"],
    ["too little room for tiers", answer(x.web_order(game, out, 3n)), "no room"],
    ["too little room for records", answer(x.web_solve_game(game, out, 1024n, out, 100n)), "no room"],
    ["too little room for an answer", asks(game, 10n), "no room"],
    ["one byte less", answer(x.web_check(game, order, count, records, most - 1n)), "wrong records"],
    ["one byte more", answer(x.web_check(game, order, count, records, most + 1n)), "wrong records"],
    ["the first tiers", answer(x.web_check(game, order, 5n, records, half)), 0],
    ["another game's records", answer(x.web_check(NAMES.indexOf("achi"), order, count, records, most)), "wrong records"],
    ["tiers backwards", answer(x.web_check(game, backwards, count, records, most)), "wrong order of tiers"],
    ["no tier", answer(x.web_text(game, 9999n, 0n, out, 64n)), "no such position"],
    ["no index", answer(x.web_text(game, 0n, 1n << 40n, out, 64n)), "no such position"],
    ["too little room for a text", answer(x.web_text(game, first, 0n, out, 3n)), "no room"],
    ["a tier before its child tiers", answer(x.web_solve(game, order, 0n, records, 0n, first, out, n(sizes.at(-1)))), "wrong order of tiers"],
    ["the last tier into too little room", answer(x.web_solve(game, order, 0n, records, 0n, tiers[0], out, n(sizes[0] - 1))), "no room"],
    ["the width of records", [game, NAMES.indexOf("krk"), 77].map(of => Number(x.web_width(of))).join(), "1,4,0"],
  ]) refused(what, got, wanted);
}
try {
  for (const name of NAMES) {
    compare(name);
    change(name);
  }
  wide("krk");
  reasons();
  // A comparison that can't fail is none: with a record turned, the answers differ.
  const bytes = engine.bytes("countdown"), before = engine.ask("countdown", "10\n", 1);
  bytes[10] ^= 1;
  refused("a turned record", engine.ask("countdown", "10\n", 1) === before, false);
} finally { fs.rmSync(kept, { recursive: true, force: true }); }
console.log(`answers: ${compared} compared, ${refusals} refusals, ${faults} faults`);
process.exit(faults ? 1 : 0);
