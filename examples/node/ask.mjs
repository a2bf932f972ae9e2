// ask.mjs MODULE GAME POSITION ..: solves a game by the WebAssembly module of a release, and answers positions as `gamesman ask GAME --values` does.
import fs from "node:fs";
import { Engine } from "./engine.cjs";

// What an answer leaves out: the moves.
const VALUES = 1;

function tell({ done, tiers }) {
  if (process.stderr.isTTY) process.stderr.write(`\r${done} of ${tiers.length} tiers${done < tiers.length ? "" : "\n"}`);
}

const [module, game, ...positions] = process.argv.slice(2);
try {
  const engine = await Engine.load(fs.readFileSync(module));
  engine.solve(game, tell);
  process.stdout.write(engine.ask(game, positions.map(position => `${position}\n`).join(""), VALUES));
} catch (error) {
  console.error(`ask.mjs: ${error.message}`);
  process.exitCode = 1;
}
