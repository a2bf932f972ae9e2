// The engine, for a worker of a page or for node: the module's exports, with what they are given and what they write in its memory. The records of each game
// that was solved stay there: web_ask and web_solve require what web_solve has written, so nothing else writes to them.
const NAMES = ["countdown", "wheel", "tactix-1", "tactix-2", "tactix-3", "tactix-4", "tactix-1-misere", "tactix-2-misere", "tactix-3-misere", "tactix-4-misere",
  "tictactoe", "threemens", "achi", "mutorere", "dao", "hare", "ponghauki", "shisima", "takeaway", "tapatan", "dodgem", "krk", "kqk", "tictactoe-misere",
  "notakto", "hex-3", "hexapawn", "nineholes", "picaria", "toads", "domineering-4", "cram-4", "kayles", "kpk", "connect4-4x4", "nim", "nim-misere", "chomp"];
const REFUSED = 0xffffffffffffff00n;
const REASONS = [
  "no such game", "out of memory", "wrong order of tiers", "wrong records", "too far from the end", "no room", "no such position",
  "a position of a tier that is not solved",
];
const TIERS = 1024;
// The number of a record is the code of its value times this, plus its remoteness.
const STEP = 1 << 20;
// Addresses and lengths have 64 bits at the module's edge, though its memory has 32.
const n = BigInt;

class Engine {
  static async load(bytes) {
    const engine = new Engine();
    engine.x = (await WebAssembly.instantiate(bytes, {})).instance.exports;
    engine.games = new Map();
    return engine;
  }
  room(bytes) {
    const at = Number(this.x.web_room(n(Math.max(bytes, 1))));
    if (!at) throw new Error("out of memory");
    return at;
  }
  free(at) { this.x.web_free(n(at)); }
  view(Kind, at, count) { return new Kind(this.x.memory.buffer, at, count); }
  // The number that an export answers, unless it refuses.
  number(answer) {
    const told = BigInt.asUintN(64, answer);
    if (told >= REFUSED) throw new Error(REASONS[Number(told - REFUSED)]);
    return Number(told);
  }
  begin(name) {
    const game = NAMES.indexOf(name), order = this.room(8 * TIERS), count = this.number(this.x.web_order(game, n(order), n(TIERS)));
    const tiers = [...this.view(BigUint64Array, order, count)], sizes = tiers.map(t => this.number(this.x.web_size(game, t)));
    const width = this.number(this.x.web_width(game)), total = width * sizes.reduce((a, b) => a + b, 0);
    const held = { game, order, tiers, sizes, width, total, records: this.room(total), done: 0, filled: 0 };
    this.games.set(name, held);
    return held;
  }
  // Solves the next tier.
  next(held) {
    const { game, order, tiers, sizes, width, records, done, filled } = held, size = width * sizes[done];
    this.number(this.x.web_solve(game, n(order), n(done), n(records), n(filled), tiers[done], n(records + filled), n(size)));
    held.done++;
    held.filled += size;
  }
  solve(name, tell = () => {}) {
    const held = this.games.get(name) || this.begin(name);
    while (held.done < held.tiers.length) { this.next(held); tell(held); }
    return held;
  }
  ask(name, text, asked = 0, capacity = 0) {
    const { game, order, records, done, filled } = this.games.get(name), bytes = new TextEncoder().encode(text);
    const most = capacity || 40000 * (text.split("\n").length + 1), from = this.room(bytes.length), out = this.room(most);
    try {
      this.view(Uint8Array, from, bytes.length).set(bytes);
      const long = this.number(this.x.web_ask(game, n(order), n(done), n(records), n(filled), asked, n(from), n(bytes.length), n(out), n(most)));
      return new TextDecoder().decode(this.view(Uint8Array, out, long).slice());
    } finally { this.free(from); this.free(out); }
  }
  // The bytes of the records, which are only read.
  bytes(name) { const { records, filled } = this.games.get(name); return this.view(Uint8Array, records, filled); }
  // The records as they are kept: a byte each, of the value's code times 32 and the remoteness, or four bytes, of its number; 0 if no position has this index.
  kept(name) {
    const { records, filled, width } = this.games.get(name);
    return width === 1 ? this.bytes(name) : this.view(Uint32Array, records, filled / 4);
  }
  // The number of a record that is kept so, and back.
  numbered(name, kept) { return this.games.get(name).width === 1 ? (kept >> 5) * STEP + (kept & 31) : kept; }
  short(name, record) { return this.games.get(name).width === 1 ? Math.floor(record / STEP) * 32 + record % STEP : record; }
  // How many canonical positions have each record: pairs of its number and the count. They are counted once.
  counts(name) {
    const held = this.games.get(name), counts = new Map();
    if (held.counts?.done === held.done) return held.counts.pairs;
    for (const kept of this.kept(name)) if (kept) counts.set(kept, (counts.get(kept) || 0) + 1);
    const pairs = [...counts].map(([kept, count]) => [this.numbered(name, kept), count]);
    held.counts = { done: held.done, pairs };
    return pairs;
  }
  // The text of a random canonical position, of all of them or of those with this record.
  random(name, record = 0) {
    const { game, tiers, sizes } = this.games.get(name), records = this.kept(name), wanted = this.short(name, record);
    const of = this.counts(name).reduce((sum, [number, count]) => sum + (!record || number === record ? count : 0), 0);
    let left = Math.floor(Math.random() * of), at = 0, tier = 0;
    for (;; at++) if ((record ? records[at] === wanted : records[at]) && left-- === 0) break;
    while (at >= sizes[tier]) at -= sizes[tier++];
    const out = this.room(64);
    try {
      const long = this.number(this.x.web_text(game, tiers[tier], n(at), n(out), 64n));
      return new TextDecoder().decode(this.view(Uint8Array, out, long).slice());
    } finally { this.free(out); }
  }
  // A random position that is won in `least` moves or more, by exactly one of its moves: its text and remoteness, or null if none is found.
  puzzle(name, least = 3) {
    const wins = this.counts(name).map(([record]) => record).filter(record => record >= 4 * STEP + least);
    for (let tries = 0; wins.length && tries < 20; tries++) {
      const record = wins[Math.floor(Math.random() * wins.length)], texts = Array.from({ length: 12 }, () => this.random(name, record));
      const told = this.ask(name, texts.map(text => text + "\n").join("")).trim().split("\n").map(line => JSON.parse(line));
      const found = told.findIndex(({ moves }) => moves.length > 1 && moves.filter(m => m.moveValue === "win").length === 1);
      if (found >= 0) return { text: texts[found], remoteness: told[found].remoteness };
    }
    return null;
  }
}
// Names for node (examples/node), which has modules; a worker has none.
if (typeof module === "object") module.exports = { Engine, NAMES, REFUSED, REASONS, STEP };
