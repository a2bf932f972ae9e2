// node --experimental-websocket firefox.mjs PAGE [FOLDER]: opens the page with all games from its file in Firefox without a window, at two widths and in two
// schemes. For some games it prints the time to the first value, that to a position never seen, and what does not fit. Then it does what players do (uses.js). By
// hand: the gate tries Chromium.
import { spawn } from "child_process";
import fs from "fs";
import os from "os";
import path from "path";
const USES = fs.readFileSync(new URL("uses.js", import.meta.url), "utf8");
const page = path.resolve(process.argv[2]), READY = "($('fault').textContent !== '') || (game && line.length && $('state').textContent !== '') ? 'yes' : 'no'";
const FRESH = `(async () => {
  const took = [];
  for (let k = 0; k < 9; k++) {
    const text = await ask("random", { game: game.game, record: 0 }), start = performance.now();
    await find(text);
    took.push(performance.now() - start);
  }
  return String(Math.round(took.sort((a, b) => a - b)[4]));
})()`;
let faults = 0;
async function tried(dark, port) {
  const home = fs.mkdtempSync(path.join(os.tmpdir(), "web-firefox-"));
  fs.writeFileSync(path.join(home, "user.js"), `user_pref("layout.css.prefers-color-scheme.content-override", ${dark ? 0 : 1});\n`);
  const words = ["--headless", "--no-remote", "--profile", home, "--remote-debugging-port", String(port)];
  const firefox = spawn("firefox-esr", words, { stdio: ["ignore", "pipe", "pipe"] });
  const url = await new Promise((done, failed) => {
    const look = data => { const found = String(data).match(/WebDriver BiDi listening on (ws:\S+)/); if (found) done(found[1]); };
    firefox.stderr.on("data", look);
    firefox.stdout.on("data", look);
    setTimeout(() => failed(new Error("Firefox does not answer")), 60000);
  });
  const socket = new WebSocket(url + "/session"), waits = new Map();
  await new Promise(done => { socket.onopen = done; });
  let number = 0;
  socket.onmessage = ({ data }) => { const told = JSON.parse(data); waits.get(told.id)?.(told); };
  const call = (method, params) => new Promise(done => { waits.set(++number, done); socket.send(JSON.stringify({ id: number, method, params })); });
  await call("session.new", { capabilities: {} });
  const context = (await call("browsingContext.getTree", {})).result.contexts[0].context;
  const js = async expression => {
    const told = await call("script.evaluate", { expression, target: { context }, awaitPromise: true });
    return told.result?.result?.value ?? JSON.stringify(told.result ?? told);
  };
  for (const [width, height] of [[1280, 960], [360, 780]]) {
    await call("browsingContext.setViewport", { context, viewport: { width, height } });
    for (const game of ["dao", "tactix-4", "hare"]) {
      await call("browsingContext.navigate", { context, url: "about:blank", wait: "complete" });
      const start = Date.now();
      await call("browsingContext.navigate", { context, url: `file://${page}#${game}`, wait: "complete" });
      for (let k = 0; k < 1500 && await js(READY) !== "yes"; k++) await new Promise(done => setTimeout(done, 10));
      const took = Date.now() - start, fault = await js("$('fault').textContent");
      const over = await js("String(document.documentElement.scrollWidth - document.documentElement.clientWidth)");
      if (fault || over !== "0") faults++;
      const where = `${game} at ${width}, ${dark ? "dark" : "light"}`, state = await js("$('state').textContent");
      console.log(`${where}: ${took} ms to the first value, ${await js(FRESH)} ms for a new position, ${over} pixels too wide, '${state}' ${fault}`);
    }
  }
  if (!dark) {
    await call("browsingContext.setViewport", { context, viewport: { width: 1280, height: 960 } });
    for (const part of JSON.parse(await js(`globalThis.USES = ${USES}; JSON.stringify(Object.keys(USES))`))) {
      const wrong = JSON.parse(await js(`USES[${JSON.stringify(part)}]().then(JSON.stringify)`));
      for (const why of wrong) console.log(`WRONG: ${why}`);
      faults += wrong.length;
    }
  }
  const shot = await call("browsingContext.captureScreenshot", { context });
  if (process.argv[3]) fs.writeFileSync(path.join(process.argv[3], `firefox-${dark ? "dark" : "light"}.png`), Buffer.from(shot.result.data, "base64"));
  await call("browser.close", {});
  await new Promise(done => setTimeout(done, 500));
  firefox.kill();
  fs.rmSync(home, { recursive: true, force: true });
}
await tried(false, 9333);
await tried(true, 9334);
console.log(`firefox: ${faults} faults`);
process.exit(faults ? 1 : 0);
