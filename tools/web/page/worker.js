let engine;
const does = {
  begin: async ({ bytes }) => { engine = await Engine.load(bytes); },
  solve: ({ game }, tell) => {
    const held = engine.solve(game, ({ filled, total, done, tiers }) => tell({ filled, total, done, tiers: tiers.length }));
    return { total: held.total, counts: engine.counts(game) };
  },
  ask: ({ game, text }) => engine.ask(game, text),
  random: ({ game, record }) => engine.random(game, record),
  puzzle: ({ game }) => engine.puzzle(game),
};
onmessage = async ({ data }) => {
  const t = performance.now();
  try { const said = await does[data.act](data, told => postMessage({ id: data.id, told })); postMessage({ id: data.id, said, took: performance.now() - t }); }
  catch (error) { postMessage({ id: data.id, failed: String(error.message || error) }); }
};
