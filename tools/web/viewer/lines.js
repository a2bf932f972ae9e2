"use strict";
const $ = id => document.getElementById(id);
const maker = space => (name, attributes = {}, ...children) => {
  const made = document.createElementNS(space, name);
  for (const key in attributes) made.setAttribute(key, attributes[key]);
  made.append(...children);
  return made;
};
const html = maker("http://www.w3.org/1999/xhtml"), svg = maker("http://www.w3.org/2000/svg");
const counted = n => n.toLocaleString("en");

// ---- The lines of the page: one for each game and, in a page of one game, the positions that it has been given. And the game that is open.
const lines = $("data").textContent.trim().split("\n").map(text => JSON.parse(text));
const games = lines.filter(line => !Array.isArray(line)), given = lines.filter(line => Array.isArray(line));
const single = games.length === 1;
// A page without the engine shows the positions that it has been given.
const engined = $("engine").textContent !== "";
for (const part of document.querySelectorAll(engined ? ".tables" : ".solver")) part.hidden = true;
$("many").hidden = single;
let game = null;

