"""Questions to a page in a browser: which words stand out too little, and what can be pressed and has no name."""

# Texts whose colour and what is behind it have a contrast of less than 4.5, as WCAG reckons it. Those of buttons that are switched off may.
CONTRAST = r"""(() => {
  const light = colour => {
    const [r, g, b] = colour.map(v => { v /= 255; return v <= .03928 ? v / 12.92 : ((v + .055) / 1.055) ** 2.4; });
    return .2126 * r + .7152 * g + .0722 * b;
  };
  const colour = text => { const m = (text.match(/[\d.]+/g) || [0, 0, 0, 0]).map(Number); return m[3] === 0 ? null : m.slice(0, 3); };
  const under = e => {
    for (; e; e = e.parentElement) { const found = colour(getComputedStyle(e).backgroundColor); if (found) return found; }
    return [255, 255, 255];
  };
  const behind = e => {
    if (!e.namespaceURI.endsWith("svg")) return under(e);
    const shape = e.classList.contains("name") ? null : e.previousElementSibling, fill = shape && colour(getComputedStyle(shape).fill);
    return fill || under(e.ownerSVGElement);
  };
  const out = [];
  for (const e of document.querySelectorAll("body *")) {
    if (e.closest("script, style, noscript") || e.disabled || !e.getClientRects().length) continue;
    if (![...e.childNodes].some(n => n.nodeType === 3 && n.data.trim())) continue;
    const style = getComputedStyle(e), own = colour(e.namespaceURI.endsWith("svg") ? style.fill : style.color);
    const [less, more] = [light(own), light(behind(e))].sort((a, b) => a - b), ratio = (more + .05) / (less + .05);
    if (ratio < 4.5) out.push([e.tagName, e.textContent.slice(0, 20), +ratio.toFixed(2)]);
  }
  return out;
})()"""

# What can be pressed, or is a part of its own, and has no name.
NAMELESS = """[...document.querySelectorAll("button, a, [role=button], svg[role], section")].filter(e => e.getClientRects().length).filter(e => {
  const by = e.getAttribute("aria-labelledby");
  return !(e.getAttribute("aria-label") || (by && document.getElementById(by).textContent) || e.textContent.trim());
}).map(e => e.outerHTML.slice(0, 80))"""

# Whether each place of the board that can be pressed is called by the name of its point.
NAMED = "board.places.every(({ g }, k) => !g.hasAttribute('role') || (g.getAttribute('aria-label') || '').startsWith(game.points[k]))"
