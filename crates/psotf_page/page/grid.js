//! The script of the page: the grid of glyphs, its search and its filters.
/// Cells are made and drawn when they are scrolled into view, and all of them before printing.

// Pictures of glyphs.
const low = Math.min(-font.units_per_em / 4, Number(font.cff.top.FontBBox?.[1] ?? 0));
const high = Math.max(font.units_per_em, Number(font.cff.top.FontBBox?.[3] ?? 0));

function picture(glyph) {
  const box = `0 ${-high} ${Math.max(glyph.advance, 1)} ${high - low}`;
  return draw("svg", { viewBox: box, "aria-hidden": "true" }, draw("path", { d: glyph.path, transform: "scale(1 -1)" }));
}

const isHint = ({ code }) => STEMS.includes(code) || MASKS.includes(code);
const FILTERS = {
  all: ["all", () => true],
  refused: ["with errors", (glyph) => glyph.isRefused],
  empty: ["empty", (glyph) => glyph.isEmpty],
  hints: ["with hints", (glyph) => !glyph.isRefused && glyph.operations.some(isHint)],
  calls: ["calling subroutines", (glyph) => !glyph.isRefused && glyph.flat > glyph.bytes],
  accented: ["seac", (glyph) => glyph.accent !== undefined],
  unmapped: ["without a character", (glyph) => glyph.chars.length === 0],
};
// The glyphs that each feature of `GSUB` brings: they have no character, and its lookups make them of glyphs with one.
const FEATURES = (head.features ?? []).map(([tag, differences]) => {
  let gid = 0;
  return [tag, differences === null ? null : new Set(numbers(differences).map((by) => (gid += by)))];
});
for (const [tag, gids] of FEATURES) {
  if (gids !== null && gids.size > 0) FILTERS[`feature ${tag}`] = [`brought by ${tag}`, (glyph) => gids.has(glyph.gid)];
}
const ORDERS = {
  gid: ["by number", () => 0],
  cost: ["highest cost first", (glyph) => -glyph.cost],
  bytes: ["longest first", (glyph) => -glyph.bytes],
};

function isFound(glyph, words) {
  if (words === "") return true;
  const upper = words.toUpperCase(), lower = words.toLowerCase();
  if (glyph.chars.some((char) => written(char) === words || hexed(char) === upper)) return true;
  if (String(glyph.gid) === words || glyph.label === words) return true;
  return font.cff.is_cid ? `cid ${glyph.name}` === lower : words.length > 1 && glyph.label.toLowerCase().includes(lower);
}

const options = (from) => Object.entries(from).map(([key, [name]]) => make("option", { value: key }, name));
const grid = make("ul", { class: "grid", "aria-label": "glyphs", tabindex: "0" });
const found = make("p", { role: "status", id: "found" });
const hint = "A, U+0041, name, number, cid 7";
const search = make("input", { type: "search", id: "search", placeholder: hint, "aria-label": "search glyphs" });
const filter = make("select", { id: "filter", "aria-label": "which glyphs" }, ...options(FILTERS));
const order = make("select", { id: "order", "aria-label": "order" }, ...options(ORDERS));

// The found glyphs, how many of them have a cell, and an element after the cells. When it is seen, `CHUNK` more cells are made.
const CHUNK = 240;
const more = make("li", { class: "more" });
let kept = [], made = 0;
const watch = new IntersectionObserver((entries) => {
  for (const { target, isIntersecting } of entries) {
    if (isIntersecting && target === more) addCells(CHUNK);
    else if (isIntersecting) drawCell(target);
  }
}, { root: grid, rootMargin: "300px" });

function drawCell(button) {
  watch.unobserve(button);
  const glyph = byNumber(Number(button.dataset.gid));
  if (!glyph.isRefused && button.querySelector("svg") === null) button.prepend(picture(glyph));
}

function cell(glyph) {
  const name = [glyph.gid, glyph.label, glyph.chars.map(written).join("")].filter((word) => word !== "").join(" ");
  const told = glyph.isRefused ? [make("span", { class: "why" }, glyph.refusal)] : [];
  const current = glyph === shown.glyph ? { "aria-current": "true" } : {};
  const marks = { class: "cell", "data-gid": glyph.gid, title: name.slice(0, 300), ...current };
  const button = make("button", marks, ...told, make("span", {}, name));
  watch.observe(button);
  return make("li", {}, button);
}

function addCells(many) {
  watch.unobserve(more);
  more.before(...kept.slice(made, made + many).map(cell));
  made = Math.min(kept.length, made + many);
  if (made < kept.length) watch.observe(more);
}

// Print all found glyphs.
function drawAll() {
  addCells(kept.length);
  for (const button of grid.querySelectorAll(".cell")) drawCell(button);
}

// Links to a glyph on another page, found by its number or a character.
function charIn(words) {
  if (/^U\+[0-9a-f]+$/i.test(words)) return parseInt(words.slice(2), 16);
  return [...words].length === 1 ? words.codePointAt(0) : undefined;
}
function elsewhere(words) {
  if (head.pages.length < 2 || words === "") return [];
  let gid = /^\d+$/.test(words) ? Number(words) : undefined;
  const char = charIn(words);
  const runs = char === undefined ? [] : numbers(head.index);
  for (let i = 0; i + 2 < runs.length; i += 3) if (runs[i] <= char && char < runs[i] + runs[i + 2]) gid = runs[i + 1] + char - runs[i];
  const page = gid === undefined ? undefined : pageOf(gid);
  return page === undefined || page[1] === head.from ? [] : ["; ", link(page, `glyph ${gid} is on another page`, gid)];
}

function held() {
  const all = font.cff.glyphs;
  if (glyphs.length === all) return "";
  const which = glyphs.length === 0 ? "none" : `glyphs ${head.from} to ${head.from + glyphs.length - 1}`;
  return `; this page holds ${which} of ${count(all)}`;
}

function list() {
  const words = search.value.trim();
  kept = glyphs.filter((glyph) => isFound(glyph, words) && FILTERS[filter.value][1](glyph));
  if (order.value !== "gid") { const rank = ORDERS[order.value][1]; kept.sort((a, b) => rank(a) - rank(b)); }
  watch.disconnect();
  made = 0;
  grid.replaceChildren(more);
  addCells(CHUNK);
  found.replaceChildren(`${count(kept.length)} of ${many(glyphs.length, "glyph")}${held()}`, ...elsewhere(words));
  if (words !== "" && kept.length > 0) show(kept[0]);
}
