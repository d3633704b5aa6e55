//! The script of the page: a line of text, and the page as a whole.
/// The sections in their order, and the keys.

// A line of text.
const text = make("input", { type: "text", id: "text", "aria-label": "a line of text" });
const line = make("div", { class: "line" });

function set() {
  const chars = [...text.value].map((char) => char.codePointAt(0));
  const run = chars.map((char) => ofChar.get(char) ?? byNumber(0)).filter((glyph) => glyph !== undefined && !glyph.isRefused);
  const width = run.reduce((sum, glyph) => sum + glyph.advance, 0);
  const svg = draw("svg", { viewBox: `0 ${-high} ${Math.max(width, 1)} ${high - low}`, role: "img", "aria-label": text.value });
  let at = 0;
  for (const glyph of run) {
    svg.append(draw("path", { d: glyph.path, transform: `translate(${at} 0) scale(1 -1)` }));
    at += glyph.advance;
  }
  const missing = [...new Set(chars.filter((char) => !ofChar.has(char)))];
  const lacks = missing.length === 0 ? "" : ` This page has no glyph for: ${missing.map(written).join(" ")}`;
  line.replaceChildren(svg, make("p", { role: "status" }, `Uses the advances of hmtx, without kerning and ligatures.${lacks}`));
}

// The first text: some characters of the font, if it has none of the usual ones.
function firstText() {
  const usual = "Hamburgefonts";
  if ([...usual].some((char) => ofChar.has(char.codePointAt(0)))) return usual;
  return glyphs.flatMap((glyph) => glyph.chars).filter((char) => char > 32).slice(0, 12).map(written).join("");
}

// Keys.
const KEYS = {
  ArrowRight: () => step(shown.step + 1), ArrowLeft: () => step(shown.step - 1), Home: () => step(0), End: () => step(Infinity),
  n: () => go(1), p: () => go(-1), "/": () => search.focus(),
};
function go(by) {
  const glyph = kept[kept.indexOf(shown.glyph) + by];
  if (glyph) show(glyph);
}
function press(event) {
  if (event.ctrlKey || event.metaKey || event.altKey || event.target.matches("input, select")) return;
  if (shown.glyph === null || KEYS[event.key] === undefined) return;
  event.preventDefault();
  KEYS[event.key]();
}

// The sections of the glyphs, and their event handlers.
function glyphSections() {
  text.value = firstText();
  text.addEventListener("input", set);
  for (const input of [search, filter, order]) input.addEventListener("input", list);
  grid.addEventListener("click", (event) => {
    const button = event.target.closest(".cell");
    if (button === null) return;
    show(byNumber(Number(button.dataset.gid)));
    document.getElementById("one").scrollIntoView({ block: "nearest" });
  });
  document.addEventListener("keydown", press);
  window.addEventListener("beforeprint", drawAll);
  matchMedia("print").addEventListener("change", (print) => { if (print.matches) drawAll(); });
  return [
    section("line", "Text", row(text), line), section("all", "Glyphs", row(search, filter, order), found, grid),
    section("one", "Glyph", stage), section("calling", "Subroutines", subroutines),
  ];
}

// The page.
const title = `${font.family ?? font.cff.name ?? "Font"} ${font.style ?? ""}`.trim();
document.title = `${title} · psotf report`;
document.getElementById("title").textContent = title;
document.getElementById("page").append(facts(), ...(isRead ? glyphSections() : []), tables(), parts());
if (isRead) {
  list();
  set();
}
const wanted = byNumber(Number(/^#g(\d+)$/.exec(location.hash)?.[1] ?? NaN));
if (glyphs.length > 0) show(wanted ?? ofChar.get(65) ?? glyphs[0]);
if (wanted !== undefined) document.getElementById("one").scrollIntoView();
