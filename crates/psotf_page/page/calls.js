//! The script of the page: subroutines, and the glyphs that call them.
/// Calls are counted when they are first shown.

// Subroutines, counted over the glyphs of the page when they are first shown.
const callers = new Map();
const MOST_LISTED = 200;
const unfollowed = [];
const all = lists.global.length + lists.local.reduce((sum, list) => sum + list.length, 0);
const summary = make("summary", {}, `${many(all, "subroutine")}: number of calls, and the glyphs that call them`);
const counted = make("p", { role: "status" }, "");
const listed = make("div", { class: "listed" });
const one = make("div", { id: "subroutine" });
const subroutines = make("details", { id: "subroutines" }, summary, counted, one, listed);
const pause = () => new Promise((done) => setTimeout(done, 0));

function countOf(glyph) {
  const walk = new Walk(glyph);
  if (walk.why !== null) { unfollowed.push(glyph); return; }
  for (const key of walk.calls) {
    if (!callers.has(key)) callers.set(key, { times: 0, gids: [] });
    const entry = callers.get(key);
    entry.times += 1;
    if (entry.gids.at(-1) !== glyph.gid) entry.gids.push(glyph.gid);
  }
}

function summed() {
  const by = many(glyphs.length, "glyph");
  const called = `${many(callers.size, "subroutine")} called by the ${by} of this page, ${count(all - callers.size)} not called`;
  const lost = unfollowed.length === 0 ? "" : `; ${many(unfollowed.length, "glyph")} not analysed`;
  return called + lost + (callers.size > MOST_LISTED ? `; the ${MOST_LISTED} with the most calls` : "");
}

async function countAll() {
  for (let i = 0; i < glyphs.length; i++) {
    if (i % 250 === 0) { counted.textContent = `${count(i)} of ${many(glyphs.length, "glyph")} done`; await pause(); }
    if (!glyphs[i].isRefused) countOf(glyphs[i]);
  }
  counted.textContent = summed();
  const most = [...callers].sort((a, b) => b[1].times - a[1].times).slice(0, MOST_LISTED);
  const rows = most.map(([key, { times, gids }]) => [toSubroutine(key), count(codeOf(key).length / 2), count(times), count(gids.length)]);
  listed.replaceChildren(table(["subroutine", "bytes", "calls", "glyphs"], rows, [1, 2, 3]));
}
let counting = null;
const countOnce = () => (counting ??= countAll());

function codeOf(key) {
  const [kind, part, number] = key.split(" ");
  return kind === "global" ? lists.global[Number(part)] : lists.local[Number(part)][Number(number)];
}

// The segments that a subroutine draws, in the first glyph that calls it.
function drawnIn(key, gid) {
  const glyph = byNumber(gid), walk = new Walk(glyph), segments = glyph.segments;
  const totals = drawnBy(glyph.operations, segments);
  const svg = picture(glyph);
  svg.firstChild.setAttribute("class", "faint");
  for (const row of walk.rows) {
    if (!row.within.includes(key) || row.at === 0 || row.code === 11 || row.calls !== undefined) continue;
    const from = totals[row.at - 1], to = totals[row.at];
    const before = from > 0 ? segments[from - 1].points.at(-1) ?? segments[from - 2]?.points.at(-1) : undefined;
    const open = before && segments[from]?.kind !== "M" && from < to ? `M${before.join(" ")}` : "";
    const drawn = segments.slice(from, to).filter(({ kind }) => kind !== "Z").map(({ text }) => text);
    svg.append(draw("path", { class: "traced", transform: "scale(1 -1)", d: open + drawn.join("") }));
  }
  return svg;
}

function toGlyph(gid) {
  const button = make("button", { class: "plain", "data-glyph": gid }, byNumber(gid).label || String(gid));
  button.addEventListener("click", () => { show(byNumber(gid)); document.getElementById("one").scrollIntoView(); });
  return button;
}

function traced(key, gids) {
  if (gids.length === 0) return [];
  const where = `Its part of glyph ${gids[0]} ${byNumber(gids[0]).label}, in red.`;
  return [make("div", { class: "traced-in" }, drawnIn(key, gids[0])), make("p", {}, where)];
}

async function openSubroutine(key) {
  subroutines.open = true;
  await countOnce();
  const { times, gids } = callers.get(key) ?? { times: 0, gids: [] };
  const size = codeOf(key).length / 2;
  const named = gids.slice(0, MOST_LISTED).flatMap((gid, i) => [i ? ", " : "", toGlyph(gid)]);
  const rest = gids.length > MOST_LISTED ? ` and ${count(gids.length - MOST_LISTED)} more` : "";
  one.replaceChildren(make("h3", { tabindex: "-1" }, `Subroutine ${nameOfSubroutine(key)}`),
    make("p", {}, `${many(size, "byte")}, called ${many(times, "time")} by ${many(gids.length, "glyph")} of this page.`),
    ...traced(key, gids),
    make("p", { class: "code" }, spaced(codeOf(key))),
    make("p", { id: "callers" }, "Called by: ", ...named, rest));
  one.firstChild.focus();
}
subroutines.addEventListener("toggle", () => { if (subroutines.open) countOnce(); });
