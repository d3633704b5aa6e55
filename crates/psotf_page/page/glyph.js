//! The script of the page: one glyph, drawn up to an operation.
/// The selected glyph and all its data.

// The number of segments that an operation draws, by its number of operands.
const four = (n) => Math.floor(n / 4);
const SEGMENTS = {
  21: () => 1, 22: () => 1, 4: () => 1, 5: (n) => n / 2, 6: (n) => n, 7: (n) => n, 8: (n) => n / 6,
  24: (n) => (n - 2) / 6 + 1, 25: (n) => (n - 6) / 2 + 1, 26: four, 27: four, 30: four, 31: four,
  3106: () => 2, 3107: () => 2, 3108: () => 2, 3109: () => 2,
};

// The number of segments drawn after each operation, beginning with 0 before the first.
function drawnBy(operations, segments) {
  const totals = [0];
  let at = 0;
  for (const { code, operands } of operations) {
    let left = SEGMENTS[code]?.(operands.length) ?? 0;
    while (left > 0 && at < segments.length) {
      if (segments[at].kind !== "Z") left -= 1;
      at += 1;
    }
    totals.push(at);
  }
  return totals;
}

const stage = make("div", { class: "view" });
const shown = { glyph: null, step: 0, zoom: 1, x: 0, y: 0, points: true, stems: true };
const MOST_ROWS = 3000;

// The steps of a glyph: the rows of the walk along its code, or only the operations if the walk failed.
function stepsOf(operations, walk) {
  if (walk.why === null) return walk.rows;
  return operations.map((told, i) => ({ code: told.code, text: textOf(told), depth: 0, within: [], at: i + 1, stems: 0, active: null }));
}

// The origin of the width. The proved run knows whether there is a width operand, and the walk knows before which operator.
function widthOf(glyph, walk) {
  const [width, operand] = glyph.widths;
  if (width === undefined) return "none";
  const before = walk.why === null && walk.widthBefore !== null ? ` before ${walk.widthBefore}` : "";
  if (operand === undefined) return `${width}: DefaultWidthX, since there is no width operand${before}`;
  const nominal = privates[glyph.part]?.NominalWidthX?.[0] ?? 0;
  return `${width}: NominalWidthX ${nominal} plus ${operand}, the first operand${before}`;
}

function nameOfSubroutine(key) {
  const [kind, part, number] = key.split(" ");
  if (kind === "global") return `global ${part}`;
  return lists.local.length > 1 ? `local ${number} of Private DICT ${part}` : `local ${number}`;
}
function callsOf(walk) {
  if (walk.why !== null) return [`not known: ${walk.why}`];
  const tally = new Map();
  for (const key of walk.calls) tally.set(key, (tally.get(key) ?? 0) + 1);
  if (tally.size === 0) return ["none"];
  return [...tally].flatMap(([key, times], i) => [i ? ", " : "", toSubroutine(key), times > 1 ? ` ${times} times` : ""]);
}
function toSubroutine(key) {
  const button = make("button", { class: "plain" }, nameOfSubroutine(key));
  button.addEventListener("click", () => openSubroutine(key));
  return button;
}

function lines() {
  const { glyph, walk, segments } = shown;
  const box = (bounds) => (bounds.length === 0 ? "none" : bounds.join(" "));
  const points = segments.reduce((sum, segment) => sum + segment.points.length, 0);
  const [base, accent] = glyph.accent ?? [];
  return [
    ["number, name", `${glyph.gid} ${glyph.label}`],
    ["characters", glyph.chars.map((char) => `${hexed(char)} ${written(char)}`).join(", ") || "none"],
    ["advance by hmtx", count(glyph.advance)],
    ["width in the charstring", widthOf(glyph, walk)],
    ["bounds of all points", box(glyph.bounds)],
    ["bounds of the curves", box(glyph.tightBounds)],
    ["points", count(points)],
    ["charstring", `${many(glyph.bytes, "byte")}; flattened ${count(glyph.flat)}, desubroutinized ${count(glyph.inlined)}`],
    ["cost", many(glyph.cost, "unit")],
    ...(lists.local.length > 1 ? [["Font DICT", String(glyph.part)]] : []),
    ["subroutines", make("span", { id: "calls" }, ...callsOf(walk))],
    ...(base === undefined ? [] : [["seac", `base ${base}, accent ${accent}, in the Standard Encoding`]]),
  ];
}

// The stems as bands, marked if they are active at the step.
function bands({ left, bottom, right, top }) {
  const { walk, steps, step } = shown;
  const row = steps[step - 1];
  if (walk.why !== null || row === undefined) return [];
  const active = row.active === null ? null : new Set(row.active);
  return walk.bands.slice(0, row.stems).map(({ side, from, size, edges }, n) => {
    const level = { x: left, y: from, width: right - left, height: size };
    const upright = { x: from, y: bottom, width: size, height: top - bottom };
    const isActive = active === null || active.has(n);
    const title = draw("title", {}, `stem ${n}: ${edges.join(" to ")}`);
    return draw("rect", { class: isActive ? "stem active" : "stem", ...(side === "H" ? level : upright) }, title);
  });
}

// The view of a glyph before dragging: its bounds, its advance and its baseline, with a margin.
function boxOf(glyph) {
  const [left, bottom, right, top] = glyph.bounds.length === 0 ? [0, 0, 0, 0] : glyph.bounds;
  const pad = font.units_per_em / 10;
  return {
    left: Math.min(0, left) - pad, bottom: Math.min(-2 * pad, bottom - pad),
    right: Math.max(glyph.advance, right, 1) + pad, top: Math.max(7 * pad, top + pad),
  };
}

function viewOf({ left, bottom, right, top }) {
  const width = (right - left) / shown.zoom, height = (top - bottom) / shown.zoom;
  const x = (left + right - width) / 2 + shown.x, y = (bottom + top + height) / 2 + shown.y;
  return { viewBox: `${x} ${-y} ${width} ${height}`, size: Math.max(width, height) / 130 };
}

// The segments that are drawn up to the step.
function drawnSegments() {
  const { segments, steps, totals, step } = shown;
  if (step >= steps.length) return segments;
  return segments.slice(0, totals[step === 0 ? 0 : steps[step - 1].at]);
}

function big() {
  const { glyph } = shown;
  const box = boxOf(glyph), { left, bottom, right, top } = box;
  const { viewBox, size } = viewOf(box);
  const svg = draw("svg", { id: "big", viewBox, role: "img", "aria-label": `glyph ${glyph.gid} ${glyph.label}, large` });
  const up = draw("g", { transform: "scale(1 -1)" });
  if (shown.stems) up.append(...bands(box));
  for (const at of [0, glyph.advance]) up.append(draw("line", { x1: at, x2: at, y1: bottom, y2: top }));
  up.append(draw("line", { x1: left, x2: right, y1: 0, y2: 0 }));
  const kept = drawnSegments();
  up.append(draw("path", { class: "shape", d: kept.map((segment) => segment.text).join("") }));
  const [x, y, endX, endY] = glyph.tightBounds;
  if (x !== undefined) up.append(draw("rect", { class: "box", x, y, width: endX - x, height: endY - y }));
  if (shown.points) up.append(...points(kept, size));
  svg.append(up);
  return svg;
}

function points(segments, size) {
  const marks = [], handles = [];
  let at = [0, 0];
  for (const { kind, points } of segments) {
    if (kind === "Z") continue;
    const end = points.at(-1);
    if (kind === "C") {
      for (const [from, to] of [[at, points[0]], [end, points[1]]]) {
        handles.push(draw("line", { class: "handle", x1: from[0], y1: from[1], x2: to[0], y2: to[1] }));
        marks.push(draw("circle", { class: "off", cx: to[0], cy: to[1], r: size * .8 }, draw("title", {}, to.join(" "))));
      }
    }
    marks.push(draw("circle", { class: "on", cx: end[0], cy: end[1], r: size }, draw("title", {}, end.join(" "))));
    at = end;
  }
  return [...handles, ...marks];
}

function checkbox(name, text) {
  const input = make("input", { type: "checkbox", id: `show-${name}` });
  input.checked = shown[name];
  input.addEventListener("change", () => { shown[name] = input.checked; redraw(); });
  return make("label", {}, input, ` ${text}`);
}

function slider(id, label, [min, max, by, value], move) {
  const range = make("input", { type: "range", id, min, max, step: by, "aria-label": label });
  range.value = value;
  range.addEventListener("input", () => move(Number(range.value)));
  return range;
}

// The rows of the operations. A click, the keys and the slider select the last operation to draw.
function rows() {
  const list = make("ol", { class: "steps code", id: "operations", tabindex: "0", "aria-label": "operations" });
  for (const row of shown.steps.slice(0, MOST_ROWS)) {
    const note = row.note ?? OPERATORS[row.code]?.[1] ?? "";
    const told = [make("span", { class: "op" }, row.text), make("span", { class: "soft" }, note)];
    list.append(make("li", { "data-depth": row.depth, class: `d${Math.min(row.depth, 10)}` }, ...told));
  }
  const left = shown.steps.length - MOST_ROWS;
  if (left > 0) list.append(make("li", { class: "soft" }, `and ${count(left)} more`));
  list.addEventListener("click", (event) => {
    const i = [...list.children].indexOf(event.target.closest("li"));
    if (i >= 0) step(i + 1);
  });
  return list;
}

// Dragging moves the view.
function drag(holder) {
  let from = null;
  holder.addEventListener("pointerdown", (event) => {
    from = [event.clientX, event.clientY, shown.x, shown.y];
    holder.setPointerCapture(event.pointerId);
  });
  holder.addEventListener("pointerup", () => { from = null; });
  holder.addEventListener("pointermove", (event) => {
    if (from === null) return;
    const svg = holder.querySelector("svg"), view = svg.viewBox.baseVal;
    const scale = Math.max(view.width / svg.clientWidth, view.height / svg.clientHeight);
    shown.x = from[2] - (event.clientX - from[0]) * scale;
    shown.y = from[3] + (event.clientY - from[1]) * scale;
    redraw();
  });
}

const told = make("span", { class: "soft", role: "status", id: "told" });
function tell() {
  const row = shown.steps[shown.step - 1];
  const hasStems = row !== undefined && shown.walk.why === null && row.stems > 0;
  const active = hasStems ? `; ${row.active === null ? "all" : row.active.length} of ${many(row.stems, "stem")} active` : "";
  told.textContent = `${shown.step} of ${shown.steps.length}${active}`;
}
function redraw() {
  if (shown.glyph === null || shown.glyph.isRefused) return;
  stage.querySelector(".holder").replaceChildren(big());
  const list = stage.querySelector("#operations");
  [...list.children].forEach((row, i) => row.classList.toggle("done", i < shown.step));
  tell();
  stage.querySelector("#step").value = shown.step;
  const last = list.children[shown.step - 1];
  if (last) list.scrollTop = last.offsetTop - list.offsetTop - list.clientHeight / 2;
}

function stageOf() {
  const { glyph, walk, steps } = shown;
  const refused = `Glyph ${glyph.gid} ${glyph.label.slice(0, 300)} has an error: ${glyph.refusal}`;
  if (glyph.isRefused) return [make("p", { class: "refused", id: "glyph" }, refused)];
  const holder = make("div", { class: "holder" });
  drag(holder);
  const zoom = slider("zoom", "zoom", [1, 12, .5, 1], (to) => { shown.zoom = to; redraw(); });
  const slide = slider("step", "draw up to this operation", [0, steps.length, 1, shown.step], step);
  return [
    make("div", {}, holder, row(make("label", {}, "zoom ", zoom), checkbox("points", "points and handles"), checkbox("stems", "stems"))),
    make("div", { id: "glyph" }, table([], lines()), row(make("label", {}, "operations ", slide), told),
      ...(walk.why === null ? [] : [make("p", {}, `Calls and stems are not known: ${walk.why}.`)]),
      rows(), folded("bytes of the charstring", make("p", { class: "code" }, spaced(glyph.row[12])))),
  ];
}

function step(n) {
  shown.step = Math.max(0, Math.min(n, shown.steps?.length ?? 0));
  redraw();
}

function show(glyph) {
  Object.assign(shown, { glyph, zoom: 1, x: 0, y: 0, steps: [] });
  for (const button of grid.querySelectorAll("[aria-current]")) button.removeAttribute("aria-current");
  grid.querySelector(`[data-gid="${glyph.gid}"]`)?.setAttribute("aria-current", "true");
  if (!glyph.isRefused) {
    const operations = glyph.operations, segments = glyph.segments, walk = new Walk(glyph);
    Object.assign(shown, { walk, segments, totals: drawnBy(operations, segments), steps: stepsOf(operations, walk) });
  }
  shown.step = shown.steps.length;
  stage.replaceChildren(...stageOf());
  redraw();
}
