//! The script of the page: the font, its tables, and the parts of its `CFF ` table.
/// The sections of the font as a whole.

// The result of each reader for the CFF table: if it rejects the table, the error, the part, the byte and the rule.
function answer(refusal) {
  if (refusal === undefined) return [`not tried: there are ${count(readings.dictionaries_not_read ?? 0)} Top DICTs`];
  if (refusal === null) return ["accepts it"];
  const { message, code, part, place, rule } = refusal;
  return [`rejects it: ${message} (error ${code})`, part + (place === null ? "" : ` at byte ${count(place)}`), rule];
}
function answers() {
  const asked = [
    ["in-place reader", readings.in_place ?? null], ["strict reader", readings.strict], ["lenient reader", readings.lenient],
  ];
  const rows = asked.map(([how, refusal]) => [how, make("div", {}, ...answer(refusal).map((line) => make("div", {}, line)))]);
  return make("div", { id: "readings" }, table([], rows));
}

function kind() {
  return font.cff.is_cid ? `CID-keyed, ${many(font.cff.fds, "Font DICT")}` : "not CID-keyed";
}
function brought() {
  const told = FEATURES.map(([tag, gids]) => (gids === null ? `${tag} (not searched)` : gids.size > 0 ? `${tag} (${count(gids.size)})` : tag));
  return told.join(", ") || "none";
}
function facts() {
  const { cff } = font;
  const file = ["file", `${many(head.bytes, "byte")}, face ${head.face}${isRead ? ` of ${font.faces}` : ""}`];
  const rows = !isRead ? [file] : [
    ["family", font.family ?? "none"], ["style", font.style ?? "none"], ["version", font.version ?? "none"],
    ["name in the CFF table", cff.name ?? "none"],
    file,
    ["units per em", count(font.units_per_em)],
    ["glyphs", `${count(font.glyphs)} by maxp, ${many(cff.glyphs, "charstring")}, ${count(cff.hinted)} with hints`],
    ["characters", count(font.characters)],
    ["kind", kind()],
    ["encoding, charset", `${cff.encoding}, ${cff.char_set ?? "invalid"}`],
    ["strings", count(cff.strings)],
    ["features of GSUB, glyphs they bring", brought()],
    ["subroutines", `${count(cff.global_subroutines)} global; local: ${cff.local_subroutines.map(count).join(", ")}`],
  ];
  return section("font", "Font", ...pages(), table([], rows), make("h3", {}, "The CFF table"), answers());
}

// Links to the other pages, if there are several.
const pageOf = (gid) => head.pages.find(([, first, end]) => first <= gid && gid < end);
function link([name, first], text, gid) {
  const current = first === head.from ? { "aria-current": "page" } : {};
  return make("a", { href: encodeURIComponent(name) + (gid === undefined ? "" : `#g${gid}`), ...current }, text);
}
function pages() {
  if (head.pages.length < 2) return [];
  const links = head.pages.map((page) => link(page, `${page[1]}–${page[2] - 1}`));
  return [make("nav", { "aria-label": "pages", class: "row" }, make("span", { class: "soft" }, "glyphs "), ...links)];
}

// A strip of parts, each as wide as its size, and the rows of a table of them.
function strip(label, size, parts) {
  const whole = Math.max(size, 1);
  const bar = draw("svg", { class: "strip", viewBox: `0 0 ${whole} 10`, preserveAspectRatio: "none", role: "img", "aria-label": label });
  const rows = [];
  parts.forEach(([name, place, bytes], i) => {
    const title = draw("title", {}, `${name}: ${many(bytes, "byte")} at ${count(place)}`);
    bar.append(draw("rect", { class: `part p${i % 6}`, x: place, y: 0, width: bytes, height: 10 }, title));
    const key = make("span", { class: `key p${i % 6}`, "aria-hidden": "true" });
    rows.push([make("span", {}, key, name), count(place), count(bytes), `${(100 * bytes / whole).toFixed(1)} %`]);
  });
  return [bar, rows];
}

function tables() {
  const [bar, rows] = strip("the tables of the file, as wide as their sizes", head.bytes, head.tables);
  return section("tables", "Tables", bar, table(["tag", "offset", "bytes", "of the file"], rows, [1, 2, 3]));
}

// DICT operators (Technical Note 5176, Tables 9, 10 and 23).
const MEANINGS = {
  Version: "version", Notice: "trademark notice", Copyright: "copyright", FullName: "full name", FamilyName: "family", Weight: "weight",
  FontBBox: "bounds of all glyphs", UniqueID: "unique number", XUID: "extended unique number", CharSet: "offset of the charset",
  Encoding: "offset of the encoding", CharStrings: "offset of the CharStrings INDEX", Private: "size and offset of the Private DICT",
  IsFixedPitch: "1 if all advances are equal", ItalicAngle: "slant in degrees", UnderlinePosition: "position of the underline",
  UnderlineThickness: "thickness of the underline", PaintType: "0: filled, 2: stroked", CharStringType: "charstring format",
  FontMatrix: "from font units to text units", StrokeWidth: "width of strokes", SyntheticBase: "index of the base font",
  PostScript: "PostScript code", BaseFontName: "base font", BaseFontBlend: "its design vector",
  ROS: "registry, ordering and supplement", CIDFontVersion: "version of the CID font", CIDFontRevision: "revision",
  CIDFontType: "type of the CID font", CIDCount: "number of CIDs", UIDBase: "first unique number",
  FDArray: "offset of the Font DICT INDEX", FDSelect: "offset of FDSelect", FontName: "name of the Font DICT",
  BlueValues: "alignment zones", OtherBlues: "lower alignment zones", FamilyBlues: "zones of the family", FamilyOtherBlues: "lower zones of the family",
  StdHW: "usual height of stems", StdVW: "usual width of stems", DefaultWidthX: "width of glyphs without a width operand",
  NominalWidthX: "added to the width operand of a glyph", Subrs: "offset of the local subroutines, from the Private DICT",
  BlueScale: "scale at which overshoots begin to show", BlueShift: "overshoot that always shows", BlueFuzz: "how far zones are extended",
  StemSnapH: "heights of stems", StemSnapV: "widths of stems", ForceBold: "1 if stems are made bold", LanguageGroup: "group of scripts",
  ExpansionFactor: "limit of counter expansion", InitialRandomSeed: "seed of random",
};

function dictionary(entries) {
  const rows = Object.entries(entries).map(([name, operands]) => [name, operands.join(" "), MEANINGS[name] ?? ""]);
  return table(["operator", "operands", "meaning"], rows);
}

const privates = font.cff.privates ?? (font.cff.private ? [font.cff.private] : []);
function dictionaries() {
  const shownAs = (title, list) => list.map((entries, i) => folded(list.length > 1 ? `${title} ${i}` : title, dictionary(entries)));
  const gathered = (title, list) => (list.length > 1 ? [folded(title, ...list)] : list);
  const codes = head.codes.map(([code, gid]) => make("li", {}, `${code}: ${byNumber(gid)?.label || gid}`));
  return [
    make("h3", {}, "Top DICT"), dictionary(font.cff.top),
    ...gathered(`${head.font_dictionaries.length} Font DICTs`, shownAs("Font DICT", head.font_dictionaries)),
    ...gathered(`${privates.length} Private DICTs`, shownAs("Private DICT", privates)),
    ...(codes.length === 0 ? [] : [folded(`Encoding: ${many(codes.length, "code")}`, make("ul", { class: "codes" }, ...codes))]),
  ];
}

function parts() {
  const size = head.tables.find(([tag]) => tag === "CFF ")?.[2] ?? 0;
  let own = -1;
  const named = head.parts.map(([name, ...rest]) => {
    if (name === "Private DICT") own += 1;
    return [privates.length > 1 && own >= 0 ? `${name} ${own}` : name, ...rest];
  });
  const [bar, rows] = strip("the parts of the CFF table, as wide as their sizes", size, named);
  const list = table(["part", "offset", "bytes", "of the table"], rows, [1, 2, 3]);
  return section("cff", "The CFF table", bar, list, ...(isRead ? dictionaries() : []));
}
