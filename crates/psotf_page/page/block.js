//! The script of the page: making of elements, and reading of the block of JSON.
/// Reads the block, and makes elements. Texts of the block enter the page through `put` only.

"use strict";

// All data about the font are in one block of JSON (docs/report-format.md). Its texts enter the page only through `textContent`, or
// through attributes that are neither links nor scripts.
const data = JSON.parse(document.getElementById("data").textContent);
const head = data.head;
const SVG = "http://www.w3.org/2000/svg";

// The data about the font. If the in-place reader rejects the CFF table, only the error can be shown.
const isRead = head.font !== undefined;
const UNREAD = { glyphs: 0, top: {}, is_cid: false };
const font = head.font ?? { units_per_em: 1000, cff: UNREAD };
const readings = head.readings ?? font.cff;

function put(node, attributes, children) {
  for (const [name, value] of Object.entries(attributes)) node.setAttribute(name, value);
  for (const child of children) node.append(child);
  return node;
}
const make = (tag, attributes = {}, ...children) => put(document.createElement(tag), attributes, children);
const draw = (tag, attributes = {}, ...children) => put(document.createElementNS(SVG, tag), attributes, children);
const section = (id, title, ...children) => make("section", { id, "aria-label": title }, make("h2", {}, title), ...children);
const folded = (title, ...children) => make("details", {}, make("summary", {}, title), ...children);
const row = (...children) => make("div", { class: "row" }, ...children);
const count = (n) => Number(n).toLocaleString("en");
const many = (n, one, more = `${one}s`) => `${count(n)} ${n === 1 ? one : more}`;
const written = (char) => String.fromCodePoint(char);
const hexed = (char) => `U+${char.toString(16).toUpperCase().padStart(4, "0")}`;
const spaced = (hex) => hex.replace(/../g, "$& ");

function table(titles, rows, numbers = []) {
  const isLong = (text) => typeof text === "string" && text.length > 300;
  const held = (text) => (isLong(text) ? make("div", { class: "long", tabindex: "0" }, text) : text);
  const cell = (tag) => (text, i) => make(tag, numbers.includes(i) ? { class: "number" } : {}, held(text));
  const titled = titles.length === 0 ? [] : [make("thead", {}, make("tr", {}, ...titles.map(cell("th"))))];
  return make("table", {}, ...titled, make("tbody", {}, ...rows.map((cells) => make("tr", {}, ...cells.map(cell("td"))))));
}

// Numbers of the block: digits of five bits, lowest first, the sign in the lowest bit. A point precedes a number in 65536ths.
const DIGITS = new Int8Array(128);
const LETTERS = "ABCDEFGHIJKLMNOPQRSTUVWXYZabcdefghijklmnopqrstuvwxyz0123456789+/";
[...LETTERS].forEach((digit, i) => { DIGITS[digit.charCodeAt(0)] = i; });
function numbers(text) {
  const found = [];
  let sum = 0, unit = 1, scale = 1;
  for (let i = 0; i < text.length; i++) {
    const letter = text.charCodeAt(i);
    if (letter === 46) { scale = 65536; continue; }
    const digit = DIGITS[letter];
    sum += (digit & 31) * unit;
    unit *= 32;
    if (digit & 32) continue;
    const size = Math.floor(sum / 2);
    found.push((sum % 2 === 1 ? -size : size) / scale);
    sum = 0; unit = 1; scale = 1;
  }
  return found;
}

const bytesOf = (hex) => Uint8Array.from({ length: hex.length / 2 }, (_, i) => parseInt(hex.slice(2 * i, 2 * i + 2), 16));

// A glyph, by its row. Getters decode their item when they are read.
const POINTS = { M: 1, L: 1, C: 3, Z: 0 };
const MASKS = [19, 20];
class Glyph {
  constructor(row, gid) { this.row = row; this.gid = gid; }
  get isRefused() { return this.row.length === 5; }
  get refusal() { return this.row[4]; }
  get name() { return this.row[0]; }
  get chars() { return this.row[1]; }
  get advance() { return this.row[2]; }
  get part() { return this.row[3]; }
  get widths() { return this.row[4] === null ? [] : numbers(this.row[4]); }
  get bounds() { return numbers(this.row[5]).slice(0, 4); }
  get tightBounds() { return numbers(this.row[5]).slice(4); }
  get cost() { return this.isRefused ? 0 : this.row[6]; }
  get flat() { return this.row[7]; }
  get inlined() { return this.row[8]; }
  get bytes() { return this.isRefused ? 0 : this.row[12].length / 2; }
  get accent() { return this.row[13]; }
  get isEmpty() { return !this.isRefused && this.row[9] === ""; }
  get label() { return this.name === null ? "" : font.cff.is_cid ? `CID ${this.name}` : this.name; }

  // The outline: the letter, the points and the SVG text of each segment, with y upwards.
  get segments() {
    const moves = numbers(this.row[10]);
    let i = 0, x = 0, y = 0;
    return [...this.row[9]].map((kind) => {
      const points = [];
      for (let left = POINTS[kind]; left > 0; left--) { x += moves[i++]; y += moves[i++]; points.push([x, y]); }
      return { kind, points, text: kind + points.join(" ") };
    });
  }
  get path() { return this.segments.map((segment) => segment.text).join(""); }

  // The operations of the run: the code of each operator and its operands, and for a mask its implied stems and its bytes.
  get operations() {
    const told = numbers(this.row[11]);
    const operations = [];
    let at = 0;
    const list = () => { const from = at + 1, end = from + told[at]; at = end; return told.slice(from, end); };
    while (at < told.length) {
      const code = told[at++];
      const isMask = MASKS.includes(code);
      operations.push({ code, operands: list(), stems: isMask ? list() : [], mask: isMask ? list() : [] });
    }
    return operations;
  }
}

const glyphs = data.glyphs.map((row, i) => new Glyph(row, head.from + i));
const byNumber = (gid) => glyphs[gid - head.from];
const ofChar = new Map();
for (const glyph of glyphs) for (const char of glyph.chars) ofChar.set(char, glyph);
