//! The script of the page: charstring operators, and the walk along the bytes of a glyph.
/// Finds calls, and the operator after a width, which are not in the block.

// Charstring operators (Technical Note 5177, Appendix A): the name, and the meaning of the operands.
const FLEX = "two curves, which may be drawn as a line";
const OPERATORS = {
  1: ["hstem", "horizontal stems: y dy, each from the previous edge"],
  3: ["vstem", "vertical stems: x dx, each from the previous edge"],
  4: ["vmoveto", "begins a contour after dy"],
  5: ["rlineto", "lines, each by dx dy"],
  6: ["hlineto", "lines, alternately by dx and by dy"],
  7: ["vlineto", "lines, alternately by dy and by dx"],
  8: ["rrcurveto", "curves, three points each"],
  10: ["callsubr", "calls a local subroutine"],
  11: ["return", "returns from the subroutine"],
  14: ["endchar", "ends the glyph"],
  18: ["hstemhm", "horizontal stems, with masks later"],
  19: ["hintmask", "selects the active stems"],
  20: ["cntrmask", "groups stems whose counters are kept equal"],
  21: ["rmoveto", "begins a contour after dx dy"],
  22: ["hmoveto", "begins a contour after dx"],
  23: ["vstemhm", "vertical stems, with masks later"],
  24: ["rcurveline", "curves, then a line"],
  25: ["rlinecurve", "lines, then a curve"],
  26: ["vvcurveto", "curves, vertical at both ends"],
  27: ["hhcurveto", "curves, horizontal at both ends"],
  29: ["callgsubr", "calls a global subroutine"],
  30: ["vhcurveto", "curves, alternately vertical and horizontal at the start"],
  31: ["hvcurveto", "curves, alternately horizontal and vertical at the start"],
  3106: ["hflex", FLEX], 3107: ["flex", FLEX], 3108: ["hflex1", FLEX], 3109: ["flex1", FLEX],
};
const nameOf = (code) => OPERATORS[code]?.[0] ?? `operator ${code}`;
const numberOf = (code) => (code >= 3072 ? `12 ${code - 3072}` : String(code));
const hexByte = (byte) => byte.toString(16).padStart(2, "0");
const textOf = ({ code, operands, mask }) => [nameOf(code), ...operands, ...mask.map(hexByte)].join(" ");
const LEVEL = [1, 18], STEMS = [1, 3, 18, 23];

// Subroutines. The bias of a list is added to the operand (Technical Note 5177, section 4.7).
const lists = { global: head.global ?? [], local: head.local ?? [] };
const biasOf = (list) => (list.length < 1240 ? 107 : list.length < 33900 ? 1131 : 32768);

// The number at an offset of a charstring, and the offset after it, or `undefined` at an operator.
function numberAt(code, i) {
  const b = code[i];
  if (b === 28) return [((code[i + 1] << 24) | (code[i + 2] << 16)) >> 16, i + 3];
  if (b === 255) return [((code[i + 1] << 24) | (code[i + 2] << 16) | (code[i + 3] << 8) | code[i + 4]) / 65536, i + 5];
  if (b >= 251) return [-(b - 251) * 256 - code[i + 1] - 108, i + 2];
  if (b >= 247) return [(b - 247) * 256 + code[i + 1] + 108, i + 2];
  if (b >= 32) return [b - 139, i + 1];
  return undefined;
}

// Walks along the bytes of a glyph and of the subroutines that it calls. Each operator is compared with the next operation of the
// proved run: its operands, stems and mask. If they differ, `why` gives the reason, and no calls or stems are shown. Arithmetic
// operators are not supported.
const MOST = 200000;
class Walk {
  constructor(glyph) {
    this.told = glyph.operations;
    this.part = glyph.part;
    this.rows = []; this.stack = []; this.bands = []; this.within = [];
    this.edge = { H: 0, V: 0 };
    this.at = 0; this.left = MOST;
    this.active = null; this.why = null; this.widthBefore = null; this.isOver = false;
    this.run(bytesOf(glyph.row[12]), 0);
    if (this.why === null && this.at !== this.told.length) this.fail("the charstring ends before the proved run");
  }
  fail(why) { this.why ??= why; this.isOver = true; }
  row(row) { this.rows.push({ ...row, within: this.within.slice(), at: this.at, stems: this.bands.length, active: this.active }); }

  run(code, depth) {
    let i = 0;
    while (i < code.length && !this.isOver) {
      if (this.left-- <= 0) return this.fail("the charstring is too long for this page");
      const number = numberAt(code, i);
      if (number !== undefined) { this.stack.push(number[0]); i = number[1]; continue; }
      const isLong = code[i] === 12;
      const operator = isLong ? 3072 + code[i + 1] : code[i];
      i += isLong ? 2 : 1;
      if (operator === 10 || operator === 29) this.call(operator, depth);
      else if (operator === 11) return this.row({ code: 11, text: "return", depth });
      else if (operator === 14) this.end(depth);
      else if (MASKS.includes(operator)) i = this.mask(code, i, operator, depth);
      else this.draws(operator, depth);
    }
  }
  call(code, depth) {
    const number = this.stack.pop();
    const [kind, list] = code === 29 ? ["global", lists.global] : ["local", lists.local[this.part] ?? []];
    const index = number + biasOf(list);
    if (list[index] === undefined || depth >= 10) return this.fail("it calls a missing subroutine, or nests more than ten calls");
    const key = code === 29 ? `global ${index}` : `local ${this.part} ${index}`;
    this.row({ code, text: `${nameOf(code)} ${number}`, depth, calls: key, note: `${kind} subroutine ${index}` });
    this.within.push(key);
    this.run(bytesOf(list[index]), depth + 1);
    this.within.pop();
  }
  end(depth) {
    this.widthBefore ??= "endchar";
    this.row({ code: 14, text: "endchar", depth });
    this.isOver = true;
  }
  // The next operation of the proved run, if it has this code and these operands.
  next(code) {
    const told = this.told[this.at];
    if (OPERATORS[code] === undefined) return this.fail(`this page does not support the operator ${numberOf(code)}`);
    if (told === undefined || told.code !== code) return this.fail("the charstring and the proved run differ");
    const taken = told.operands.length === 0 ? [] : this.stack.slice(-told.operands.length);
    const isSame = taken.length === told.operands.length && taken.every((operand, i) => operand === told.operands[i]);
    if (!isSame) return this.fail("the charstring and the proved run differ");
    this.widthBefore ??= nameOf(code);
    this.at += 1;
    return told;
  }
  declare(side, operands) {
    for (let i = operands.length % 2; i + 1 < operands.length; i += 2) {
      const from = this.edge[side] + operands[i], to = from + operands[i + 1];
      this.edge[side] = to;
      this.bands.push({ side, from: Math.min(from, to), size: Math.abs(to - from), edges: [from, to] });
    }
  }
  draws(code, depth) {
    const told = this.next(code);
    if (!told) return;
    if (STEMS.includes(code)) this.declare(LEVEL.includes(code) ? "H" : "V", told.operands);
    this.row({ code, text: textOf(told), depth });
    this.stack = [];
  }
  // A mask: a bit for each stem, also for those that the operands before the mask declare.
  mask(code, i, operator, depth) {
    const told = this.next(operator);
    if (!told) return i;
    const declared = this.bands.length;
    this.declare("V", told.stems);
    const stems = this.stack.slice(this.stack.length % 2);
    const areSame = stems.length === told.stems.length && stems.every((operand, n) => operand === told.stems[n]);
    const isSame = areSame && told.mask.length === Math.ceil(this.bands.length / 8) && told.mask.every((byte, n) => byte === code[i + n]);
    if (!isSame) { this.fail("the charstring and the proved run differ"); return i; }
    const named = this.bands.flatMap((_, n) => (told.mask[n >> 3] & (128 >> (n & 7)) ? [n] : []));
    if (operator === 19) this.active = named;
    const more = this.bands.length - declared;
    const implied = more ? `, ${more} of them declared by operands before the mask` : "";
    const note = `${named.length} of ${many(this.bands.length, "stem")}${implied}`;
    this.row({ code: operator, text: textOf(told), depth, named, note });
    this.stack = [];
    return i + told.mask.length;
  }
  get calls() { return this.rows.filter((row) => row.calls !== undefined).map((row) => row.calls); }
}
