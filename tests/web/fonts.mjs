// Fonts that are too large, or run too long, to lie in a repository: made as PFA files with a binary encrypted section and bare charstrings.

// What the numbers of charstrings and commands are written as.
const number = (value) => [value + 139];
const CLOSEPATH = [9], CALLSUBR = [10], RETURN = [11], HSBW = [13], ENDCHAR = [14], HMOVETO = [22], HLINETO = [6];
const repeated = (count, bytes) => Array.from({ length: count }, () => bytes).flat();
const call = (subr) => [...number(subr), ...CALLSUBR];

// A Subr that does something many times: by itself 10 times, then by others that call it. The last one does it `times` times 1,000.
function subrsThatRepeat(bytes, times) {
  return [
    [...repeated(10, bytes), ...RETURN],
    [...repeated(10, call(0)), ...RETURN],
    [...repeated(10, call(1)), ...RETURN],
    [...repeated(times, call(2)), ...RETURN],
  ];
}

// A glyph that only calls the last of four Subrs.
const CALLER = [...number(0), ...number(100), ...HSBW, ...call(3), ...ENDCHAR];

function encrypted(plain) {
  let key = 55665;
  return plain.map((byte) => {
    const cipher = byte ^ (key >> 8);
    key = ((cipher + key) * 52845 + 22719) & 0xffff;
    return cipher;
  });
}

function entry(head, charstring, tail) {
  return Buffer.concat([Buffer.from(`${head} ${charstring.length} RD `), Buffer.from(charstring), Buffer.from(` ${tail}\n`)]);
}

// A font of these Subrs, with one charstring for each of so many glyphs, and a comment of so many bytes more.
function font(subrs, count, charstring, padding = 0) {
  const clear = `%!PS-AdobeFont-1.0: Made\n${'%'.repeat(padding)}\n`
    + '/FontType 1 def\n/PaintType 0 def\n/Encoding StandardEncoding def\ncurrentfile eexec\n';
  const glyphs = ['.notdef', ...Array.from({ length: count }, (_, i) => `g${i}`)];
  const plain = Buffer.concat([
    Buffer.from('    dup /Private 8 dict dup begin\n/password 5839 def\n/MinFeature {16 16} def\n/lenIV -1 def\n'),
    Buffer.from(`/Subrs ${subrs.length} array\n`),
    ...subrs.map((subr, i) => entry(`dup ${i}`, subr, 'NP')),
    Buffer.from(`ND\n2 index /CharStrings ${glyphs.length} dict dup begin\n`),
    ...glyphs.map((name) => entry(`/${name}`, charstring, 'ND')),
    Buffer.from('end\nend\nreadonly put\nmark currentfile closefile\n'),
  ]);
  const zeros = `\n${`${'0'.repeat(64)}\n`.repeat(8)}cleartomark\n`;
  return Buffer.concat([Buffer.from(clear), encrypted(plain), Buffer.from(zeros)]);
}

/** A font without a fault that takes minutes: 60,000 glyphs of 96,000 steps. */
export function longFont() {
  const path = [...number(0), ...HMOVETO, ...number(1), ...HLINETO, ...CLOSEPATH];
  return font(subrsThatRepeat(path, 18), 60000, CALLER);
}

/** A font of ten million faults: closepaths without a path (P03), 90,000 in each of 112 glyphs, and these of .notdef. */
export function faultyFont() {
  return font(subrsThatRepeat(CLOSEPATH, 90), 111, CALLER);
}

/** A font of so many bytes, without a fault. */
export function largeFont(size) {
  const charstring = [...number(0), ...number(100), ...HSBW, ...ENDCHAR];
  return font([], 1, charstring, size - font([], 1, charstring).length);
}
