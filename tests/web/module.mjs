// Compares the page's module, in node, with the programs, byte for byte: reports, JSON lines, refusals and pictures of the fonts in tests/,
// in each edition.
//
//     node module.mjs MODULE FOLDER        FOLDER takes files that are made
import fs from 'fs';
import path from 'path';
import * as host from '../../web/host.mjs';
import { faultyFont, largeFont } from './fonts.mjs';
import { finish, fontOfTests, fontsOfTests, formWords, run, same, test, top } from './common.mjs';

const [file, folder] = process.argv.slice(2);
const module = await host.compile(fs.readFileSync(file));
const EDITIONS = [1, 2, 3, 4];
const NONE = new Uint8Array();
// Of each font so many pictures are compared.
const PICTURES_A_FONT = 3;

function made(name, bytes) {
  const to = path.join(folder, name);
  fs.writeFileSync(to, bytes);
  return to;
}

// The pieces of a report or a document joined, and what was returned after them.
function whole(pieces) {
  const parts = [];
  for (;;) {
    const { done, value } = pieces.next();
    if (done) return { bytes: Buffer.concat(parts), end: value };
    parts.push(Buffer.from(value));
  }
}

// What t1check's answer is as an end: a report's status, or a refusal.
function endOf({ err, status }) {
  const refusal = err.match(/^refused: (E\d\d) (.*)\n$/);
  return refusal ? { kind: 'refused', code: refusal[1], text: refusal[2] } : { kind: 'report', status };
}

// A glyph's name as t1draw's command line takes it, and its bytes, of a report's line.
function nameOf(line) {
  const bytes = Buffer.from(line.toString('latin1').match(/^\d+: glyph ([^ ]*) /)[1], 'latin1');
  const escaped = (byte) => `\\x${byte.toString(16).toUpperCase().padStart(2, '0')}`;
  const word = [...bytes].map((byte) => (byte === 0x5c ? '\\\\' : byte < 0x20 || byte > 0x7e ? escaped(byte) : String.fromCharCode(byte)));
  return { bytes, word: word.join('') };
}

// The report as text, with waivers or without.
function tryReport(name, font, edition, words, waivers = NONE) {
  const native = run('t1check', ['--edition', String(edition), ...words, font]);
  const { bytes, end } = whole(host.report(module, fs.readFileSync(font), { waivers, edition, form: 'text' }));
  same(`${name}: text, edition ${edition}`, bytes, native.out);
  same(`${name}: how it ends, edition ${edition}`, end, endOf(native));
  return native;
}

// The document of SARIF.
function tryDocument(font, edition) {
  const name = path.basename(font);
  const { bytes, end } = whole(host.report(module, fs.readFileSync(font), { waivers: NONE, edition, form: 'sarif', name }));
  if (end.kind === 'refused') return;
  same(`${name}: SARIF, edition ${edition}`, bytes, run('t1check_all', formWords('sarif', edition, name), { cwd: path.dirname(font) }).out);
}

// The first pictures of glyphs with faults: whole, up to a fault's step, and of the fault.
function tryPictures(name, font, edition, report) {
  const bytes = fs.readFileSync(font);
  const lines = report.out.toString('latin1').match(/^\d+: glyph [^\n]*$/gm) ?? [];
  const places = new Map(lines.map((line) => [nameOf(Buffer.from(line, 'latin1')).word, line]));
  for (const [word, line] of [...places].slice(0, PICTURES_A_FONT)) {
    for (const [extent, number] of [['step', 0], ['step', Number(line.split(' ')[4])], ['fault', parseInt(line)]]) {
      const words = ['--edition', String(edition), ...(number > 0 ? [`--${extent}`, String(number)] : []), '--', word, font];
      const answer = host.picture(module, bytes, { waivers: NONE, edition, glyph: nameOf(Buffer.from(line, 'latin1')).bytes, [extent]: number });
      if (test(`${name}: a picture of ${word} is made`, answer.kind === 'picture', answer.kind)) {
        same(`${name}: picture of ${word}, ${extent} ${number}, edition ${edition}`, answer.svg, run('t1draw', words).out);
      }
    }
  }
}

same('the module has no import', WebAssembly.Module.imports(module), []);

for (const edition of EDITIONS) {
  for (const font of fontsOfTests()) {
    const name = path.basename(font);
    const report = tryReport(name, font, edition, []);
    const glyphs = report.out.toString('latin1').split('\n').map((line) => line.match(/^\d+: glyph ([^ ]*) \S+ \d+ ([A-Z]+\d+) /)).filter(Boolean);
    if (glyphs.length > 0) {
      // Every other fault is waived, and a glyph that isn't there.
      const waived = glyphs.filter((_, i) => i % 2 === 0).map(([, glyph, code]) => `${glyph} ${code}\n`);
      const waivers = Buffer.from([...waived, 'no.such.glyph L01\n'].join(''), 'latin1');
      tryReport(`${name} with waivers`, font, edition, ['--waive', made('waivers', waivers)], waivers);
    }
    tryDocument(font, edition);
    if (host.picture) tryPictures(name, font, edition, report);
  }
  // JSON lines of all fonts by one run.
  for (const fonts of ['program', 'draw'].map((it) => path.join(top, 'tests', it, 'fonts'))) {
    const names = fontsOfTests().filter((it) => path.dirname(it) === fonts).map((it) => path.basename(it));
    const native = new Map(names.map((name) => [name, '']));
    const written = run('t1check_all', [...formWords('jsonl', edition, names[0]), ...names.slice(1)], { cwd: fonts }).out;
    for (const line of written.toString().split('\n').filter(Boolean)) native.set(JSON.parse(line).file, `${native.get(JSON.parse(line).file)}${line}\n`);
    for (const name of names) {
      const { bytes, end } = whole(host.report(module, fs.readFileSync(path.join(fonts, name)), { waivers: NONE, edition, form: 'json', name }));
      if (end.kind === 'refused') {
        const { code, text } = JSON.parse(native.get(name));
        same(`${name}: its refusal as JSON`, end, { kind: 'refused', code, text });
      } else {
        same(`${name}: JSON, edition ${edition}`, bytes, Buffer.from(native.get(name)));
      }
    }
  }
}

// Refusals of sizes and waivers, which no file in tests/ has.
const letter = fontOfTests('letter.pfb');
const SMALL = { waivers: NONE, edition: 1, form: 'text' };
same('16 MiB', whole(host.report(module, largeFont(16777216), SMALL)).end, { kind: 'report', status: 0 });
same('a byte more', whole(host.report(module, largeFont(16777217), SMALL)).end, { kind: 'refused', code: 'E05', text: 'file too large' });
const REFUSED_WAIVERS = [['E14', 'waivers malformed', Buffer.from('A B\n')], ['E15', 'waivers past their limit', Buffer.alloc(1048577, 10)]];
for (const [code, text, waivers] of REFUSED_WAIVERS) {
  same(code, whole(host.report(module, fs.readFileSync(letter), { ...SMALL, waivers })).end, { kind: 'refused', code, text });
}
if (host.picture) {
  const answer = host.picture(module, fs.readFileSync(letter), { waivers: NONE, edition: 1, glyph: Buffer.from('no.such.glyph'), step: 0 });
  same('no such glyph', answer, { kind: 'no glyph' });
  const none = host.picture(module, fs.readFileSync(letter), { glyph: Buffer.from('D'), fault: 4 });
  same('no such fault', none, { kind: 'no fault' });
}

// Editions that can't be asked for: none is taken for the first.
const messageOf = (call) => {
  try {
    return call();
  } catch (error) {
    return error.message;
  }
};
for (const edition of [0, Math.max(...EDITIONS) + 1]) {
  const bytes = fs.readFileSync(letter);
  for (const form of ['text', 'json', 'sarif']) {
    const ended = () => whole(host.report(module, bytes, { ...SMALL, edition, form, name: 'letter.pfb' })).end;
    same(`${form} by edition ${edition}`, messageOf(ended), 'there is no such edition');
  }
  if (host.picture) {
    same(`a picture by edition ${edition}`, messageOf(() => host.picture(module, bytes, { edition, glyph: Buffer.from('A') })), 'there is no such edition');
  }
}

// The numbers of entries, as the fonts have them.
for (const [name, key, numbers] of [
  ['zones_and_glyphs.pfb', 'BlueValues', { kind: 'numbers', count: 2, numbers: ['0', '26'] }],
  ['zones_and_glyphs.pfb', 'StdHW', { kind: 'no numbers' }],
  ['letter.pfb', 'OtherBlues', { kind: 'numbers', count: 2, numbers: ['-210', '-200'] }],
  ['letter.pfb', 'FamilyBlues', { kind: 'no numbers' }],
  ['zones_and_glyphs.pfb', 'nothing', { kind: 'no numbers' }],
  ['E04.bin', 'BlueValues', { kind: 'refused', code: 'E04', text: 'no eexec' }],
]) {
  same(`${name}: the numbers of ${key}`, host.entry(module, fs.readFileSync(fontOfTests(name)), key), numbers);
}

// Ten million lines in pieces: the first ones, and memory that doesn't grow.
{
  const pieces = host.report(module, faultyFont(), SMALL);
  let bytes = 0;
  let piece;
  for (let count = 0; count < 50; count += 1) {
    piece = pieces.next();
    if (piece.done) break;
    bytes += piece.value.length;
  }
  test('ten million lines come in pieces', !piece.done && bytes > 100000, `${bytes} bytes`);
  test('each piece ends with a line', piece.value.at(-1) === 10);
}

// The same faults by all programs: t1check's lines are those that the others write of the same font. page.mjs compares what the page shows with
// t1check-all's JSON lines.
for (const name of ['letter.pfb', 'zones_and_glyphs.pfb']) {
  const font = fontOfTests(name);
  const bytes = fs.readFileSync(font);
  const linesOf = (text) => text.toString('latin1').split('\n').filter(Boolean);
  const wanted = linesOf(run('t1check', [font]).out);
  const report = { waivers: NONE, edition: 1 };
  const many = linesOf(run('t1check_all', ['-q', '--no-settings', '--long', font]).out);
  same(`${name}: t1check-all has t1check's lines`, many.map((line) => line.slice(`${font}: `.length)), wanted);
  same(`${name}: the module's text has them`, linesOf(whole(host.report(module, bytes, { ...report, form: 'text' })).bytes), wanted);
  const objects = linesOf(whole(host.report(module, bytes, { ...report, form: 'json' })).bytes);
  same(`${name}: the module's JSON has them`, objects.map((line) => lineOf(JSON.parse(line))), wanted);
  if (fs.existsSync(path.join(top, 'crates/example/out/example'))) same(`${name}: the example has them`, wanted.map(() => exampleOf(font)), wanted);
  else console.log('tests/web.sh: crates/example is not built, so its lines are not compared');
  for (const glyph of new Set(wanted.filter((line) => line.includes(': glyph ')).map((line) => line.split(' ')[2]))) {
    const legend = run('t1draw', [glyph, font]).out.toString().match(/<g id="legend"[^]*/)[0];
    const legends = [...legend.matchAll(/>\d+(: glyph [^<]*)</g)].map(([, line]) => line);
    const own = wanted.filter((line) => line.split(' ')[2] === glyph);
    same(`${name}: the legend of ${glyph} has its own`, legends, own.map((line) => line.replace(/^\d+/, '')));
  }
}

// The line of t1check that a JSON line is of.
function lineOf({ unit, number, key, index, name, path: subrs, step, code, text }) {
  return `${number}: ${unit === 'font' ? `font ${key} ${index}` : `glyph ${name} ${subrs.join('>') || '-'} ${step}`} ${code} ${text}`;
}

// The next line that the example shows: one more each time it runs.
function exampleOf(font) {
  return run('example', [font, path.join(folder, `${path.basename(font)}.mark`)]).out.toString().split('\n')[0];
}

finish();
