// What the tests of this folder share: counts, the built programs, and the fonts in tests/.
import fs from 'fs';
import path from 'path';
import { spawnSync } from 'child_process';
import { fileURLToPath } from 'url';

export const top = path.resolve(path.dirname(fileURLToPath(import.meta.url)), '../..');
let passed = 0;
let failed = 0;

/** Counts a test as passed or failed, and names one that failed. */
export function test(name, holds, why = '') {
  if (holds) passed += 1;
  else {
    failed += 1;
    console.log(`failed: ${name}${why === '' ? '' : `: ${why}`}`);
  }
  return holds;
}

/** Counts as `test` does whether two values are the same, and shows where they differ. */
export function same(name, given, wanted) {
  const texts = [given, wanted].map((it) => (it instanceof Uint8Array ? Buffer.from(it).toString('latin1') : JSON.stringify(it)));
  let at = 0;
  while (at < texts[0].length && texts[0][at] === texts[1][at]) at += 1;
  const [here, there] = texts.map((text) => JSON.stringify(text.slice(at, at + 100)));
  return test(name, texts[0] === texts[1], `from byte ${at} it is ${here}, wanted ${there}`);
}

/** Prints the counts, and ends with the status that says whether nothing failed. */
export function finish() {
  console.log(`${passed} passed, ${failed} failed`);
  process.exit(failed === 0 ? 0 : 1);
}

/** Runs a built program, as `t1check_all`, and returns its output, messages and status. */
export function run(name, words, options = {}) {
  const { stdout, stderr, status, error } = spawnSync(path.join(top, 'crates', name, 'out', name), words, { maxBuffer: 1 << 30, ...options });
  if (error) throw error;
  return { out: stdout, err: stderr.toString(), status };
}

/** Returns the words by which t1check-all writes a form of one font. */
export function formWords(form, edition, font) {
  return ['-q', '--no-settings', '--edition', String(edition), '--format', form, '--reasons', font];
}

/** Returns the paths of the fonts in tests/program and tests/draw, and of what is refused there. */
export function fontsOfTests() {
  return ['program', 'draw'].flatMap((folder) => {
    const fonts = path.join(top, 'tests', folder, 'fonts');
    return fs.readdirSync(fonts).filter((name) => /\.(pfb|pfa|bin)$/.test(name)).sort().map((name) => path.join(fonts, name));
  });
}

/** Returns the path of one of these fonts. */
export function fontOfTests(name) {
  return fontsOfTests().find((file) => path.basename(file) === name);
}
