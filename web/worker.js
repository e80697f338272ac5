// The page's worker. It answers one call after another with the functions of host.mjs. The build puts these above this text, without the word
// `export`: of a file, browsers begin only workers that are no modules. The first message has the module; each later one is a call with a number,
// and its answer has the same number.

// What is kept of a report at most: a hostile font has millions of lines, or lines of megabytes.
const MOST_LINES = 10000;
const MOST_BYTES = 1 << 25;
// A download reports its size about this often.
const BYTES_BETWEEN_REPORTS = 1 << 24;

// A promise of the module: compiling it takes longer than the first call's way here.
let compiled;

async function unpack(packed) {
  const bytes = Uint8Array.from(atob(packed), (letter) => letter.charCodeAt(0));
  const stream = new Blob([bytes]).stream().pipeThrough(new DecompressionStream('gzip'));
  return compile(await new Response(stream).arrayBuffer());
}

// The lists of numbers that faults of the font are in, by the names of their keys.
function entriesOf(module, font, faults) {
  const keys = new Set(faults.filter(({ unit }) => unit === 'font').map(({ key }) => key));
  const entries = [...keys].map((key) => [key, entry(module, font, key)]);
  return Object.fromEntries(entries.filter(([, { kind }]) => kind === 'numbers'));
}

const answers = {
  // The first faults of a report, each as the object of its JSON line, and the lists that they are in. `isWhole` says whether there are no others.
  check(module, { font, waivers, edition }) {
    const pieces = report(module, font, { waivers, edition, form: 'json' });
    const decoder = new TextDecoder();
    const faults = [];
    for (let bytes = 0; ; ) {
      const { done, value } = pieces.next();
      if (done) return { ...value, faults, entries: entriesOf(module, font, faults), isWhole: true };
      for (const line of decoder.decode(value).split('\n')) {
        if (line === '') continue;
        if (faults.length === MOST_LINES || bytes > MOST_BYTES) {
          return { kind: 'report', status: 1, faults, entries: entriesOf(module, font, faults), isWhole: false };
        }
        faults.push(JSON.parse(line));
        bytes += line.length;
      }
    }
  },

  // A whole report in one of its forms. Each piece goes into a Blob as soon as it is there, which the browser keeps outside this worker's
  // memory, on disk if it is large.
  write(module, { font, waivers, edition, form, name }, tell) {
    const pieces = report(module, font, { waivers, edition, form, name });
    const written = [];
    for (let bytes = 0, told = 0; ; ) {
      const { done, value } = pieces.next();
      if (done) return { ...value, blob: new Blob(written) };
      written.push(new Blob([value]));
      bytes += value.length;
      if (bytes - told < BYTES_BETWEEN_REPORTS) continue;
      tell({ bytes });
      told = bytes;
    }
  },

  picture(module, { font, waivers, edition, glyph, fault }) {
    return picture(module, font, { waivers, edition, glyph, fault });
  },
};

onmessage = async ({ data: { id, packed, call, given } }) => {
  if (packed) {
    compiled = unpack(packed);
    compiled.catch(() => {});
    return;
  }
  const answer = (it) => postMessage({ id, answer: it });
  try {
    await compiled;
  } catch (error) {
    answer({ kind: 'unable', text: String(error) });
    return;
  }
  try {
    answer(answers[call](await compiled, given, (progress) => postMessage({ id, progress })));
  } catch (error) {
    answer({ kind: 'broken', text: String(error) });
  }
};
