// Between the module's exports and JavaScript: bytes go in as an address and a length, and a status and bytes come out.
// crates/t1_web says what each export does. The page has a copy of this file in its worker.

// How a call ended; crates/t1_web/specs/Numbers.antt has the same numbers.
const LAST = 0, MORE = 1, NO_ROOM = 2, REFUSED = 3, MEMORY = 4, NO_GLYPH = 5, BAD_NAME = 6, NO_FAULT = 7, NO_NUMBERS = 8, NO_EDITION = 9;

// How much of a glyph is drawn.
const ALL = 0, UP_TO = 1, FAULT = 2;

// The numbers of the keys whose entries may be lists, by the names that reports have.
const KEYS = {
  MinFeature: 7, BlueValues: 9, OtherBlues: 10, FamilyBlues: 11, FamilyOtherBlues: 12, StdHW: 16, StdVW: 17, StemSnapH: 18, StemSnapV: 19,
  FontMatrix: 22, FontBBox: 23, XUID: 24,
};

// How many rules and refusals there are.
const CODES = 112 + 15;

// The forms of a report: the export that hands it over, its words for the form, and how many bytes are kept between two calls. Of a document
// these have a count of 8 bytes for each code.
const FORMS = {
  text: { name: 't1_web_lines', words: [0], size: 24 },
  json: { name: 't1_web_lines', words: [1], size: 24 },
  sarif: { name: 't1_web_document', words: [], size: 24 + 8 * CODES },
};

// How much is handed over at once, if the next line isn't longer.
const ROOM = 1 << 20;
const COUNT_SIZE = 8;
const NOTHING = new Uint8Array();

class OutOfMemory extends Error {}

// An instance of the module, and what lies in its memory.
class Call {
  constructor(module) {
    this.exports = new WebAssembly.Instance(module, {}).exports;
    this.written = this.room(COUNT_SIZE);
    this.size = 0;
    this.widen(ROOM);
  }

  room(size) {
    const at = this.exports.web_room(BigInt(size));
    if (!at) throw new OutOfMemory();
    return at;
  }

  // Puts bytes into the memory: the two words by which an export takes them.
  put(bytes) {
    const at = this.room(bytes.length);
    this.bytes(at, bytes.length).set(bytes);
    return [at, BigInt(bytes.length)];
  }

  // Bytes of the memory, until it grows.
  bytes(at, length) {
    return new Uint8Array(this.exports.memory.buffer, Number(at), length);
  }

  number(at) {
    return Number(new DataView(this.exports.memory.buffer).getBigUint64(Number(at), true));
  }

  // Room for at least so many bytes, in place of that before.
  widen(size) {
    if (this.size > 0) this.exports.web_free(this.out);
    this.size = 0;
    this.out = this.room(size);
    this.size = size;
  }

  // Calls an export with the room, which grows until it holds what is next.
  call(name, ...words) {
    for (;;) {
      const status = this.exports[name](...words, this.out, BigInt(this.size), this.written);
      if (status !== NO_ROOM) return status;
      this.widen(Math.max(this.size * 2, this.number(this.written)));
    }
  }

  // A copy of what was handed over.
  handed() {
    return this.bytes(this.out, this.number(this.written)).slice();
  }

  // What is returned where there is no report and no picture.
  ended(status) {
    if (status === NO_GLYPH) return { kind: 'no glyph' };
    if (status === NO_FAULT) return { kind: 'no fault' };
    if (status === NO_NUMBERS) return { kind: 'no numbers' };
    if (status === MEMORY) return { kind: 'memory' };
    if (status === BAD_NAME) throw new TypeError('the name is not UTF-8');
    if (status === NO_EDITION) throw new TypeError('there is no such edition');
    if (status !== REFUSED) throw new Error(`status ${status}`);
    const text = new TextDecoder().decode(this.handed());
    return { kind: 'refused', code: text.slice(0, 3), text: text.slice(4) };
  }
}

// Whatever a function returns; or that memory ran out, where an error says so. An engine throws a RangeError for memory of its own.
function unlessMemory(work) {
  try {
    return work();
  } catch (error) {
    if (error instanceof OutOfMemory || error instanceof RangeError) return { kind: 'memory' };
    throw error;
  }
}

// A font, its waivers and the edition, in words for an export.
function words(call, font, waivers, edition) {
  return [...call.put(font), ...call.put(waivers), edition];
}

export async function compile(bytes) {
  return WebAssembly.compile(bytes);
}

// Yields a font's report, many lines at a time: as t1check writes it, or as t1check-all's lines of JSON or document of SARIF of the font of a name.
// Returns { kind: 'report', status }, of lines with status 1 where there was one; or { kind: 'refused', code, text }; or { kind: 'memory' }.
export function* report(module, font, { waivers = NOTHING, edition = 1, form = 'text', name = '' } = {}) {
  const way = FORMS[form];
  let call, given, reached;
  const failed = unlessMemory(() => {
    call = new Call(module);
    reached = call.room(way.size);
    call.bytes(reached, way.size).fill(0);
    given = [...words(call, font, waivers, edition), ...way.words, ...call.put(new TextEncoder().encode(name)), reached];
  });
  if (failed) return failed;
  for (;;) {
    const piece = unlessMemory(() => {
      const status = call.call(way.name, ...given);
      return status === LAST || status === MORE ? { status, bytes: call.handed() } : call.ended(status);
    });
    if (piece.kind) return piece;
    if (piece.bytes.length > 0) yield piece.bytes;
    if (piece.status === LAST) return { kind: 'report', status: call.number(reached) > 0 ? 1 : 0 };
  }
}

// Draws the glyph of a name: for the fault of a number in the report, up to a step, or, without both, as a whole.
// Returns { kind: 'picture', svg }; or { kind: 'refused', code, text }, { kind: 'no glyph' }, { kind: 'no fault' } or { kind: 'memory' }.
export function picture(module, font, { waivers = NOTHING, edition = 1, glyph, step = 0, fault = 0 }) {
  const extent = fault > 0 ? [FAULT, BigInt(fault)] : [step > 0 ? UP_TO : ALL, BigInt(step)];
  return unlessMemory(() => {
    const call = new Call(module);
    const status = call.call('t1_web_picture', ...words(call, font, waivers, edition), ...call.put(glyph), ...extent);
    return status === LAST ? { kind: 'picture', svg: call.handed() } : call.ended(status);
  });
}

// Reads the numbers of a font's entry that is a list, by the name of its key in reports.
// Returns { kind: 'numbers', count, numbers }: how many there are, and the first 16 as decimals; or { kind: 'no numbers' }, { kind: 'refused', code,
// text } or { kind: 'memory' }.
export function entry(module, font, key) {
  return unlessMemory(() => {
    const call = new Call(module);
    const status = call.call('t1_web_entry', ...call.put(font), KEYS[key] ?? 0);
    if (status !== LAST) return call.ended(status);
    const [count, ...numbers] = new TextDecoder().decode(call.handed()).split(' ');
    return { kind: 'numbers', count: Number(count), numbers };
  });
}
