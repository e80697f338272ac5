// Drives the page in headless Chromium as a person would, and compares what it shows and downloads with what the programs write:
//
//     node page.mjs PAGE FOLDER [PICTURES]      what is downloaded goes into FOLDER, pictures of the page into the folder PICTURES
import fs from 'fs';
import path from 'path';
import zlib from 'zlib';
import { Page, findChromium } from './chromium.mjs';
import { faultyFont, largeFont, longFont } from './fonts.mjs';
import { finish, fontOfTests, formWords, run, same, test } from './common.mjs';

const [file, folder, pictures] = process.argv.slice(2);
const letter = fontOfTests('letter.pfb');

// Writes a file into the folder, and returns its path.
function made(name, bytes) {
  const to = path.join(folder, name);
  fs.writeFileSync(to, bytes);
  return to;
}

// Downloads by a button, and returns the file's name and bytes.
async function downloaded(page, selector, text) {
  const before = page.downloaded.length;
  await page.click(selector, text);
  const name = await page.untilDownloaded(before);
  return { name, bytes: fs.readFileSync(path.join(folder, name)) };
}

// Whether no font waits for its check.
const CHECKED = "fonts.every((font) => !['waiting', 'checking'].includes(font.result.kind))";

// Drops fonts, and waits until all that came so far are checked.
async function dropped(page, ...files) {
  const names = files.map((it) => path.basename(it)).filter((name) => !name.endsWith('.waivers'));
  await page.js('for (const font of fonts) font.wasThere = true');
  await page.drop('#drop', files);
  await page.until(`${JSON.stringify(names)}.every((name) => fonts.some((font) => font.name === name && !font.wasThere)) && ${CHECKED}`);
}

// The items of the list of fonts, as `letter.pfb|3 faults|1 must|2 should|0 tidy`.
function rows(page) {
  return page.js("[...document.querySelectorAll('#fonts li')].map((item) => [...item.children].map((it) => it.innerText.trim()).join('|'))");
}

// The faults that are shown, each with its reason, without the lists that they are in.
function shownFaults(page) {
  const text = "[...it.childNodes].filter((node) => node.className !== 'entry').map((node) => node.textContent).join('').replace(/\\s+/g, ' ').trim()";
  return page.js(`[...document.querySelectorAll('#faults [data-focus]')].map((it) => ${text})`);
}

// What the page shows of a line of JSON.
function shownOf({ unit, number, key, index, name, waived, path: subrs, step, code, text, reason }) {
  const places = {
    font: () => `${key} ${index}`,
    glyph: () => `step ${step}${subrs.length > 0 ? ` in Subr ${subrs.join('>')}` : ''}`,
    waiver: () => `${name} ${waived}`,
  };
  return `${number} ${places[unit]()} ${code} ${text}${reason ? ` ${reason.text}` : ''}`.replace(/\s+/g, ' ');
}

function jsonOf(font, edition = 1) {
  return run('t1check_all', formWords('jsonl', edition, font)).out.toString().split('\n').filter(Boolean).map((line) => JSON.parse(line));
}

// Tries how the page looks in a state, wide and narrow, light and dark: nothing is cut, what is pressed is at least 24 pixels high, and each text
// has a contrast of 4.5:1 to its ground.
async function looks(page, state) {
  for (const scheme of ['light', 'dark']) {
    for (const width of [360, 800, 1280]) {
      await page.look(width, 900, scheme);
      same(`${state}: nothing is cut at ${width} pixels, ${scheme}`, await page.js(CUT), []);
      same(`${state}: nothing is too low to be pressed at ${width} pixels, ${scheme}`, await page.js(LOW), []);
      if (pictures) await page.photograph(path.join(pictures, `${state}-${width}-${scheme}.png`));
    }
    same(`${state}: contrasts are at least 4.5:1, ${scheme}`, await page.js(FAINT), []);
  }
  await page.look(1280, 900, 'light');
}

const tests = {
  async empty(page) {
    await looks(page, 'empty');
  },

  // Before a font: the policy refuses each kind of request, of the page and of a worker.
  async requests(page) {
    const kinds = {
      fetch: ["await fetch('https://example.org/')", 'connect-src'],
      image: ["new Image().src = 'https://example.org/'", 'img-src'],
      socket: ["new WebSocket('wss://example.org/')", 'connect-src'],
      beacon: ["navigator.sendBeacon('https://example.org/')", 'connect-src'],
      script: ["document.head.append(Object.assign(document.createElement('script'), { src: 'https://example.org/' }))", 'script-src-elem'],
      frame: ["document.body.append(Object.assign(document.createElement('iframe'), { src: 'https://example.org/' }))", 'frame-src'],
    };
    for (const [kind, [statement, directive]] of Object.entries(kinds)) {
      const refused = `new Promise((done) => {
        addEventListener('securitypolicyviolation', (it) => done(it.effectiveDirective), { once: true });
        (async () => { ${statement}; })().catch(() => {});
      })`;
      same(`a request is refused: ${kind}`, await page.js(refused), directive);
    }
    await page.js("document.querySelector('iframe')?.remove()");
    const source = `addEventListener('securitypolicyviolation', (it) => postMessage(it.effectiveDirective));
      fetch('https://example.org/').catch(() => {});`;
    const ofWorker = `new Promise((done) => {
      new Worker(URL.createObjectURL(new Blob([${JSON.stringify(source)}]))).onmessage = (it) => done(it.data);
    })`;
    same('a request is refused: of a worker', await page.js(ofWorker), 'connect-src');
    // Each refusal is an error in the page's console.
    page.complaints.length = 0;
    page.requests = page.requests.filter((url) => !/^(https|wss):\/\/example.org\//.test(url));
  },

  async drop(page) {
    await dropped(page, letter, fontOfTests('zones_and_glyphs.pfb'), fontOfTests('E04.bin'), fontOfTests('clean.pfb'));
    same('four dropped fonts have their statuses and counts, the worst first', await rows(page), [
      'E04.bin|refused: E04 no eexec', 'zones_and_glyphs.pfb|5 faults|2 must|2 should|1 tidy',
      'letter.pfb|3 faults|1 must|2 should|0 tidy', 'clean.pfb|no fault|0 must|0 should|0 tidy',
    ]);
    same('counts of zero are pale', await page.js("[...document.querySelectorAll('#fonts span.pale')].map((it) => it.innerText)"), [
      '0 tidy', '0 must', '0 should', '0 tidy',
    ]);
    same('no fault and a refusal are marked', await page.js("[...document.querySelectorAll('#fonts .status')].map((it) => it.className)"), [
      'status refused', 'status report', 'status report', 'status clean',
    ]);
    same('the first of them is shown', await page.text('#font'), 'letter.pfb: 3 faults');
    same('with its faults and their reasons', await shownFaults(page), jsonOf(letter).map(shownOf));
    test('the report begins in the upper third', await page.js("document.querySelector('#report').getBoundingClientRect().top < 300"));
    await looks(page, 'report');
    await page.click('#fonts button', 'clean.pfb');
    same('a font without a fault has no list of units', await page.js("document.querySelector('#chooser').hidden"), true);
  },

  async units(page) {
    await page.click('#fonts button', 'zones_and_glyphs.pfb');
    const faults = jsonOf(fontOfTests('zones_and_glyphs.pfb'));
    const given = [];
    await page.js("document.querySelector('#units').focus()");
    const count = await page.js("document.querySelector('#units').length");
    for (let place = 0; place < count; place += 1) {
      given.push(...await shownFaults(page));
      await page.press('ArrowDown');
    }
    same('the units, by arrow keys, have all lines of the report', given, faults.map(shownOf));
    await page.js('chooseUnit(0)');
    const entries = "[...document.querySelectorAll('#faults .entry')].map((it) => [it.innerText, it.querySelector('mark')?.innerText])";
    same('a fault in a list has the list, with its number marked', await page.js(entries), [['/BlueValues [0 26]', '26']]);
    await page.until("document.querySelector('#drawn').innerText === 'glyph A'");
    test('a fault of zones is shown across a glyph', await page.js("document.querySelector('#picture').naturalWidth > 0"));
    await page.js("document.querySelector('#across').value = 'B', draw()");
    await page.until("document.querySelector('#drawn').innerText === 'glyph B'");
    await page.js("document.querySelector('#across').value = 'nothing', draw()");
    await page.untilText('#drawn', 'No picture of glyph nothing: the font has no such glyph.');
    await page.js("document.querySelector('#across').value = ''");
    same('why it has no waiver', await page.text('#unwaivable'), "Faults of the font can't be waived: a waiver names a glyph.");
    await dropped(page, fontOfTests('F03.pfb'));
    test('any other fault of the font has no picture', await page.js("document.querySelector('#figure').hidden"));
  },

  // Two files of one name, as of two folders.
  async sameNames(page) {
    const copied = (place, font) => {
      fs.mkdirSync(path.join(folder, place), { recursive: true });
      fs.copyFileSync(font, path.join(folder, place, 'same.pfb'));
      return path.join(folder, place, 'same.pfb');
    };
    const row = async () => (await rows(page)).find((it) => it.startsWith('same.pfb|'));
    await dropped(page, copied('first', letter));
    await dropped(page, copied('second', fontOfTests('clean.pfb')));
    const note = 'It takes the place of another file of this name: 3 faults. Keep both';
    same('a font in the place of another of its name says so', await row(), `same.pfb|no fault|0 must|0 should|0 tidy|${note}`);
    await page.click('#fonts button', 'Keep both');
    await page.until(`${CHECKED} && document.querySelector('#fonts small') === null`);
    same('and the other comes back', (await rows(page)).filter((it) => it.startsWith('same.pfb')), [
      'same.pfb (before)|3 faults|1 must|2 should|0 tidy', 'same.pfb|no fault|0 must|0 should|0 tidy',
    ]);
    await dropped(page, path.join(folder, 'second', 'same.pfb'));
    same('the same file again takes its own place', await row(), 'same.pfb|no fault|0 must|0 should|0 tidy');
  },

  async filters(page) {
    await page.click('#fonts button', 'zones_and_glyphs.pfb');
    const faults = jsonOf(fontOfTests('zones_and_glyphs.pfb'));
    const passing = () => page.js('passing.flatMap(({ faults }) => faults.map((it) => it.number))');
    for (const { code } of faults) {
      await page.select('#rule', code);
      same(`the filter by ${code}`, await passing(), faults.filter((it) => it.code === code).map((it) => it.number));
      test(`the filter by ${code} shows its page`, (await page.text('#page')).startsWith(code));
    }
    await page.select('#rule', '');
    await page.click('[name=level][value=must]');
    same('the filter by levels', await passing(), faults.filter((it) => it.level !== 'must').map((it) => it.number));
    await page.click('[name=level][value=should]');
    await page.click('[name=level][value=tidy]');
    same('no level chooses nothing', [await page.text('#unit'), await page.text('#said')], ['No fault passes the filters.', '0 faults in 0 units.']);
    for (const level of ['must', 'should', 'tidy']) await page.click(`[name=level][value=${level}]`);
    await dropped(page, fontOfTests('standard_encoding.pfb'));
    const names = new Set(jsonOf(fontOfTests('standard_encoding.pfb')).map((it) => it.name));
    await page.click('#search');
    await page.type('acute');
    same('the search of glyphs', await page.js('passing.map(({ unit }) => unit.name)'), [...names].filter((name) => name?.includes('acute')));
  },

  async pictures(page) {
    await page.click('#fonts button', 'letter.pfb');
    await page.until("document.querySelector('#picture').naturalWidth > 0");
    same('the picture', (await downloaded(page, '#save-picture')).bytes, run('t1draw', ['D', letter]).out);
    await page.click('#faults button', 'X05');
    await page.until("document.querySelector('#drawn').innerText === 'glyph D up to step 68' && document.querySelector('#picture').naturalWidth > 0");
    const { name, bytes } = await downloaded(page, '#save-picture');
    same('the picture of a line that was clicked', bytes, run('t1draw', ['--fault', '2', 'D', letter]).out);
    same('the name of its file', name.replace(/ \(\d+\)/, ''), 'letter.pfb.D.svg');
    test('the page of its rule is beside it', (await page.text('#page')).startsWith('X05 flex ends elsewhere'));
    same('it is shown with its own number, without a legend, before the whole glyph', await page.js(PARTS), [['2'], 0, 1, 1]);
    await looks(page, 'fault');
    await page.js("last = { result: null }, drawing.own = drawing.call, drawing.call = async () => ({ kind: 'stopped' }), draw()");
    await page.untilText('#drawn', 'No picture of glyph D: stopped.');
    await page.js('drawing.call = drawing.own, draw()');
    await page.until("document.querySelector('#drawn').innerText === 'glyph D up to step 68'");
    test('a picture that was stopped is drawn on request', await page.js("document.querySelector('#picture').naturalWidth > 0"));
    await page.click('#whole');
    await page.until("document.querySelector('#drawn').innerText === 'glyph D'");
    same('all steps are drawn again, for the same fault', await page.js('fault.number'), 2);
    await page.press('n');
    await page.until("fitted().querySelectorAll('#cause-points use').length === 2");
    same('also for the next fault, with what its reason names', [await page.text('#drawn'), await page.js('fault.number')], ['glyph D', 3]);
    same('with a note of the legend', await page.text('#notes'), "dashed: a path that isn't closed");
    same('that picture is downloaded', (await downloaded(page, '#save-picture')).bytes, run('t1draw', ['D', letter]).out);
    await page.click('#whole');
    await page.until("document.querySelector('#drawn').innerText === 'glyph D up to step 102'");
    await page.look(360, 800, 'light');
    await page.press('p');
    const sight = `['#picture', '#faults [aria-current=true]'].map((it) => document.querySelector(it).getBoundingClientRect())
      .every(({ top, bottom }) => top >= 0 && bottom <= innerHeight)`;
    test('a narrow window has the picture and the fault in sight', await page.until(sight));
    await page.look(1280, 900, 'light');
  },

  // A rule's page begins with its cure; its links lead to other pages.
  async pages(page) {
    await page.click('#fonts button', 'zones_and_glyphs.pfb');
    await page.js("chooseUnit(0), chooseFault(unit.faults.find((it) => it.code === 'Z07'))");
    test('the cure comes first', (await page.text('#page .cure')).startsWith('Cure: make the zone lower'));
    same('and once', (await page.text('#page')).match(/Cure:/g).length, 1);
    await page.js("showPage('Z05')");
    await page.click('#page a', 'Z04');
    same('a link leads to another rule', await page.text('#page h2'), 'Z04 zone numbers fall');
    await page.click('a', 'About waivers');
    same('and to what is said of waivers', await page.text('#page h2'), 'Waivers');
    await page.click('a', 'what differs');
    test('a table is shown as one', await page.js("document.querySelectorAll('#page tr').length > 2"));
    const links = "[...pages.keys()].flatMap((key) => (showPage(key), [...document.querySelectorAll('#page a')].map((it) => it.getAttribute('href'))))";
    const [own, others] = [true, false].map((isOwn) => (it) => it.startsWith('#') === isOwn);
    const all = await page.js(links);
    const anchors = new Set(await page.js('[...pages.keys()]'));
    same('no link leads nowhere', all.filter(own).filter((it) => !anchors.has(it.slice(1))), []);
    const files = all.filter(others).filter((it) => !it.startsWith('https:')).map((it) => path.resolve(path.dirname(file), it.split('#')[0]));
    same('beside the repository, links lead to its documents', [files.length > 0, files.filter((it) => !fs.existsSync(it))], [true, []]);
    same('no word of Markdown is left', await page.js("[...pages.keys()].filter((key) => (showPage(key), document.querySelector('#page').innerText.includes('](')))"), []);
  },

  async keys(page) {
    const chosen = () => page.js(`[
      fault?.number,
      document.activeElement.dataset.focus,
      document.querySelector('#faults [aria-current=true]')?.dataset.focus,
      document.querySelector('#page h2').innerText,
    ]`);
    await page.click('#fonts button', 'letter.pfb');
    await page.press('n');
    same('n goes to the first fault', await chosen(), [1, '1', '1', 'H02 stems overlap']);
    await page.press('n');
    same('n goes to the next fault', await chosen(), [2, '2', '2', 'X05 flex ends elsewhere']);
    same('its place is said', await page.text('#said'), 'Fault 2 of 3.');
    await page.press('p');
    same('p goes to the fault before', await chosen(), [1, '1', '1', 'H02 stems overlap']);
    await page.press('p');
    same('p stays at the first fault', await page.text('#said'), 'This is the first fault.');
    await page.click('#fonts button', 'zones_and_glyphs.pfb');
    const count = jsonOf(fontOfTests('zones_and_glyphs.pfb')).length;
    for (let place = 0; place <= count; place += 1) await page.press('n');
    same('n goes through all units and stops at the last fault', [(await chosen())[0], await page.text('#said')], [count, 'This is the last fault.']);
    await page.click('#search');
    await page.type('n');
    same('n in the search is a letter', await page.js("document.querySelector('#search').value"), 'n');
    await page.js("document.querySelector('#search').value = ''; showUnits()");
  },

  async editions(page) {
    const font = fontOfTests('stem_of_one_edge.pfb');
    await dropped(page, font);
    const row = async () => (await rows(page)).find((it) => it.startsWith('stem_of_one_edge.pfb')).split('|')[1];
    same('edition 1', await row(), '1 fault');
    await page.select('#edition', '2');
    await page.until(CHECKED);
    same('edition 2', await row(), 'no fault');
    await page.select('#edition', '3');
    await page.until(CHECKED);
    same('edition 3', await row(), '3 faults');
    await page.select('#edition', '1');
    await page.until(CHECKED);
    same('edition 1 again', await row(), '1 fault');
  },

  async waivers(page) {
    const status = async () => (await rows(page)).find((it) => it.startsWith('letter.pfb')).split('|')[1];
    await page.click('#fonts button', 'letter.pfb');
    await page.click('#faults label', 'waive');
    same('how much a waiver leaves out', await page.text('#use-waivers'), 'Check with 1 waiver of 1 fault');
    const { name, bytes } = await downloaded(page, '#save-waivers');
    same('the waivers that were made', [name, bytes.toString()], ['letter.pfb.waivers', 'D H02\n']);
    await page.click('#use-waivers');
    await page.until(CHECKED);
    same('with these', await status(), '2 faults');
    same('those that were given', (await downloaded(page, '#save-waivers')).bytes.toString(), 'D H02\n');
    await page.until("document.querySelector('#picture').naturalWidth > 0");
    const drawn = run('t1draw', ['--waive', path.join(folder, name), 'D', letter]);
    same('the picture with waivers', (await downloaded(page, '#save-picture')).bytes, drawn.out);
    await page.click('#unwaive');
    await page.until(CHECKED);
    same('without them', await status(), '3 faults');
    await page.choose('#waivers', [made('malformed', 'A B\n')]);
    await page.untilText('#font', 'refused');
    same('malformed waivers', [await status(), await page.text('#page h2')], ['refused: E14 waivers malformed', 'E14 waivers malformed']);
    await page.choose('#waivers', [made('many', Buffer.alloc(1048577, 10))]);
    await page.untilText('#font', 'E15');
    same('waivers past their limit', await page.text('#page h2'), 'E15 waivers past their limit');
    await dropped(page, letter, made('letter.pfb.waivers', 'D H02\nD X05\nD P02\n'));
    same('waivers that are dropped with their font', await status(), 'no fault');
    await page.choose('#files', [letter]);
    await page.untilText('#font', '3 faults');
    same('a font that is chosen again has none', await status(), '3 faults');
    await page.drop('#drop', [made('other.pfb.waivers', 'D H02\n')]);
    await page.untilText('#said', 'other.pfb.waivers is of no font that is here; those of a.pfb are a.pfb.waivers.');
  },

  async downloads(page) {
    await page.click('#fonts button', 'zones_and_glyphs.pfb');
    const font = fontOfTests('zones_and_glyphs.pfb');
    const cwd = path.dirname(font);
    const wanted = {
      txt: run('t1check', [font]).out,
      jsonl: run('t1check_all', formWords('jsonl', 1, path.basename(font)), { cwd }).out,
      sarif: run('t1check_all', formWords('sarif', 1, path.basename(font)), { cwd }).out,
    };
    for (const [text, ending] of [['Text', 'txt'], ['JSON', 'jsonl'], ['SARIF', 'sarif']]) {
      const { name, bytes } = await downloaded(page, '#downloads button', text);
      same(`the report as ${text}: its name`, name, `zones_and_glyphs.pfb.${ending}`);
      same(`the report as ${text}`, bytes, wanted[ending]);
    }
    await page.js("writing.call = async () => ({ kind: 'memory' })");
    await page.click('#downloads button', 'JSON');
    await page.untilText('#said', "isn't written");
    await page.click('#downloads button', 'SARIF');
    await page.untilText('#said', 'JSON lines take less memory');
    await page.js('delete writing.call');
  },

  async refusals(page) {
    const formats = {
      'opentype.otf': ['OTTO\0\x0a', 'an OpenType font with CFF outlines'],
      'truetype.ttf': ['\0\x01\0\0\0\x0a', 'a TrueType font'],
      'bare.cff': ['\x01\0\x04\x02', 'a CFF font (Type1C)'],
    };
    for (const [name, [bytes, format]] of Object.entries(formats)) {
      await dropped(page, made(name, Buffer.from(bytes, 'latin1')));
      same(`${name} is refused by its form`, await page.text('#font'), `${name}: refused: E01 not a PFA or PFB; it looks like ${format}`);
      if (name === 'opentype.otf') await looks(page, 'refusal');
      same(`${name} has the page of its refusal`, await page.text('#page h2'), 'E01 not a PFA or PFB');
    }
    await dropped(page, made('empty.pfb', ''));
    same('an empty file', await page.text('#font'), 'empty.pfb: refused: E01 not a PFA or PFB; the file is empty');
    await dropped(page, fontOfTests('E04.bin'));
    same('another refusal', [await page.text('#font'), await page.text('#page h2')], ['E04.bin: refused: E04 no eexec', 'E04 no eexec']);
  },

  async sizes(page) {
    await dropped(page, made('large.pfa', largeFont(16777216)), made('larger.pfa', largeFont(16777217)));
    same('16 MiB, and a byte more', (await rows(page)).filter((it) => it.startsWith('large')).sort(), [
      'large.pfa|no fault|0 must|0 should|0 tidy', 'larger.pfa|refused: E05 file too large',
    ]);
  },

  // A font that takes minutes: the page goes on, and the stop button ends that check alone.
  async stop(page) {
    await page.drop('#drop', [made('long.pfa', longFont())]);
    await page.until("!document.querySelector('#stop').hidden");
    const row = async () => (await rows(page)).find((it) => it.startsWith('long.pfa'));
    same('a long check is said', await row(), 'long.pfa|checking …');
    await page.click('#fonts button', 'letter.pfb');
    await page.click('#faults button', 'X05');
    await page.until("document.querySelector('#picture').naturalWidth > 0");
    test('meanwhile another font is drawn', await page.js("fonts.find((font) => font.name === 'long.pfa').result.kind === 'checking'"));
    await looks(page, 'long');
    test('the stop button is in view', await page.js("document.querySelector('#stop').getBoundingClientRect().bottom <= innerHeight"));
    await page.click('#stop');
    await page.until("fonts.every((font) => font.result.kind !== 'checking')");
    same('it is stopped', await row(), 'long.pfa|stopped');
    test('the stop button goes', await page.js("document.querySelector('#stop').hidden"));
    await dropped(page, fontOfTests('clean.pfb'));
    test('the next font is checked', (await rows(page)).includes('clean.pfb|no fault|0 must|0 should|0 tidy'));
  },

  // A font of ten million lines.
  async lines(page) {
    await dropped(page, made('faulty.pfa', faultyFont()));
    same('the first lines are shown, and it is said', [await page.text('#font'), await page.js('shown.result.faults.length')], [
      'faulty.pfa: the first 10,000 lines of more', 10000,
    ]);
    await looks(page, 'many');
    same('500 of them are listed', (await shownFaults(page)).length, 500);
    await page.click('#faults button', 'Show more');
    same('and more on request', (await shownFaults(page)).length, 1000);
    test('with a hint at downloads', (await page.text('#cut')).includes('A download has all lines.'));
    await page.click('#downloads button', 'Text');
    await page.untilText('#said', 'so far');
    test('a download goes on in pieces', /^Writing faulty.pfa.txt: \d+\.\d MB so far …$/.test(await page.text('#said')));
    await page.press('Escape');
    await page.untilText('#said', 'stopped');
    same('and is stopped by a key', await page.text('#said'), "faulty.pfa.txt isn't written: stopped.");
  },

  // All that is needed by keys alone: from the first field to an example's second fault.
  async keyboard(page) {
    await page.js("document.activeElement.blur(); fonts.length = 0; showFonts()");
    const tabTo = async (holds) => {
      for (let count = 0; count < 60; count += 1) {
        await page.press('Tab');
        if (await page.js(`(() => { const it = document.activeElement; return ${holds}; })()`)) return true;
      }
      return false;
    };
    await page.js("document.querySelector('#files').focus()");
    test('Tab leads to the example', await tabTo("it.id === 'example'"));
    await page.press('Enter');
    await page.untilText('#font', 'letter.pfb: 3 faults');
    test('Tab leads to the units', await tabTo("it.id === 'units'"));
    test('Tab leads to a fault', await tabTo("it.dataset.focus === '2'"));
    await page.press('Enter');
    await page.untilText('#drawn', 'up to step 68');
    test('Tab leads to its waiver', await tabTo("it.dataset.waiver === 'D X05'"));
    await page.press(' ');
    same('a key ticks it', await page.js("[...shown.ticked]"), ['D X05']);
    await page.press(' ');
    test('Tab leads to the links of the page', await tabTo("it.closest('#page') !== null || it === document.body"));
  },

  async names(page) {
    const { nodes } = await page.call('Accessibility.getFullAXTree');
    const roles = ['button', 'textbox', 'searchbox', 'checkbox', 'combobox', 'listbox', 'link', 'image'];
    const nameless = nodes.filter((it) => !it.ignored && roles.includes(it.role?.value) && !it.name?.value);
    same('each control has a name for readers of screens', nameless.map((it) => it.role.value), []);
    same('what is said is said to them', await page.js("document.querySelector('#said').tagName"), 'OUTPUT');
  },

  // A browser that can't compile the module, as one without 64-bit memory.
  async unable(page) {
    const packed = zlib.gzipSync('no module').toString('base64');
    const said = await page.js(`(async () => {
      const own = byId('module').textContent;
      byId('module').textContent = '${packed}';
      const result = await new Calls().call('check', givenOf({ bytes: new Uint8Array(), waivers: new Uint8Array() }));
      byId('module').textContent = own;
      return statusOf({ result });
    })()`);
    test("a browser that can't run the module is told so", said.startsWith("this browser can't run the module"), said);
  },

  async storage(page) {
    same('nothing is stored', await page.js("[document.cookie, localStorage.length, sessionStorage.length]"), ['', 0, 0]);
    const text = fs.readFileSync(file, 'utf8').replace(/^[A-Za-z0-9+/=]{1000,}$/gm, '');
    same('the page has no word of a store', text.match(/localStorage|sessionStorage|indexedDB|document\.cookie|caches\b|serviceWorker/g) ?? [], []);
  },
};

// The elements that are shown.
const ELEMENTS = "[...document.querySelectorAll('body *')].filter((it) => it.checkVisibility() && it.getClientRects().length > 0)";

// The elements that reach past the window, or whose text is wider than they are.
const CUT = `${ELEMENTS}.filter((it) => !it.closest('select')).filter((it) => {
  const { left, right } = it.getBoundingClientRect();
  const isBlock = getComputedStyle(it).display !== 'inline' && it.clientWidth > 0;
  return left < 0 || right > document.documentElement.clientWidth + 0.5 || isBlock && it.scrollWidth > it.clientWidth + 1;
}).map((it) => it.tagName + '#' + it.id + ' ' + it.innerText.slice(0, 30))`;

// What is pressed or chosen and is less than 24 pixels high.
const LOW = `${ELEMENTS}.filter((it) => it.matches('button, select, summary, .file, label:has([type=checkbox]), .field input'))
  .filter((it) => it.getBoundingClientRect().height < 24).map((it) => it.innerText)`;

// Of the picture in the page: the numbers of faults, and how many legends, pale glyphs and marks of the chosen fault there are.
const PARTS = `((drawn) => [
  [...drawn.querySelectorAll('#numbers text')].map((it) => it.textContent),
  ...['#legend', '#ghost', '#marks [fill]'].map((it) => drawn.querySelectorAll(it).length),
])(fitted())`;

// The texts whose colour is too near to their ground's, by WCAG's formula.
const FAINT = `(() => {
  const parts = (colour) => colour.match(/[\\d.]+/g).map(Number);
  const linear = (it) => (it <= 0.04045 ? it / 12.92 : ((it + 0.055) / 1.055) ** 2.4);
  const light = (colour) => parts(colour).slice(0, 3).reduce((sum, it, i) => sum + linear(it / 255) * [0.2126, 0.7152, 0.0722][i], 0);
  const ground = (it) => {
    const colour = getComputedStyle(it).backgroundColor;
    return parts(colour)[3] === 0 && it.parentElement ? ground(it.parentElement) : colour;
  };
  return ${ELEMENTS}.filter((it) => [...it.childNodes].some((node) => node.nodeType === 3 && node.data.trim() !== '')).map((it) => {
    const [dark, bright] = [light(getComputedStyle(it).color), light(ground(it))].sort((a, b) => a - b);
    return [(bright + 0.05) / (dark + 0.05), it.tagName, it.innerText.slice(0, 30)];
  }).filter(([contrast]) => contrast < 4.5);
})()`;

const page = await Page.open(findChromium(), `file://${path.resolve(file)}`, path.resolve(folder));
for (const [name, drive] of Object.entries(tests)) {
  try {
    await drive(page);
  } catch (error) {
    test(`${name}: it went on`, false, error.stack);
    if (pictures) await page.photograph(path.join(pictures, `failed-${name}.png`));
  }
}
same('the page complains of nothing', page.complaints, []);
same('nothing but the page was requested', page.requests, [`file://${path.resolve(file)}`]);
await page.close();
finish();
