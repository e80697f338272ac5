// A page in headless Chromium, which a test drives as a person would: by the mouse, keys, dropped files and downloads. Chromium is spoken to by
// its debugging pipe: messages of JSON, each ended by a zero byte, on the files 3 and 4.
import fs from 'fs';
import os from 'os';
import path from 'path';
import { spawn, spawnSync } from 'child_process';

// How long the page may take for anything that is waited for, in milliseconds.
const PATIENCE = 60000;

/** Returns the name of an installed Chromium, or undefined. */
export function findChromium() {
  return ['chromium', 'chromium-browser', 'google-chrome'].find((name) => spawnSync(name, ['--version']).status === 0);
}

const pause = (milliseconds) => new Promise((done) => setTimeout(done, milliseconds));

export class Page {
  /** What went wrong in the page: exceptions and errors of its console. */
  complaints = [];
  /** Addresses that were requested, but for the page's own Blobs and data. */
  requests = [];
  /** Files that were downloaded, in the order in which each was done. */
  downloaded = [];
  #waiting = new Map();
  #last = 0;

  /** Opens a page of an address in a new Chromium. Its downloads go into a folder. */
  static async open(program, url, downloads) {
    const page = new Page();
    page.room = fs.mkdtempSync(path.join(os.tmpdir(), 'web-'));
    const words = ['--headless=new', '--no-sandbox', '--disable-gpu', '--no-first-run', '--disable-dev-shm-usage',
      `--user-data-dir=${page.room}`, '--window-size=1280,900', '--remote-debugging-pipe', 'about:blank'];
    page.process = spawn(program, words, { stdio: ['ignore', 'ignore', 'ignore', 'pipe', 'pipe'] });
    page.ended = new Promise((done) => page.process.once('exit', done));
    page.ended.then(() => page.#fail('Chromium ended'));
    page.#listen();
    await page.call('Browser.setDownloadBehavior', { behavior: 'allow', downloadPath: downloads, eventsEnabled: true });
    const { targetId } = await page.call('Target.createTarget', { url: 'about:blank' });
    page.session = (await page.call('Target.attachToTarget', { targetId, flatten: true })).sessionId;
    for (const domain of ['Inspector', 'Page', 'Runtime', 'DOM', 'Log', 'Network']) await page.call(`${domain}.enable`);
    await page.call('Page.navigate', { url });
    await page.until("document.readyState === 'complete'");
    return page;
  }

  #listen() {
    let rest = '';
    const decoder = new TextDecoder();
    this.process.stdio[4].on('data', (bytes) => {
      const texts = (rest + decoder.decode(bytes, { stream: true })).split('\0');
      rest = texts.pop();
      for (const text of texts) this.#hear(JSON.parse(text));
    });
  }

  #hear({ id, error, result, method, params }) {
    if (id) {
      const [fulfil, reject] = this.#waiting.get(id);
      this.#waiting.delete(id);
      if (error) reject(new Error(error.message));
      else fulfil(result);
    }
    if (method === 'Inspector.targetCrashed') this.#fail('the page crashed');
    if (method === 'Runtime.exceptionThrown') this.complaints.push(params.exceptionDetails.exception?.description ?? params.exceptionDetails.text);
    if (method === 'Log.entryAdded' && params.entry.level === 'error') this.complaints.push(params.entry.text);
    if (method === 'Network.requestWillBeSent' && !/^(blob|data):/.test(params.request.url)) this.requests.push(params.request.url);
    if (method === 'Browser.downloadWillBegin') this.downloadName = params.suggestedFilename;
    if (method === 'Browser.downloadProgress' && params.state === 'completed') this.downloaded.push(this.downloadName);
  }

  // Whatever is waited for fails.
  #fail(why) {
    for (const [, reject] of this.#waiting.values()) reject(new Error(why));
    this.#waiting.clear();
  }

  call(method, params = {}) {
    const id = ++this.#last;
    const session = this.session && !method.startsWith('Browser.') ? { sessionId: this.session } : {};
    this.process.stdio[3].write(`${JSON.stringify({ id, method, params, ...session })}\0`);
    return new Promise((fulfil, reject) => this.#waiting.set(id, [fulfil, reject]));
  }

  /** Returns the value of an expression in the page. */
  async js(expression) {
    const { result, exceptionDetails } = await this.call('Runtime.evaluate', { expression, awaitPromise: true, returnByValue: true });
    if (exceptionDetails) throw new Error(`${expression}: ${exceptionDetails.exception?.description ?? exceptionDetails.text}`);
    return result.value;
  }

  /** Waits until an expression holds, and returns its value. */
  async until(expression) {
    for (const begun = Date.now(); Date.now() - begun < PATIENCE; await pause(20)) {
      const value = await this.js(expression);
      if (value) return value;
    }
    throw new Error(`it never came that ${expression}`);
  }

  /** Returns the text of an element. */
  text(selector) {
    return this.js(`document.querySelector(${JSON.stringify(selector)})?.innerText ?? ''`);
  }

  /** Waits until an element's text has a word. */
  untilText(selector, word) {
    return this.until(`(document.querySelector(${JSON.stringify(selector)})?.innerText ?? '').includes(${JSON.stringify(word)})`);
  }

  /** Returns the middle of the element that an expression gives, which is brought into view. */
  async #middleOf(expression) {
    return this.js(`(() => {
      const it = ${expression};
      it.scrollIntoView({ block: 'center' });
      const { x, y, width, height } = it.getBoundingClientRect();
      return { x: x + width / 2, y: y + height / 2 };
    })()`);
  }

  /** Presses the mouse on the first element of a selector that has a text. */
  async click(selector, text = '') {
    const found = `[...document.querySelectorAll(${JSON.stringify(selector)})]
      .find((it) => it.textContent.includes(${JSON.stringify(text)}) && it.getClientRects().length > 0)`;
    await this.until(`Boolean(${found})`);
    const at = await this.#middleOf(found);
    for (const type of ['mousePressed', 'mouseReleased']) await this.call('Input.dispatchMouseEvent', { type, ...at, button: 'left', clickCount: 1 });
  }

  /** Presses a key, as `n`, `Tab` or `ArrowDown`. */
  async press(key) {
    const codes = { Tab: 9, Enter: 13, Escape: 27, ' ': 32, ArrowUp: 38, ArrowDown: 40 };
    const text = key.length === 1 ? { text: key } : key === 'Enter' ? { text: '\r' } : {};
    const code = { key, windowsVirtualKeyCode: codes[key] ?? key.toUpperCase().charCodeAt(0) };
    await this.call('Input.dispatchKeyEvent', { type: 'keyDown', ...code, ...text });
    await this.call('Input.dispatchKeyEvent', { type: 'keyUp', ...code });
  }

  /** Types a text, a key a letter. */
  async type(text) {
    for (const letter of text) await this.press(letter);
  }

  /** Drops files on an element. */
  async drop(selector, files) {
    const at = await this.#middleOf(`document.querySelector(${JSON.stringify(selector)})`);
    const data = { items: [], files, dragOperationsMask: 1 };
    for (const type of ['dragEnter', 'dragOver', 'drop']) await this.call('Input.dispatchDragEvent', { type, ...at, data });
  }

  /** Chooses files in a field for files. */
  async choose(selector, files) {
    const { root } = await this.call('DOM.getDocument');
    const { nodeId } = await this.call('DOM.querySelector', { nodeId: root.nodeId, selector });
    await this.call('DOM.setFileInputFiles', { nodeId, files });
  }

  /** Chooses an option of a list by its value. */
  async select(selector, value) {
    await this.js(`(() => {
      const it = document.querySelector(${JSON.stringify(selector)});
      it.value = ${JSON.stringify(value)};
      it.dispatchEvent(new Event('change', { bubbles: true }));
    })()`);
  }

  /** Waits for one more download, and returns its name. */
  async untilDownloaded(before) {
    for (const begun = Date.now(); Date.now() - begun < PATIENCE; await pause(20)) {
      if (this.downloaded.length > before) return this.downloaded[before];
    }
    throw new Error('a download never came');
  }

  /** Sets the size of the window, and the colour scheme, and waits until the page has seen them. */
  async look(width, height, scheme) {
    await this.call('Emulation.setDeviceMetricsOverride', { width, height, deviceScaleFactor: 1, mobile: false });
    await this.call('Emulation.setEmulatedMedia', { features: [{ name: 'prefers-color-scheme', value: scheme }] });
    await this.js('new Promise((done) => requestAnimationFrame(() => requestAnimationFrame(done)))');
  }

  /** Writes what is seen to a file. */
  async photograph(file) {
    const { data } = await this.call('Page.captureScreenshot', { format: 'png' });
    fs.writeFileSync(file, Buffer.from(data, 'base64'));
  }

  async close() {
    this.session = undefined;
    this.call('Browser.close').catch(() => {});
    if (await Promise.race([this.ended, pause(5000).then(() => 'late')]) === 'late') this.process.kill('SIGKILL');
    fs.rmSync(this.room, { recursive: true, force: true, maxRetries: 5 });
  }
}
