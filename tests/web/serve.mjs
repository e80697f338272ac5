// Runs programs, by their modules, for the scripts that stand in their place (client.sh): node serve.mjs MODULES REQUESTS. A line of the pipe REQUESTS is
// the number of such a script and the program's name. Words, working folder, environment and descriptors are the script's; it gets the status.
import fs from 'node:fs';
import { run } from '../../web/wasi.mjs';

const [modules, requests] = process.argv.slice(2);
const loaded = new Map();

function moduleOf(name) {
  if (!loaded.has(name)) loaded.set(name, new WebAssembly.Module(fs.readFileSync(`${modules}/${name}.wasm`)));
  return loaded.get(name);
}

function texts(file) {
  const all = fs.readFileSync(file, 'latin1').split('\0');
  return all.slice(0, -1).map((text) => Buffer.from(text, 'latin1'));
}

// A descriptor of the script's, opened once more; a file at its end. Undefined where it is closed.
function opened(of, fd) {
  try {
    return fs.openSync(`${of}/fd/${fd}`, fd === 0 ? 'r' : fs.constants.O_WRONLY | fs.constants.O_APPEND);
  } catch {
    return undefined;
  }
}

function answer(of, name, words) {
  const standard = [0, 1, 2].map((fd) => opened(of, fd));
  const environment = Object.fromEntries(texts(`${of}/environ`).map((entry) => entry.toString('latin1').split(/=(.*)/s).slice(0, 2)));
  process.chdir(fs.readlinkSync(`${of}/cwd`));
  try {
    return run(moduleOf(name), [Buffer.from(name), ...words], { environment, standard });
  } catch (error) {
    if (standard[2] !== undefined) fs.writeSync(standard[2], `${error.stack}\n`);
    return 70;
  } finally {
    for (const fd of standard) if (fd !== undefined) fs.closeSync(fd);
  }
}

// Hands the status over, unless the script has been ended.
function reply(of, pipe, status) {
  while (fs.existsSync(of)) {
    try {
      fs.writeFileSync(pipe, `${status}\n`, { flag: fs.constants.O_WRONLY | fs.constants.O_NONBLOCK });
      return;
    } catch (error) {
      if (error.code !== 'ENXIO') throw error;
    }
  }
}

const pipe = fs.openSync(requests, 'r+');
const room = Buffer.alloc(4096);
for (let text = ''; ;) {
  text += room.toString('latin1', 0, fs.readSync(pipe, room));
  const lines = text.split('\n');
  text = lines.pop();
  for (const line of lines) {
    if (line === 'end') process.exit();
    const [number, name] = line.split(' ');
    const of = `/proc/${number}`;
    try {
      reply(of, `${requests}.${number}.reply`, answer(of, name, texts(`${requests}.${number}.words`)));
    } catch (error) {
      // A script that has been ended meanwhile gets no answer.
      if (fs.existsSync(of)) throw error;
    }
  }
}
