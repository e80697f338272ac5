// Runs the module of calls.c in a folder, by the host of the programs or by node's own: node calls.mjs own|wasi MODULE FOLDER. Ends with its status.
import fs from 'node:fs';
import { WASI } from 'node:wasi';
import { run } from '../../web/wasi.mjs';

const [host, file, folder] = process.argv.slice(2);
const module = new WebAssembly.Module(fs.readFileSync(file));
const words = ['calls', 'eight by'];
const environment = { TRIED: 'value' };
process.chdir(folder);
if (host === 'own') {
  process.exitCode = run(module, words.map((word) => Buffer.from(word)), { environment });
} else {
  const wasi = new WASI({ version: 'preview1', args: words, env: environment, preopens: { '.': '.' } });
  const ours = { path_mode: () => 0, fd_set_mode: () => 0 };
  process.exitCode = wasi.start(new WebAssembly.Instance(module, { ...wasi.getImportObject(), t1check: ours }));
}
