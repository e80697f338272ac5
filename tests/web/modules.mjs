// Tries the modules of the programs beside their host: node modules.mjs MODULES FONTS. They have no table of functions, and import WASI's calls and two
// of our own; and node's own host runs them. Ends with 1 where something is otherwise.
import fs from 'node:fs';
import { WASI } from 'node:wasi';

const [modules, fonts] = process.argv.slice(2);
const TABLE = 4;
let failed = 0;

function wanted(what, given, wish) {
  if (given === wish) return;
  failed++;
  console.log(`${what}: ${JSON.stringify(given)}, wanted ${JSON.stringify(wish)}`);
}

function* sections(bytes) {
  for (let at = 8; at < bytes.length;) {
    const id = bytes[at++];
    let size = 0;
    for (let shift = 0, byte = 128; byte >= 128; shift += 7) {
      byte = bytes[at++];
      size |= (byte & 127) << shift;
    }
    yield id;
    at += size;
  }
}

// What a program prints in the folder of fonts, and its status.
function answer(name, words, input = '') {
  const file = `${fs.mkdtempSync('/tmp/modules-')}/out`;
  fs.writeFileSync(`${file}.in`, input);
  const [stdin, stdout] = [fs.openSync(`${file}.in`), fs.openSync(file, 'w')];
  const wasi = new WASI({ version: 'preview1', args: [name, ...words], preopens: { '.': fonts }, stdin, stdout, stderr: stdout });
  const ours = { path_mode: () => 0, fd_set_mode: () => 0 };
  const module = new WebAssembly.Module(fs.readFileSync(`${modules}/${name}.wasm`));
  const status = wasi.start(new WebAssembly.Instance(module, { ...wasi.getImportObject(), t1check: ours }));
  return `${fs.readFileSync(file, 'utf8')}${status}`;
}

for (const name of ['t1check', 't1check_all', 't1draw']) {
  const bytes = fs.readFileSync(`${modules}/${name}.wasm`);
  wanted(`${name}: tables`, [...sections(bytes)].filter((id) => id === TABLE).length, 0);
  const imports = WebAssembly.Module.imports(new WebAssembly.Module(bytes));
  wanted(`${name}: imports`, [...new Set(imports.map(({ module }) => module))].sort().join(' '), name === 't1check' ? 'wasi_snapshot_preview1' : 't1check wasi_snapshot_preview1');
}
wanted('t1check', answer('t1check', ['H02.pfb']), '1: glyph A - 9 H02 stems overlap\n1');
wanted('t1check, input', answer('t1check', [], fs.readFileSync(`${fonts}/H02.pfb`)), '1: glyph A - 9 H02 stems overlap\n1');
wanted('t1check, a folder that it is not given', answer('t1check', ['../fonts/H02.pfb']), 't1check: read failed\n3');
wanted('t1check_all', answer('t1check_all', ['-q', 'H02.pfb', 'nosuch.pfb']),
  'H02.pfb: 1: glyph A - 9 H02 stems overlap\nnosuch.pfb: t1check: read failed: no such file or folder\n3');
wanted('t1draw', answer('t1draw', ['nosuch', 'H02.pfb']), 't1draw: no glyph nosuch\n3');
process.exitCode = failed > 0 ? 1 : 0;
