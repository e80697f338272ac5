// The programs under node: the calls of WASI preview 1 that web/system.c makes, over node:fs, and the start of a program by its name.
// https://github.com/WebAssembly/WASI/blob/main/legacy/preview1/docs.md
import fs from 'node:fs';
import tty from 'node:tty';
import v8 from 'node:v8';
import zlib from 'node:zlib';

const LEAST_NODE = 20;
const FAILED = 3;
const isWindows = process.platform === 'win32';

// The errors in WASI's order, without the `E` of node's codes.
const ERRORS = `SUCCESS 2BIG ACCES ADDRINUSE ADDRNOTAVAIL AFNOSUPPORT AGAIN ALREADY BADF BADMSG BUSY CANCELED CHILD CONNABORTED CONNREFUSED CONNRESET DEADLK
  DESTADDRREQ DOM DQUOT EXIST FAULT FBIG HOSTUNREACH IDRM ILSEQ INPROGRESS INTR INVAL IO ISCONN ISDIR LOOP MFILE MLINK MSGSIZE MULTIHOP NAMETOOLONG NETDOWN
  NETRESET NETUNREACH NFILE NOBUFS NODEV NOENT NOEXEC NOLCK NOLINK NOMEM NOMSG NOPROTOOPT NOSPC NOSYS NOTCONN NOTDIR NOTEMPTY NOTRECOVERABLE NOTSOCK NOTSUP
  NOTTY NXIO OVERFLOW OWNERDEAD PERM PIPE PROTO PROTONOSUPPORT PROTOTYPE RANGE ROFS SPIPE SRCH STALE TIMEDOUT TXTBSY XDEV NOTCAPABLE`.split(/\s+/);
const numberOf = (name) => ERRORS.indexOf(name);

const FOLLOWS = 1, CREATES = 1, IS_FOLDER = 2, IS_NEW = 4, EMPTIES = 8, APPENDS = 1;
const RIGHT_READ = 1n << 1n, RIGHT_WRITE = 1n << 6n, ALL_RIGHTS = (1n << 29n) - 1n;
const UNKNOWN = 0, BLOCK_DEVICE = 1, CHARACTER_DEVICE = 2, FOLDER = 3, REGULAR_FILE = 4, LINK = 7;
const ENTRY = 24;
const MODE = 0o7777;

// How long is waited, in milliseconds, until a pipe or a terminal is ready that doesn't wait itself.
const PAUSE = 2;

// A call that fails by WASI's name of the error.
class Failed extends Error {
  constructor(name) {
    super(name);
    this.code = `E${name}`;
  }
}

// The end of a program, which its frames are left by.
class Ended {
  constructor(status) {
    this.status = status;
  }
}

function kindOf(stat) {
  if (stat.isFile()) return REGULAR_FILE;
  if (stat.isDirectory()) return FOLDER;
  if (stat.isSymbolicLink()) return LINK;
  if (stat.isCharacterDevice()) return CHARACTER_DEVICE;
  return stat.isBlockDevice() ? BLOCK_DEVICE : UNKNOWN;
}

// Waits, and does a call again, where it says that it would have to wait.
function patient(call) {
  for (;;) {
    try {
      return call();
    } catch (error) {
      if (error.code !== 'EAGAIN') throw error;
      Atomics.wait(new Int32Array(new SharedArrayBuffer(4)), 0, 0, PAUSE);
    }
  }
}

// An open file of a program, by what it is to node: a descriptor, or a function that takes what is written.
function fileOf(given) {
  if (given === undefined) return undefined;
  return typeof given === 'function' ? { write: given } : { fd: given, write: (bytes) => fs.writeSync(given, bytes) };
}

// What an instance of a module is given: its words, its environment, and its files.
class System {
  constructor(words, environment, standard) {
    this.words = words;
    this.environment = Object.entries(environment).map(([name, value]) => Buffer.from(`${name}=${value}`));
    const folders = [{ name: '/', path: Buffer.from('/') }, { name: '.', path: Buffer.alloc(0) }];
    this.files = [...standard.map(fileOf), ...folders];
  }

  // ---- Memory, which moves when it grows

  get view() {
    return new DataView(this.memory.buffer);
  }

  bytes(at, size) {
    return new Uint8Array(this.memory.buffer, at, size);
  }

  putNumber(at, number) {
    this.view.setUint32(at, number, true);
  }

  // ---- Files

  file(fd) {
    const file = this.files[fd];
    if (!file) throw new Failed('BADF');
    return file;
  }

  // The path of a file below an open folder. A system but Windows has bytes.
  path(fd, at, size) {
    const { path } = this.file(fd);
    if (!path) throw new Failed('NOTDIR');
    const whole = Buffer.concat([path, this.bytes(at, size)]);
    return isWindows ? whole.toString() : whole;
  }

  // Takes the least free descriptor for a file, after those that the program was given.
  add(file) {
    const free = this.files.findIndex((it, fd) => fd > 2 && !it);
    const fd = free < 0 ? this.files.length : free;
    this.files[fd] = file;
    return fd;
  }

  stat(follows, path) {
    return follows & FOLLOWS ? fs.statSync(path, { bigint: true }) : fs.lstatSync(path, { bigint: true });
  }

  putStat(at, stat) {
    const view = this.view;
    const numbers = [stat.dev, stat.ino, BigInt(kindOf(stat)), stat.nlink, stat.size, stat.atimeNs, stat.mtimeNs, stat.ctimeNs];
    numbers.forEach((number, place) => view.setBigUint64(at + 8 * place, BigInt.asUintN(64, number), true));
  }

  opened(follows, path, how, rights, flags) {
    if (how & IS_FOLDER) {
      if (!this.stat(follows, path).isDirectory()) throw new Failed('NOTDIR');
      return { path: Buffer.concat([Buffer.from(path), Buffer.from('/')]), entries: fs.readdirSync(path, { encoding: 'buffer' }) };
    }
    const { O_RDONLY, O_WRONLY, O_RDWR, O_CREAT, O_EXCL, O_TRUNC, O_APPEND } = fs.constants;
    const access = !(rights & RIGHT_WRITE) ? O_RDONLY : rights & RIGHT_READ ? O_RDWR : O_WRONLY;
    const others = (how & CREATES && O_CREAT) | (how & IS_NEW && O_EXCL) | (how & EMPTIES && O_TRUNC) | (flags & APPENDS && O_APPEND);
    return fileOf(fs.openSync(path, access | others, 0o666));
  }

  // Hands each part to a call, until one isn't used up.
  each(parts, count, call) {
    let all = 0;
    for (let i = 0; i < count; i++) {
      const size = this.view.getUint32(parts + 8 * i + 4, true);
      const done = patient(() => call(this.bytes(this.view.getUint32(parts + 8 * i, true), size)));
      all += done;
      if (done < size) break;
    }
    return all;
  }

  // ---- Texts

  putSizes(texts, count, size) {
    this.putNumber(count, texts.length);
    this.putNumber(size, texts.reduce((sum, text) => sum + text.length + 1, 0));
  }

  putTexts(texts, entries, at) {
    for (const [place, text] of texts.entries()) {
      this.putNumber(entries + 4 * place, at);
      const room = this.bytes(at, text.length + 1);
      room.set(text);
      room[text.length] = 0;
      at += text.length + 1;
    }
  }

  calls() {
    return {
      args_sizes_get: (count, size) => this.putSizes(this.words, count, size),
      args_get: (entries, at) => this.putTexts(this.words, entries, at),
      environ_sizes_get: (count, size) => this.putSizes(this.environment, count, size),
      environ_get: (entries, at) => this.putTexts(this.environment, entries, at),
      fd_close: (fd) => {
        const file = this.file(fd);
        this.files[fd] = undefined;
        if (file.fd !== undefined) fs.closeSync(file.fd);
      },
      fd_fdstat_get: (fd, at) => {
        const isTerminal = tty.isatty(this.file(fd).fd ?? -1);
        this.bytes(at, ENTRY).fill(0);
        this.view.setUint8(at, isTerminal ? CHARACTER_DEVICE : REGULAR_FILE);
        this.view.setBigUint64(at + 8, isTerminal ? RIGHT_READ | RIGHT_WRITE : ALL_RIGHTS, true);
      },
      fd_filestat_get: (fd, at) => this.putStat(at, fs.fstatSync(this.file(fd).fd, { bigint: true })),
      fd_prestat_get: (fd, at) => {
        const { name } = this.file(fd);
        if (name === undefined) throw new Failed('BADF');
        this.putNumber(at, 0);
        this.putNumber(at + 4, name.length);
      },
      fd_prestat_dir_name: (fd, at, size) => this.bytes(at, size).set(Buffer.from(this.file(fd).name)),
      fd_read: (fd, parts, count, size) => {
        const file = this.file(fd);
        this.putNumber(size, this.each(parts, count, (bytes) => {
          try {
            return fs.readSync(file.fd, bytes);
          } catch (error) {
            // So Windows says that a pipe has ended.
            if (error.code === 'EOF') return 0;
            throw error;
          }
        }));
      },
      fd_readdir: (fd, at, size, cookie, used) => {
        const { entries } = this.file(fd);
        if (!entries) throw new Failed('NOTDIR');
        const room = Buffer.from(this.memory.buffer, at, size);
        let end = 0;
        for (let next = Number(cookie); next < entries.length && end < size; next++) {
          const entry = Buffer.alloc(ENTRY);
          entry.writeBigUInt64LE(BigInt(next + 1), 0);
          entry.writeUInt32LE(entries[next].length, 16);
          end += Buffer.concat([entry, entries[next]]).copy(room, end);
        }
        this.putNumber(used, end);
      },
      fd_sync: (fd) => fs.fsyncSync(this.file(fd).fd),
      fd_write: (fd, parts, count, size) => {
        const file = this.file(fd);
        this.putNumber(size, this.each(parts, count, file.write));
      },
      path_create_directory: (fd, at, size) => fs.mkdirSync(this.path(fd, at, size)),
      path_filestat_get: (fd, follows, at, size, found) => this.putStat(found, this.stat(follows, this.path(fd, at, size))),
      path_open: (fd, follows, at, size, how, rights, _rightsBelow, flags, opened) => {
        this.putNumber(opened, this.add(this.opened(follows, this.path(fd, at, size), how, rights, flags)));
      },
      path_readlink: (fd, at, size, text, most, used) => {
        this.putNumber(used, fs.readlinkSync(this.path(fd, at, size), 'buffer').copy(this.bytes(text, most)));
      },
      path_rename: (fd, at, size, toFd, to, toSize) => fs.renameSync(this.path(fd, at, size), this.path(toFd, to, toSize)),
      path_unlink_file: (fd, at, size) => fs.unlinkSync(this.path(fd, at, size)),
    };
  }

  // The two that are no calls of WASI.
  ownCalls() {
    return {
      path_mode: (fd, follows, at, size, mode) => this.putNumber(mode, Number(this.stat(follows, this.path(fd, at, size)).mode) & MODE),
      fd_set_mode: (fd, mode) => fs.fchmodSync(this.file(fd).fd, mode & MODE),
    };
  }

  // The imports of a module: calls return the number of their error, if they fail.
  imports() {
    const guarded = (calls) => Object.fromEntries(Object.entries(calls).map(([name, call]) => [name, (...given) => {
      try {
        call(...given.map((it) => (typeof it === 'number' ? it >>> 0 : it)));
        return 0;
      } catch (error) {
        if (typeof error.code !== 'string') throw error;
        const number = numberOf(error.code.slice(1));
        return number < 0 ? numberOf('IO') : number;
      }
    }]));
    const proc_exit = (status) => {
      throw new Ended(status);
    };
    return { wasi_snapshot_preview1: { ...guarded(this.calls()), proc_exit }, t1check: guarded(this.ownCalls()) };
  }
}

// Runs a program and returns its status. The words are bytes, its name first. Input, output and errors are descriptors of node's, or functions that
// take what is written, or undefined where one is closed.
export function run(module, words, { environment = process.env, standard = [0, 1, 2] } = {}) {
  const system = new System(words, environment, standard);
  const { exports } = new WebAssembly.Instance(module, system.imports());
  system.memory = exports.memory;
  try {
    exports._start();
  } catch (ended) {
    if (ended instanceof Ended) return ended.status;
    throw new Error(`its module stopped: ${ended.message}`);
  } finally {
    for (const file of system.files.slice(3)) if (file?.fd !== undefined) fs.closeSync(file.fd);
  }
}

// How much of a function V8 executes before it compiles it once more, for speed: more than by itself, since most runs end sooner.
const BUDGET = 10000000;

// The module of a program of the release.
export function moduleOf(name) {
  try {
    v8.setFlagsFromString(`--wasm-tiering-budget=${BUDGET}`);
    return new WebAssembly.Module(zlib.gunzipSync(fs.readFileSync(new URL(`modules/${name}.wasm.gz`, import.meta.url))));
  } catch (error) {
    throw new Error(`its module can't be used: ${error.message}`);
  }
}

// The words of the command line. Node has lost bytes of a word that isn't UTF-8; Linux has them.
function wordsGiven(named) {
  const words = process.argv.slice(2);
  if (process.platform === 'linux' && words.some((word) => word.includes('\ufffd'))) {
    const all = fs.readFileSync('/proc/self/cmdline', 'latin1').split('\0').slice(0, -1);
    return all.slice(all.length - words.length).map((word) => Buffer.from(word, 'latin1'));
  }
  return words.map((word) => Buffer.from(named(word)));
}

// Ends this process as a program, with the status that a function returns.
export function answer(program, work) {
  try {
    const { node } = process.versions;
    if (Number.parseInt(node, 10) < LEAST_NODE) throw new Error(`node ${LEAST_NODE} is needed, and this is ${node}`);
    process.exitCode = work();
  } catch (error) {
    process.exitCode = FAILED;
    try {
      fs.writeSync(2, `${program}: ${error.message}\n`);
    } catch {
      // Nobody can be told.
    }
  }
}

// Runs a program on the words of the command line, each as `named` makes it, after those that come before.
export function start(name, program, { before = [], named = (word) => word } = {}) {
  answer(program, () => run(moduleOf(name), [...[program, ...before].map((word) => Buffer.from(word)), ...wordsGiven(named)]));
}
