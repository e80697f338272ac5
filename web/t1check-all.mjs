#!/usr/bin/env node
// t1check-all on any system that has node.
import fs from 'node:fs';
import tty from 'node:tty';
import { start } from './wasi.mjs';

// The version is that of a commit, which the program can't know: a package has it in a file, a clone by git.
async function commit() {
  try {
    return fs.readFileSync(new URL('../commit', import.meta.url), 'utf8').trim();
  } catch {
    const { spawnSync } = await import('node:child_process');
    return spawnSync('git', ['rev-parse', '--short', 'HEAD'], { cwd: new URL('.', import.meta.url), encoding: 'utf8' }).stdout?.trim() ?? '';
  }
}

// Names have `/` on each system, so that settings, waivers and known faults of one serve on every other.
function named(word) {
  return process.platform === 'win32' ? word.replaceAll('\\', '/') : word;
}

// On a terminal the lines of a font and rule are one, as wide as it is, in colours unless these aren't wanted.
function ofTerminal() {
  if (!tty.isatty(1)) return [];
  const { NO_COLOR, TERM } = process.env;
  return [...(NO_COLOR || TERM === 'dumb' ? [] : ['--colour']), '--columns', String(process.stdout.columns || 80)];
}

if (process.argv.includes('--version')) process.env.T1CHECK_COMMIT ??= await commit();
start('t1check_all', 't1check-all', { named, before: ofTerminal() });
