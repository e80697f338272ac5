#!/usr/bin/env node
// t1explain on any system that has node: the pages that t1check-all has, without a pager.
import fs from 'node:fs';
import { answer, moduleOf, run } from './wasi.mjs';

const CLEAN = 0, FAILED = 3;
const HELP = `Explains rules and refusals: t1explain [CODE...], as t1explain h02 E08; without a code it lists all of them.
t1explain --version prints the version.
`;

// What t1check-all prints to words that it takes.
function printed(module, ...words) {
  const parts = [];
  const keep = (bytes) => {
    parts.push(bytes.slice());
    return bytes.length;
  };
  const status = run(module, ['t1check-all', ...words].map((word) => Buffer.from(word)), { environment: {}, standard: [undefined, keep, undefined] });
  return status === CLEAN ? Buffer.concat(parts) : undefined;
}

function put(fd, bytes) {
  for (let left = Buffer.from(bytes); left.length > 0;) left = left.subarray(fs.writeSync(fd, left));
}

function explain(words) {
  if (['--help', '-h'].includes(words[0])) {
    put(1, HELP);
    return CLEAN;
  }
  if (words[0]?.startsWith('-') && words[0] !== '-' && words[0] !== '--version') throw new Error(`unknown option '${words[0]}'`);
  const module = moduleOf('t1check_all');
  if (words[0] === '--version') {
    put(1, printed(module, '--version').toString().replace('check-all', 'explain'));
    return CLEAN;
  }
  if (words.length === 0) {
    put(1, printed(module, '--explain'));
    return CLEAN;
  }
  let status = CLEAN, isFirst = true;
  for (const word of words) {
    const page = printed(module, '--explain', '--', word);
    if (page === undefined) {
      put(2, `t1explain: there is no rule and no refusal '${word}'\n`);
      status = FAILED;
    } else {
      put(1, `${isFirst ? '' : '\n'}${page}`);
      isFirst = false;
    }
  }
  return status;
}

answer('t1explain', () => explain(process.argv.slice(2)));
