#!/usr/bin/env node
// t1check on any system that has node.
import { start } from './wasi.mjs';

start('t1check', 't1check');
