#!/usr/bin/env node
// t1draw on any system that has node.
import { start } from './wasi.mjs';

start('t1draw', 't1draw');
