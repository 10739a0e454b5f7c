#!/usr/bin/env node
// The package for JavaScript, called as the drivers beside it: package.mjs MATRIX i32 CALLS. A call is timed with its copies and its memory.
// RIMOPAKU_JS is the folder of the package; prebuilt/javascript without it. With WIDE=1 the module for memories of 64 bits is called.
import { readFileSync } from "node:fs";
import { basename, dirname, join, resolve } from "node:path";
import { fileURLToPath, pathToFileURL } from "node:url";

const folder = process.env.RIMOPAKU_JS ?? join(dirname(fileURLToPath(import.meta.url)), "../../../prebuilt/javascript");
const { callsOf } = await import(pathToFileURL(join(resolve(folder), "calls.js")));
const name = process.env.WIDE ? "rimopaku64.wasm" : "rimopaku.wasm";
const { order } = callsOf(await WebAssembly.compile(readFileSync(join(folder, name))));

const [, program, path, kind, calls] = process.argv;
if (kind !== "i32" || !(calls > 0)) {
  console.error(`usage: ${program} MATRIX i32 CALLS`);
  process.exit(2);
}
const { buffer, byteOffset } = readFileSync(path);
const view = new DataView(buffer, byteOffset);
const [n, entries] = [0, 8].map((at) => Number(view.getBigInt64(at, true)));
const pointers = Int32Array.from({ length: n + 1 }, (_, k) => Number(view.getBigInt64(16 + 8 * k, true)));
const rows = Int32Array.from({ length: entries }, (_, k) => view.getInt32(16 + 8 * (n + 1) + 4 * k, true));

let p;
const times = Array.from({ length: Number(calls) }, () => {
  const started = process.hrtime.bigint();
  ({ p } = order(n, pointers, rows));
  return Number(process.hrtime.bigint() - started);
}).sort((a, b) => a - b);
let hash = 1469598103934665603n;
for (const row of p) hash = BigInt.asUintN(64, (hash ^ BigInt(row)) * 1099511628211n);
const words = [`n=${n}`, `phash=${hash.toString(16).padStart(16, "0")}`, `min_ns=${times[0]}`, `med_ns=${times[times.length >> 1]}`];
console.log("package", kind, basename(path), ...words);
