// Tests of the package in the folder RIMOPAKU_JS, as bindings/js/build made it.
import assert from "node:assert/strict";
import { createReadStream, readFileSync } from "node:fs";
import { dirname, join } from "node:path";
import { createInterface } from "node:readline";
import test from "node:test";
import { fileURLToPath, pathToFileURL } from "node:url";
import { Worker } from "node:worker_threads";

const top = join(dirname(fileURLToPath(import.meta.url)), "../../..");
const folder = process.env.RIMOPAKU_JS;
const load = (name) => import(pathToFileURL(join(folder, name)));
const rimopaku = await load("index.js");
const { order, orderHolding, counts, columns, InvalidInput, NotPermutation, OutOfMemory, RoomTooSmall } = rimopaku;

const P = Int32Array.of(0, 2, 6, 10, 12, 14);
const I = Int32Array.of(0, 1, 0, 1, 2, 4, 1, 2, 3, 4, 2, 3, 1, 4);

test("the call of the README", () => {
  const { p, pInv, info } = order(5, P, I);
  assert.deepEqual([...p], [0, 3, 2, 4, 1]);
  assert.deepEqual([...pInv], [0, 4, 2, 1, 3]);
  assert.equal(info.lnz, 5);
  assert.deepEqual([info.nz, info.symmetry, info.jumbled], [14, false, false]);
  assert.equal(counts(5, P, I, p).lnz, 5);
});

test("other arrays are copied, and the caller's are not written", () => {
  const [pointers, indices] = [P.slice(), I.slice()];
  assert.deepEqual(order(5, [...P], [...I]).p, order(5, pointers, indices).p);
  assert.deepEqual([pointers, indices], [P, I]);
});

const natural = (n) => Int32Array.from({ length: n }, (_, k) => k);

test("the factor of a cycle", () => {
  const [pointers, indices] = [[0, 3, 6, 9, 12], [0, 1, 3, 0, 1, 2, 1, 2, 3, 0, 2, 3]];
  const factor = columns(4, pointers, indices, natural(4));
  assert.deepEqual([...factor.pointers], [0, 2, 4, 5, 5]);
  assert.deepEqual([...factor.rows], [1, 3, 2, 3, 3]);
  assert.deepEqual([...factor.parent], [1, 2, 3, -1]);
  const told = counts(4, pointers, indices, natural(4));
  assert.deepEqual([...told.sizes], [2, 2, 1, 0]);
  assert.deepEqual([told.lnz, told.nMultSubsLdl, told.nMultSubsLu, told.dMax], [5, 7, 9, 3]);
});

test("rows held last", () => {
  const [pointers, indices] = [[0, 1, 2, 3, 4], [0, 1, 2, 3]];
  for (const hold of [[1], Int32Array.of(1), Uint8Array.of(0, 1, 0, 0), [false, true, false, false]]) {
    assert.deepEqual([...orderHolding(4, pointers, indices, hold).p], [0, 2, 3, 1]);
  }
  assert.deepEqual([...orderHolding(4, pointers, indices, []).p], [0, 1, 2, 3]);
});

test("the parameters", () => {
  const n = 400;
  const pointers = Int32Array.from({ length: n + 1 }, (_, k) => (k === 0 ? 0 : n + k - 1));
  const indices = Int32Array.from({ length: 2 * n - 1 }, (_, k) => (k < n ? k : 0));
  assert.equal(order(n, pointers, indices).info.nDense, 1);
  assert.equal(order(n, pointers, indices, { dense: -1 }).info.nDense, 1);
  assert.equal(order(n, pointers, indices, { dense: 20 }).info.nDense, 0);
  assert.equal(order(n, pointers, indices, { thousandths: 20000 }).info.nDense, 0);
  assert.equal(order(n, pointers, indices, { aggressive: false }).info.lnz, n - 1);
});

test("faults have names", () => {
  const throws = (call, kind) => assert.throws(call, (fault) => fault instanceof kind && fault.name === kind.name);
  throws(() => order(-1, P, I), InvalidInput);
  throws(() => order(2 ** 31, P, I), InvalidInput);
  throws(() => order(1.5, P, I), InvalidInput);
  throws(() => order(6, P, I), InvalidInput);
  throws(() => order(5, P, I.subarray(1)), InvalidInput);
  throws(() => order(5, P, Int32Array.from(I, (i) => i + 1)), InvalidInput);
  throws(() => order(5, [0, 2, 6, 10, 12, 14.5], I), InvalidInput);
  throws(() => order(5, P, I, { dense: NaN }), InvalidInput);
  throws(() => orderHolding(5, P, I, [5]), InvalidInput);
  throws(() => orderHolding(5, P, I, new Uint8Array(4)), InvalidInput);
  throws(() => counts(5, P, I, [0, 1, 2, 3, 3]), NotPermutation);
  throws(() => counts(5, P, I, [0, 1, 2, 3]), NotPermutation);
  throws(() => columns(5, P, I, natural(5), { room: 4 }), RoomTooSmall);
  assert.throws(() => order(5, 7, I), TypeError);
  assert.throws(() => order(5, undefined, I), TypeError);
});

test("limits", () => {
  assert.deepEqual(order(0, [0], []).p, new Int32Array(0));
  assert.equal(order(0, [], []).info.n, 0);
  assert.deepEqual(counts(0, [0], [], []).sizes, new Int32Array(0));
  assert.deepEqual([...columns(1, [0, 0], [], [0]).pointers], [0, 0]);
  // The greatest number of rows: the arrays that are to be written have 16 GB.
  assert.throws(() => order(2 ** 31 - 1, P, I), OutOfMemory);
  assert.throws(() => columns(5, P, I, natural(5), { room: 2 ** 31 - 1 }), OutOfMemory);
});

// The module with memory that this test lends: more and more of it, until it is enough.
test("memory that is too small is refused, and nothing is written", async () => {
  const module = await WebAssembly.compile(readFileSync(join(folder, "rimopaku.wasm")));
  const tryWith = (lent) => {
    const env = Object.fromEntries(WebAssembly.Module.imports(module).map(({ name }) => [name, () => 0]));
    const { exports } = new WebAssembly.Instance(module, { env });
    exports.memory.grow(4);
    const base = Math.ceil(Number(exports.__heap_base.value) / 16) * 16;
    const [parameters, told, a, b, p, q, piece, start] = [0, 16, 128, 256, 512, 640, 768, 1024].map((at) => base + at);
    const numbers = new Int32Array(exports.memory.buffer);
    numbers.set([10000, 1], parameters >> 2);
    numbers.set(P, a >> 2);
    numbers.set(I, b >> 2);
    numbers.fill(-9, p >> 2, (p >> 2) + 5);
    numbers.fill(-9, q >> 2, (q >> 2) + 5);
    const record = new DataView(exports.memory.buffer);
    record.setBigUint64(piece, BigInt(start), true);
    record.setBigUint64(piece + 8, BigInt(lent), true);
    // What lies behind the lent memory is to stay.
    new Uint8Array(exports.memory.buffer).fill(0xa5, start + lent);
    const status = exports.rimopaku_order_within_i32(
      BigInt(piece), 5, BigInt(a), 6n, BigInt(b), 14n, BigInt(parameters), BigInt(p), 5n, BigInt(q), 5n, BigInt(told),
    );
    assert.ok(new Uint8Array(exports.memory.buffer, start + lent).every((byte) => byte === 0xa5));
    const read = (at) => [...numbers.subarray(at >> 2, (at >> 2) + 5)];
    return { status, p: read(p), q: read(q) };
  };
  let lent = 0;
  for (; ; lent += 16) {
    const { status, p, q } = tryWith(lent);
    if (status >= 0) {
      assert.deepEqual([p, q], [[0, 3, 2, 4, 1], [0, 4, 2, 1, 3]]);
      break;
    }
    assert.equal(status, -1);
    assert.deepEqual([p, q], [Array(5).fill(-9), Array(5).fill(-9)]);
  }
  assert.ok(lent > 0 && lent < 65536);
});

test("a host that refuses memory is told by a name, and the next call is as before", () => {
  const { Instance } = WebAssembly;
  const { grow } = WebAssembly.Memory.prototype;
  function refuse() {
    throw new RangeError("no memory");
  }
  const calls = [() => order(5, P, I), () => orderHolding(5, P, I, [1]), () => counts(5, P, I, natural(5)), () => columns(5, P, I, natural(5))];
  const refused = (fault) => fault instanceof OutOfMemory && fault.name === "OutOfMemory";
  try {
    WebAssembly.Instance = refuse;
    for (const call of calls) assert.throws(call, refused);
    WebAssembly.Instance = Instance;
    WebAssembly.Memory.prototype.grow = refuse;
    for (const call of calls) assert.throws(call, refused);
  } finally {
    Object.assign(WebAssembly, { Instance });
    WebAssembly.Memory.prototype.grow = grow;
  }
  assert.deepEqual([...order(5, P, I).p], [0, 3, 2, 4, 1]);
});

// Each call has a memory of 24 MB; all together would have 2.4 GB.
test("memory is given back", (t) => {
  const n = 200000;
  const [pointers, indices] = [Int32Array.from({ length: n + 1 }, (_, k) => k), natural(n)];
  let most = 0;
  for (let k = 0; k < 100; k++) {
    order(n, pointers, indices);
    most = Math.max(most, process.memoryUsage().rss);
  }
  t.diagnostic(`${Math.round(most / 1e6)} MB at most`);
  assert.ok(most < 1e9);
});

test("in a worker", async () => {
  const source = `import(${JSON.stringify(pathToFileURL(join(folder, "index.js")).href)}).then(({ order }) =>
    require("node:worker_threads").parentPort.postMessage(order(5, [${P}], [${I}])))`;
  const worker = new Worker(source, { eval: true });
  const told = await new Promise((resolve, reject) => worker.once("message", resolve).once("error", reject));
  await worker.terminate();
  assert.deepEqual([...told.p], [0, 3, 2, 4, 1]);
});

test("the drawn cases of the other bindings, byte for byte", async () => {
  const stored = readFileSync(join(top, "crates/amd_replay/stdout"), "utf8");
  assert.equal(await replayed(rimopaku), stored);
});

test("the drawn cases by the module for memories of 64 bits", async (t) => {
  let module;
  try {
    module = await WebAssembly.compile(readFileSync(join(folder, "rimopaku64.wasm")));
  } catch {
    t.skip("no memories of 64 bits here (node --experimental-wasm-memory64)");
    return;
  }
  assert.equal(await replayed(rimopaku.callsOf(module)), readFileSync(join(top, "crates/amd_replay/stdout"), "utf8"));
});

/** What the calls answer to the stored cases, in the format of the program amd_replay. */
async function replayed(calls) {
  const lines = createInterface({ input: createReadStream(join(top, "crates/amd_replay/stdin")) });
  const out = [];
  let given = {};
  for await (const line of lines) {
    const [key, ...words] = line.trim().split(/\s+/);
    if (key === "CASE") given = {};
    if (key !== "END") given[key] = words.map(Number);
    else out.push(`CASE ${given.CASE[0]}\n${given.PERM && given.ROOM ? factor(calls, given) : ordering(calls, given)}END\n`);
  }
  return out.join("");
}

const listed = (key, numbers) => [key, ...numbers].join(" ") + "\n";

function ordering(calls, { N: [n], AP, AI, T = [10000], AGG = [1], HOLD }) {
  const options = { thousandths: T[0], aggressive: AGG[0] !== 0 };
  try {
    const told = HOLD ? calls.orderHolding(n, AP, AI, Uint8Array.from(HOLD), options) : calls.order(n, AP, AI, options);
    const { info } = told;
    const figures = [
      info.n, info.nz, Number(info.symmetry), info.nzDiag, info.nzAPlusAt, info.nDense, info.lnz, info.nDiv, info.nMultSubsLdl,
      info.nMultSubsLu, info.dMax,
    ];
    return `STATUS ${info.jumbled ? "OkButJumbled" : "OK"}\n${listed("P", told.p)}${listed("PINV", told.pInv)}${listed("INFO", figures)}`;
  } catch (fault) {
    assert.ok(fault instanceof InvalidInput, fault);
    return "STATUS Invalid\n";
  }
}

const NAMES = { InvalidInput: "NotColumnForm", NotPermutation: "NotPermutation", RoomTooSmall: "RoomTooSmall" };

function factor(calls, { N: [n], AP, AI, PERM, ROOM: [room] }) {
  try {
    const { pointers, rows, parent } = calls.columns(n, AP, AI, PERM, { room });
    return `FAULT Ok\n${listed("PTR", pointers)}${listed("ROWS", rows)}${listed("PARENT", parent)}`;
  } catch (fault) {
    assert.ok(fault.name in NAMES, fault);
    return `FAULT ${NAMES[fault.name]}\nPTR\nROWS\nPARENT\n`;
  }
}

test("a million rows", (t) => {
  const side = 1000;
  const n = side * side;
  const pointers = new Int32Array(n + 1);
  const indices = new Int32Array(5 * n);
  let k = 0;
  for (let j = 0; j < n; j++) {
    for (const [i, isThere] of [[j - side, j >= side], [j - 1, j % side > 0], [j, true], [j + 1, j % side < side - 1], [j + side, j + side < n]]) {
      if (isThere) indices[k++] = i;
    }
    pointers[j + 1] = k;
  }
  const time = (name, call) => {
    const started = performance.now();
    const told = call();
    t.diagnostic(`${name}: ${Math.round(performance.now() - started)} ms`);
    return told;
  };
  const entries = indices.subarray(0, k);
  const { p, info } = time("order", () => order(n, pointers, entries));
  const exact = time("counts", () => counts(n, pointers, entries, p));
  assert.ok(exact.lnz <= info.lnz && exact.lnz > 2 * n);
  const written = time("columns", () => columns(n, pointers, entries, p, { room: exact.lnz }));
  assert.equal(written.pointers[n], exact.lnz);
  assert.deepEqual(written.parent, exact.parent);
  assert.deepEqual(exact.sizes, written.pointers.subarray(1).map((end, column) => end - written.pointers[column]));
});
