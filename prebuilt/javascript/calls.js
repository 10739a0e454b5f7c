// The calls over a compiled module. Each call makes an instance with a memory of its own, copies its arrays in, lends the
// module the rest of that memory, and copies the results out; then the instance is let go, and its memory with it.

/** What is thrown: one of the classes below. */
export class RimopakuError extends Error {
  get name() {
    return this.constructor.name;
  }
}
/** An array has the wrong length, or the matrix is not in compressed columns. */
export class InvalidInput extends RimopakuError {}
/** An order does not list each row once. */
export class NotPermutation extends RimopakuError {}
/** The factor has more entries than the room that was allowed. */
export class RoomTooSmall extends RimopakuError {}
/** The host refused memory, or 4 GB are not enough, or a number has more than 32 bits. */
export class OutOfMemory extends RimopakuError {}

const PAGE = 65536;
const MOST_ROWS = 2 ** 31 - 1;
const WORD = 8; // bytes of a count in the module
const NAMES_OF_STATISTICS = [
  "n", "nz", "symmetry", "nzDiag", "nzAPlusAt", "nDense", "nCmpA", "lnz", "nDiv", "nMultSubsLdl", "nMultSubsLu", "dMax",
];
const NAMES_OF_NEEDS = ["lnz", "nMultSubsLdl", "nMultSubsLu", "dMax"];

/** Numbers as an Int32Array: the caller's own where it is one, else a copy that is checked. */
function integers(values, name) {
  if (values instanceof Int32Array) return values;
  if (values === null || typeof values !== "object" || !(values.length >= 0)) {
    throw new TypeError(`${name} is no array of integers`);
  }
  const copy = Int32Array.from(values);
  for (let k = 0; k < copy.length; k++) {
    if (copy[k] !== Number(values[k])) throw new InvalidInput(`${name}[${k}] is no integer of 32 bits`);
  }
  return copy;
}

function numberOfRows(n) {
  if (!Number.isInteger(n) || n < -(2 ** 31) || n > MOST_ROWS) throw new InvalidInput("n is no integer of 32 bits");
  return n;
}

/** floor(sqrt(x)) of a BigInt. */
function squareRoot(x) {
  let root = BigInt(Math.floor(Math.sqrt(Number(x))));
  while (root * root > x) root -= 1n;
  while ((root + 1n) * (root + 1n) <= x) root += 1n;
  return root;
}

/**
 * The thousandths for which a row is dense from floor(dense * sqrt(n)) entries on, or for the nearest number: 1000 * dense rounded, where
 * these are such. A row never has n entries, so that more than n of them are as good as n.
 */
export function thousandthsOf(dense, n) {
  if (typeof dense !== "number" || Number.isNaN(dense)) throw new InvalidInput("dense is not a number");
  if (dense < 0) return -1;
  if (n <= 0) return 10000;
  const rows = BigInt(n);
  const threshold = (t) => squareRoot((t * t * rows) / 1000000n);
  const wanted = BigInt(Math.floor(Math.min(dense * Math.sqrt(n), n)));
  const plain = Math.min(Math.round(1000 * dense), 2 ** 31 - 1);
  const plainly = threshold(BigInt(plain));
  if (plainly === wanted || (wanted === rows && plainly > rows)) return plain;
  const square = (wanted * wanted * 1000000n + rows - 1n) / rows;
  const above = square > 0n ? squareRoot(square - 1n) + 1n : 0n;
  const below = above > 0n ? above - 1n : 0n;
  const isAboveNearer = threshold(above) - wanted <= wanted - threshold(below);
  return Math.min(Number(isAboveNearer ? above : below), 2 ** 31 - 1);
}

/** One byte for each row: a mask, or the rows that are named. */
function marksOf(hold, n) {
  if (hold instanceof Uint8Array) return hold.map((mark) => (mark ? 1 : 0));
  if (Array.isArray(hold) && hold.length > 0 && hold.every((mark) => typeof mark === "boolean")) return Uint8Array.from(hold);
  const marks = new Uint8Array(Math.max(n, 0));
  for (const row of integers(hold, "hold")) {
    if (row < 0 || row >= n) throw new InvalidInput(`hold names ${row}, and the rows are 0 to ${n - 1}`);
    marks[row] = 1;
  }
  return marks;
}

/** One instance, and places in its memory: each follows the one before it. */
class Call {
  constructor(module, bytes) {
    const env = { __rattle_enter: () => 0, __rattle_leave() {}, __rattle_trap() {} };
    this.exports = new WebAssembly.Instance(module, { env }).exports;
    this.top = Number(this.exports.__heap_base.value);
    this.grow(bytes + PAGE);
    this.slices = [];
  }

  grow(bytes) {
    const memory = this.exports.memory;
    const pages = Math.ceil((this.top + bytes - memory.buffer.byteLength) / PAGE);
    if (pages > 0) growBy(memory, pages);
  }

  take(bytes) {
    const at = Math.ceil(this.top / 16) * 16;
    this.top = at + bytes;
    return at;
  }

  /** A slice with these numbers, as two arguments. */
  put(values) {
    const at = this.take(values.byteLength);
    new values.constructor(this.exports.memory.buffer, at, values.length).set(values);
    return [BigInt(at), BigInt(values.length)];
  }

  /** A slice of so many numbers that the module writes, as two arguments; `read` copies it out. */
  room(length) {
    const at = this.take(4 * length);
    return { at, length, slice: [BigInt(at), BigInt(length)] };
  }

  read({ at }, length) {
    return new Int32Array(this.exports.memory.buffer, at, length).slice();
  }

  /** The counts of a record, by name. */
  record(at, names) {
    const view = new DataView(this.exports.memory.buffer, at, WORD * names.length);
    return Object.fromEntries(
      names.map((name, k) => {
        // A bool is one byte, and the others of its word mean nothing.
        if (name === "symmetry") return [name, view.getUint8(WORD * k) !== 0];
        return [name, Number(view.getBigUint64(WORD * k, true))];
      }),
    );
  }

  /** All memory behind what was placed, as the record that the module takes its memory from. */
  lend() {
    const at = this.take(2 * WORD);
    const start = this.take(0);
    const size = Math.floor((this.exports.memory.buffer.byteLength - start) / 16) * 16;
    const view = new DataView(this.exports.memory.buffer, at, 2 * WORD);
    view.setBigUint64(0, BigInt(start), true);
    view.setBigUint64(WORD, BigInt(size), true);
    return BigInt(at);
  }
}

// A memory of 64 bits counts its pages in BigInts.
function growBy(memory, pages) {
  try {
    memory.grow(pages);
  } catch (refused) {
    if (!(refused instanceof TypeError)) throw refused;
    memory.grow(BigInt(pages));
  }
}

function fail(status, what) {
  if (status === -2) throw new InvalidInput(`${what}: the matrix is not in compressed columns, or an array has the wrong length`);
  if (status === -3) throw new NotPermutation(`${what}: p does not list each row once`);
  if (status === -4) throw new RoomTooSmall(`${what}: the factor has more entries than the room`);
  throw new OutOfMemory(`${what}: the memory is not enough`);
}

// Bytes that are lent at first. Twice as many follow where they are not enough, up to what a memory of 32 bits can have.
const firstGuess = (n, entries) => 96 * n + 24 * entries + 4 * PAGE;
const MOST_BYTES = 2 ** 32 - 2 * PAGE;

/** What `run` returns. Where the host refuses it an instance, a memory or an array, the fault has the name of this package. */
function refusable(bytes, run) {
  try {
    return run();
  } catch (refused) {
    if (refused instanceof RangeError) throw new OutOfMemory(`${bytes} bytes were refused: ${refused.message}`);
    throw refused;
  }
}

/** Runs `once` with more and more memory, until it is enough. It returns a status and what is read in its call. */
function withMemory(module, placed, n, entries, once) {
  for (let lent = firstGuess(Math.max(n, 0), entries); ; lent *= 2) {
    const bytes = Math.min(placed + lent, MOST_BYTES);
    if (bytes < placed + PAGE) throw new OutOfMemory(`${placed} bytes of arrays are more than 4 GB`);
    const { status, result } = refusable(bytes, () => once(new Call(module, bytes)));
    if (status !== -1) return { status, result };
    if (bytes === MOST_BYTES) return { status, result };
  }
}

/** The calls of a compiled module: that of the package, or rimopaku64.wasm where the host has memories of 64 bits. */
export function callsOf(module) {
  function ordering(n, pointers, indices, hold, options = {}) {
    const rows = numberOfRows(n);
    const [p, i] = [integers(pointers, "pointers"), integers(indices, "indices")];
    const places = Math.max(rows, 0);
    const dense = options.thousandths ?? thousandthsOf(options.dense ?? 10, rows);
    const marks = hold === undefined ? undefined : marksOf(hold, rows);
    const placed = 4 * (p.length + i.length + 2 * places) + (marks ? marks.length : 0) + 512;
    const { status, result } = withMemory(module, placed, places, i.length, (call) => {
      const parameters = call.take(8);
      const view = new DataView(call.exports.memory.buffer, parameters, 8);
      view.setInt32(0, dense, true);
      view.setUint8(4, (options.aggressive ?? true) ? 1 : 0);
      const told = call.take(WORD * NAMES_OF_STATISTICS.length);
      const [a, b, order, inverse] = [call.put(p), call.put(i), call.room(places), call.room(places)];
      const held = marks ? call.put(marks) : [];
      const name = marks ? "rimopaku_order_holding_within_i32" : "rimopaku_order_within_i32";
      const status = call.exports[name](
        call.lend(), rows, ...a, ...b, BigInt(parameters), ...held, ...order.slice, ...inverse.slice, BigInt(told),
      );
      if (status < 0) return { status };
      const result = {
        p: call.read(order, places),
        pInv: call.read(inverse, places),
        info: { ...call.record(told, NAMES_OF_STATISTICS), jumbled: status === 1 },
      };
      return { status, result };
    });
    return status < 0 ? fail(status, "order") : result;
  }

  function counts(n, pointers, indices, order) {
    const rows = numberOfRows(n);
    const [p, i, q] = [integers(pointers, "pointers"), integers(indices, "indices"), integers(order, "p")];
    const places = Math.max(rows, 0);
    const placed = 4 * (p.length + i.length + q.length + 2 * places) + 512;
    const { status, result } = withMemory(module, placed, places, i.length, (call) => {
      const needs = call.take(WORD * NAMES_OF_NEEDS.length);
      const [a, b, c, sizes, parent] = [call.put(p), call.put(i), call.put(q), call.room(places), call.room(places)];
      const status = call.exports.rimopaku_counts_within_i32(
        call.lend(), rows, ...a, ...b, ...c, ...sizes.slice, ...parent.slice, BigInt(needs),
      );
      if (status < 0) return { status };
      const result = { sizes: call.read(sizes, places), parent: call.read(parent, places), ...call.record(needs, NAMES_OF_NEEDS) };
      return { status, result };
    });
    return status < 0 ? fail(status, "counts") : result;
  }

  function columns(n, pointers, indices, order, options = {}) {
    const rows = numberOfRows(n);
    const [p, i, q] = [integers(pointers, "pointers"), integers(indices, "indices"), integers(order, "p")];
    const places = Math.max(rows, 0);
    const room = options.room ?? counts(n, p, i, q).lnz;
    if (!(room >= 0 && room < 2 ** 31)) throw new OutOfMemory("the factor has more entries than 32 bits can count");
    const placed = 4 * (p.length + i.length + q.length + 2 * places + 1 + room) + 512;
    const { status, result } = withMemory(module, placed, places, i.length, (call) => {
      const [a, b, c] = [call.put(p), call.put(i), call.put(q)];
      const [ends, entries, parent] = [call.room(places + 1), call.room(room), call.room(places)];
      const status = call.exports.rimopaku_columns_within_i32(
        call.lend(), rows, ...a, ...b, ...c, ...ends.slice, ...entries.slice, ...parent.slice,
      );
      if (status < 0) return { status };
      const pointersOfFactor = call.read(ends, places + 1);
      const result = {
        pointers: pointersOfFactor,
        rows: call.read(entries, pointersOfFactor[places]),
        parent: call.read(parent, places),
      };
      return { status, result };
    });
    return status < 0 ? fail(status, "columns") : result;
  }

  return {
    order: (n, pointers, indices, options) => ordering(n, pointers, indices, undefined, options),
    orderHolding: (n, pointers, indices, hold, options) => ordering(n, pointers, indices, hold, options),
    counts,
    columns,
  };
}
