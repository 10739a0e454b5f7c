// What runs beside the page: it reads files, calls the proved module, and counts what is drawn. The page sends one message for
// each task, with an id that comes back.
import { bytes } from "./bytes.js";
import { NotPermutation, OutOfMemory, callsOf, thousandthsOf } from "./calls.js";
import { FileFault, looksLikePermutation, readMatrix, readPermutation } from "./matrix.js";
import { counted, elementsAt, frontAt, kindAt, remainingAt, symmetrized, treeLayout, treeRaster } from "./pattern.js";
import { SAMPLES } from "./samples.js";

// A factor with more entries is not written: it is drawn row by row from its tree.
const MOST_WRITTEN = 60_000_000;

let calls;
const state = { matrix: undefined, pattern: undefined, orders: {}, layouts: {}, elements: undefined };

const tell = (id, message, transfer = []) => postMessage({ id, ...message }, transfer);
const progress = (id, stage, part) => tell(id, { kind: "progress", stage, part });

/** The bytes of a file, unpacked where it begins as gzip does. */
async function bytesOf(file) {
  const [first, second] = new Uint8Array(await file.slice(0, 2).arrayBuffer());
  if (first !== 0x1f || second !== 0x8b) return new Uint8Array(await file.arrayBuffer());
  try {
    const plain = file.stream().pipeThrough(new DecompressionStream("gzip"));
    return new Uint8Array(await new Response(plain).arrayBuffer());
  } catch {
    throw new FileFault(0, "the gzip file is broken, or it is cut off");
  }
}

/** An order with the exact figures of its factor. */
function measured(p, pInv, info) {
  const { n, pointers, indices } = state.matrix;
  const { sizes, parent, ...needs } = calls.counts(n, pointers, indices, p);
  return { p, pInv, info, sizes, parent, needs };
}

/** The same with the pattern of the factor, which is written when it is first drawn, if it is small enough. */
function drawnOrder(key) {
  const order = state.orders[key];
  if (order.rows === undefined && order.needs.lnz <= MOST_WRITTEN) {
    const { n, pointers, indices } = state.matrix;
    const factor = calls.columns(n, pointers, indices, order.p, { room: order.needs.lnz });
    Object.assign(order, { pointers: factor.pointers, rows: factor.rows });
  }
  return order;
}

function inverseOf(p) {
  const inverse = new Int32Array(p.length);
  for (let k = 0; k < p.length; k++) inverse[p[k]] = k;
  return inverse;
}

const figuresOf = (order) => ({ ...order.needs, info: order.info });

function keep(key, p, pInv, info) {
  state.orders[key] = measured(p, pInv, info);
  delete state.layouts[key];
  state.elements = undefined;
  return figuresOf(state.orders[key]);
}

function identity(n, isReversed) {
  return Int32Array.from({ length: n }, (_, k) => (isReversed ? n - 1 - k : k));
}

function open(matrix) {
  Object.assign(state, { matrix, pattern: undefined, orders: {}, layouts: {}, elements: undefined });
  return { n: matrix.n, entries: matrix.indices.length };
}

/** The elements of a step, the last of which are kept; nothing without a step. */
function elementsOf(key, step) {
  if (step === undefined) return undefined;
  if (state.elements?.key !== key || state.elements.step !== step) {
    state.elements = { key, ...elementsAt(patternOf(), state.orders[key], step) };
  }
  return state.elements;
}

/** The pattern of A + A', which is made when it is first drawn. */
const patternOf = () => (state.pattern ??= symmetrized(state.matrix));

function ordered(options) {
  const { n, pointers, indices } = state.matrix;
  const started = performance.now();
  const { hold, ...choice } = options;
  const told = hold.length > 0 ? calls.orderHolding(n, pointers, indices, hold, choice) : calls.order(n, pointers, indices, choice);
  const milliseconds = performance.now() - started;
  return { milliseconds, thousandths: thousandthsOf(options.dense, n), figures: keep("amd", told.p, told.pInv, told.info) };
}

const tasks = {
  async open(id, { file }) {
    progress(id, "reading", 0);
    const data = await bytesOf(file);
    const isOrder = looksLikePermutation(data);
    if (isOrder && !state.matrix) throw new FileFault(0, "this looks like a permutation: open its matrix first");
    if (isOrder) return { own: tasks.own(id, { data }) };
    return { summary: open(readMatrix(data, (part) => progress(id, "reading", part / 2))) };
  },

  sample(id, { key }) {
    progress(id, "making the sample", 0);
    return { summary: open(SAMPLES.find((sample) => sample.key === key).make()) };
  },

  order(id, { options }) {
    progress(id, "ordering", 0.6);
    return ordered(options);
  },

  /** Counts the natural or the reversed order. */
  count(id, { key }) {
    progress(id, `counting the ${key} order`, 0.85);
    const order = identity(state.matrix.n, key === "reversed");
    return keep(key, order, order);
  },

  own(id, { data }) {
    progress(id, "reading the permutation", 0.5);
    const p = readPermutation(data, state.matrix.n);
    return keep("own", p, inverseOf(p));
  },

  draw(id, { key, box, side, step }) {
    const raster = counted(patternOf(), drawnOrder(key), box, side, elementsOf(key, step));
    return { entries: raster.entries, fill: raster.fill, transfer: [raster.entries.buffer, raster.fill.buffer] };
  },

  /** What stands at a place on both sides; a step is that of the second one. */
  at(id, { keys, row, column, step }) {
    return keys.map((key, side) => ({
      kind: kindAt(patternOf(), drawnOrder(key), row, column, side === 1 ? elementsOf(key, step) : undefined),
      row: state.orders[key].p[row],
      column: state.orders[key].p[column],
    }));
  },

  /** One step of the elimination: what was done before it, the rows of its front, and, where it is shown, what remains. */
  step(id, { key, place, isShown }) {
    const order = state.orders[key];
    const { sizes, p, parent } = order;
    let [entries, work] = [0, 0];
    for (let k = 0; k < place; k++) {
      entries += sizes[k];
      work += (sizes[k] * (sizes[k] + 1)) / 2;
    }
    const path = [];
    for (let node = place; node >= 0 && path.length < 100000; node = parent[node]) path.push(node);
    const elements = isShown ? elementsOf(key, place) : undefined;
    const front = elements ? frontAt(patternOf(), order, elements) : new Int32Array(0);
    const remaining = elements && remainingAt(patternOf(), order, elements);
    return { row: p[place], size: sizes[place], parent: parent[place], entries, work, front, path: Int32Array.from(path), remaining };
  },

  tree(id, { key, width, height }) {
    const { parent } = state.orders[key];
    const layout = (state.layouts[key] ??= treeLayout(parent));
    const told = { depth: layout.depth, leaves: layout.leaves, x: layout.x, y: layout.y };
    if (parent.length <= 4000) return { ...told, parent };
    return { ...told, pixels: treeRaster(parent, layout, width, height) };
  },

  permutation(id, { key }) {
    return { p: state.orders[key].p };
  },
};

function messageOf(fault) {
  if (fault instanceof FileFault) return { text: fault.message, line: fault.line };
  if (fault instanceof OutOfMemory || fault instanceof RangeError) return { text: "this browser has not enough memory for that matrix" };
  if (fault instanceof NotPermutation) return { text: "the numbers do not list each row once" };
  return { text: String(fault?.message ?? fault) };
}

onmessage = async ({ data: { id, task, ...given } }) => {
  try {
    calls ??= callsOf(await WebAssembly.compile(bytes()));
    const result = await tasks[task](id, given);
    tell(id, { kind: "done", result }, result.transfer);
  } catch (fault) {
    tell(id, { kind: "fault", ...messageOf(fault) });
  }
};
