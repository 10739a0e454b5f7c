// Tests what the page draws of the elimination, without a browser: each step of drawn matrices, place by place, beside the elimination as
// it is defined. RIMOPAKU_JS is the folder of the package.
import assert from "node:assert/strict";
import { join, resolve } from "node:path";
import test from "node:test";
import { pathToFileURL } from "node:url";
import { compressed } from "../../bindings/js/page/matrix.js";
import { counted, elementsAt, frontAt, kindAt, remainingAt, symmetrized, treeLayout } from "../../bindings/js/page/pattern.js";
import { countFrom, eliminate, tableOf } from "./elimination.mjs";

const { columns, counts, order } = await import(pathToFileURL(join(resolve(process.env.RIMOPAKU_JS), "index.js")));

function stream(seed) {
  let state = seed >>> 0;
  return (limit) => {
    state = (Math.imul(state, 1103515245) + 12345) >>> 0;
    return Math.floor((state / 2 ** 32) * limit);
  };
}

/** A drawn matrix, not symmetric, some of its diagonal there, with entries twice. */
function drawn(next) {
  const n = 1 + next(30);
  const count = next(4 * n);
  const draw = () => Int32Array.from({ length: count }, () => next(n));
  return compressed(n, draw(), draw());
}

function shuffle(n, next) {
  const p = Int32Array.from({ length: n }, (_, k) => k);
  for (let k = n - 1; k > 0; k--) {
    const other = next(k + 1);
    [p[k], p[other]] = [p[other], p[k]];
  }
  return p;
}

/** An order as the worker of the page keeps it; of each third round without its columns, as a large factor is kept. */
function kept({ n, pointers, indices }, p, round = 0) {
  const pInv = new Int32Array(n);
  p.forEach((row, k) => (pInv[row] = k));
  const { parent, sizes } = counts(n, pointers, indices, p);
  if (round % 3 === 2) return { p, pInv, parent, sizes };
  const factor = columns(n, pointers, indices, p);
  return { p, pInv, parent, sizes, pointers: factor.pointers, rows: factor.rows };
}

const WORDS = ["empty", "entry", "fill"];

/** What the page says of one step: counts in pixels of one place each, kinds of places, and the figures. */
function compareStep(pattern, held, table, n, step, place) {
  const elements = elementsAt(pattern, held, step);
  const { entries, fill } = counted(pattern, held, { left: 0, top: 0, size: n }, n, elements);
  for (let i = 0; i < n; i++) {
    for (let j = 0; j < n; j++) {
      if (i === j) continue;
      assert.equal(entries[i * n + j], Number(table[i * n + j] === 1), `entry ${i} ${j} at ${step}`);
      assert.equal(fill[i * n + j], Number(table[i * n + j] === 2), `fill ${i} ${j} at ${step}`);
    }
  }
  const [i, j] = place;
  const kind = kindAt(pattern, held, i, j, elements);
  if (i !== j) assert.equal(kind === "later" ? "empty" : kind, WORDS[table[i * n + j]]);
  const [own, filled] = [countFrom(table, n, 1, step) / 2, countFrom(table, n, 2, step) / 2];
  assert.deepEqual(remainingAt(pattern, held, elements), { entries: own + filled, fill: filled });
}

test("each step of drawn matrices, place by place", () => {
  const next = stream(68);
  for (let round = 0; round < 150; round++) {
    const matrix = drawn(next);
    const { n, pointers, indices } = matrix;
    const p = round % 2 === 0 ? order(n, pointers, indices).p : shuffle(n, next);
    const [pattern, held, table] = [symmetrized(matrix), kept(matrix, p, round), tableOf(matrix, p)];
    for (let step = 0; step < n; step++) {
      compareStep(pattern, held, table, n, step, [next(n), next(n)]);
      const told = frontAt(pattern, held, elementsAt(pattern, held, step));
      const front = eliminate(table, n, step);
      if (held.rows) assert.deepEqual([...held.rows.subarray(held.pointers[step], held.pointers[step + 1])], front);
      assert.deepEqual([...told], front);
      assert.equal(held.parent[step], front.length > 0 ? front[0] : -1);
    }
    compareStep(pattern, held, table, n, n, [next(n), next(n)]);
  }
});

test("a part of a step, in pixels of several places", () => {
  const next = stream(1996);
  for (let round = 0; round < 60; round++) {
    const matrix = drawn(next);
    const { n } = matrix;
    const p = shuffle(n, next);
    const [pattern, held, table] = [symmetrized(matrix), kept(matrix, p, round), tableOf(matrix, p)];
    const step = next(n);
    for (let k = 0; k < step; k++) eliminate(table, n, k);
    const size = 1 + next(n);
    const [left, top, side] = [next(n - size + 1), next(n - size + 1), 1 + next(size)];
    const { fill } = counted(pattern, held, { left, top, size }, side, elementsAt(pattern, held, step));
    const wanted = new Float64Array(side * side);
    const pixel = (k, start) => Math.floor(((k + 0.5 - start) * side) / size);
    for (let i = top; i < top + size; i++) {
      for (let j = left; j < left + size; j++) if (table[i * n + j] === 2) wanted[pixel(i, top) * side + pixel(j, left)] += 1;
    }
    assert.deepEqual(fill, wanted);
  }
});

test("a tree has as many levels and leaves as its parents say", () => {
  const next = stream(7);
  for (let round = 0; round < 100; round++) {
    const matrix = drawn(next);
    const { parent } = kept(matrix, shuffle(matrix.n, next));
    const { depth, leaves, x, y } = treeLayout(parent);
    const level = (k) => (parent[k] < 0 ? 1 : 1 + level(parent[k]));
    const nodes = Array.from(parent, (_, k) => k);
    assert.equal(depth, Math.max(...nodes.map(level)));
    assert.equal(leaves, nodes.filter((k) => !parent.includes(k)).length);
    assert.ok([...x, ...y].every((at) => at >= 0 && at <= 1));
  }
});
