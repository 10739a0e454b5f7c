// The six samples, made here rather than stored.
import { compressed } from "./matrix.js";

/** A stream of numbers below a limit, the same in each run (a congruence of 32 bits). */
function stream(seed) {
  let state = seed >>> 0;
  return (limit) => {
    state = (Math.imul(state, 1664525) + 1013904223) >>> 0;
    return Math.floor((state / 2 ** 32) * limit);
  };
}

/** The pattern of pairs, their mirror images and the diagonal. */
function symmetric(n, pairs) {
  const rows = new Int32Array(2 * pairs.length + n);
  const columns = new Int32Array(2 * pairs.length + n);
  let k = 0;
  for (const [i, j] of pairs) {
    rows[k] = i;
    columns[k++] = j;
    rows[k] = j;
    columns[k++] = i;
  }
  for (let i = 0; i < n; i++) {
    rows[k] = i;
    columns[k++] = i;
  }
  return compressed(n, rows, columns);
}

/** A plane grid, each point tied to its four neighbours; made in order, as it may have a million rows. */
function plane(side) {
  const n = side * side;
  const pointers = new Int32Array(n + 1);
  const indices = new Int32Array(5 * n);
  let k = 0;
  for (let j = 0; j < n; j++) {
    const x = j % side;
    if (j >= side) indices[k++] = j - side;
    if (x > 0) indices[k++] = j - 1;
    indices[k++] = j;
    if (x + 1 < side) indices[k++] = j + 1;
    if (j + side < n) indices[k++] = j + side;
    pointers[j + 1] = k;
  }
  return { n, pointers, indices: indices.slice(0, k) };
}

function cube(side) {
  const at = (x, y, z) => (z * side + y) * side + x;
  const pairs = [];
  for (let z = 0; z < side; z++) {
    for (let y = 0; y < side; y++) {
      for (let x = 0; x < side; x++) {
        if (x + 1 < side) pairs.push([at(x, y, z), at(x + 1, y, z)]);
        if (y + 1 < side) pairs.push([at(x, y, z), at(x, y + 1, z)]);
        if (z + 1 < side) pairs.push([at(x, y, z), at(x, y, z + 1)]);
      }
    }
  }
  return symmetric(side ** 3, pairs);
}

function arrow(n) {
  return symmetric(n, Array.from({ length: n - 1 }, (_, k) => [0, k + 1]));
}

/** A truss of two chords with braces: the pattern of a small finite-element model. */
function truss(bays) {
  const pairs = [];
  for (let bay = 0; bay < bays; bay++) {
    for (let a = 0; a < 6; a++) for (let b = 0; b < a; b++) pairs.push([3 * bay + a, 3 * bay + b]);
  }
  return symmetric(3 * (bays + 1), pairs);
}

/** A network that grows: each new point is tied to two that are drawn, the older ones more often. */
function network(n) {
  const next = stream(1996);
  const ends = [0];
  const pairs = [];
  for (let j = 1; j < n; j++) {
    for (let k = 0; k < 2; k++) {
      const i = ends[next(ends.length)];
      if (i === j) continue;
      pairs.push([i, j]);
      ends.push(i);
    }
    ends.push(j);
  }
  return symmetric(n, pairs);
}

/** Numbers points anew by a drawn permutation. */
function shuffled({ n, pointers, indices }, seed) {
  const next = stream(seed);
  const name = Int32Array.from({ length: n }, (_, k) => k);
  for (let k = n - 1; k > 0; k--) {
    const other = next(k + 1);
    [name[k], name[other]] = [name[other], name[k]];
  }
  const columns = new Int32Array(indices.length);
  for (let j = 0; j < n; j++) columns.fill(name[j], pointers[j], pointers[j + 1]);
  return compressed(n, indices.map((i) => name[i]), columns);
}

/** What can be picked: a name, a line about it, and the matrix. */
export const SAMPLES = [
  { key: "arrow", name: "Arrow", about: "100 rows, one of them full", make: () => arrow(100) },
  { key: "truss", name: "Truss", about: "a long model of a structure, numbered at random", make: () => shuffled(truss(60), 7) },
  { key: "plane", name: "Plane", about: "a grid of 40 by 40 points", make: () => plane(40) },
  { key: "cube", name: "Cube", about: "a grid of 13 by 13 by 13 points", make: () => cube(13) },
  { key: "network", name: "Network", about: "1,500 points with a few hubs", make: () => network(1500) },
  { key: "million", name: "A million rows", about: "a grid of 1,000 by 1,000 points", make: () => plane(1000) },
];
