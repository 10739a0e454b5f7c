// What is drawn: counts of entries in boxes of the matrix, the places under a pointer, the layout of the elimination tree.

/** The pattern of A + A' off the diagonal, as sorted columns, and which diagonal entries there are. */
export function symmetrized({ n, pointers, indices }) {
  const diagonal = new Uint8Array(n);
  const sizes = new Int32Array(n + 1);
  const transposeSizes = new Int32Array(n + 1);
  for (const i of indices) transposeSizes[i + 1] += 1;
  for (let i = 0; i < n; i++) transposeSizes[i + 1] += transposeSizes[i];
  const next = transposeSizes.slice(0, n);
  const rowLists = new Int32Array(indices.length);
  for (let j = 0; j < n; j++) for (let k = pointers[j]; k < pointers[j + 1]; k++) rowLists[next[indices[k]]++] = j;
  const merged = new Int32Array(2 * indices.length);
  let kept = 0;
  for (let j = 0; j < n; j++) {
    let [a, b] = [pointers[j], transposeSizes[j]];
    const [aEnd, bEnd] = [pointers[j + 1], transposeSizes[j + 1]];
    while (a < aEnd || b < bEnd) {
      const left = a < aEnd ? indices[a] : n;
      const right = b < bEnd ? rowLists[b] : n;
      const i = Math.min(left, right);
      if (left === i) a += 1;
      if (right === i) b += 1;
      if (i === j) diagonal[j] = 1;
      else merged[kept++] = i;
    }
    sizes[j + 1] = kept;
  }
  return { n, pointers: sizes, indices: merged.slice(0, kept), diagonal };
}

/** The first place of a sorted part of a list whose number is at least `least`. */
function lowerBound(list, from, to, least) {
  let [low, high] = [from, to];
  while (low < high) {
    const middle = (low + high) >> 1;
    if (list[middle] < least) low = middle + 1;
    else high = middle;
  }
  return low;
}

/** Squares of the matrix as pixels: the square part that begins at (left, top) and has `size` rows, in side by side pixels. */
class Raster {
  constructor(n, box, side) {
    Object.assign(this, { box, side });
    this.entries = new Float64Array(side * side);
    this.fill = new Float64Array(side * side);
    this.across = this.places(box.left, n);
    this.down = this.places(box.top, n);
  }

  /** The pixels of rows or columns, from `start` on, and the last row or column of each pixel; those outside have -1. */
  places(start, n) {
    const pixels = new Int32Array(n).fill(-1);
    const ends = new Int32Array(this.side);
    const first = Math.max(0, Math.floor(start));
    const last = Math.min(n, Math.ceil(start + this.box.size));
    for (let k = first; k < last; k++) {
      const pixel = Math.floor(((k + 0.5 - start) * this.side) / this.box.size);
      if (pixel < 0 || pixel >= this.side) continue;
      pixels[k] = pixel;
      ends[pixel] = k;
    }
    return { pixels, ends, first, last };
  }
}

/** The entries of A + A'. Those of the columns before `step` are taken off the fill, to which the factor's columns are added. */
function addEntries({ entries, fill, side, across, down }, pattern, order, step) {
  for (let k = across.first; k < across.last; k++) {
    const x = across.pixels[k];
    if (x < 0) continue;
    const j = order.p[k];
    if (pattern.diagonal[j] && down.pixels[k] >= 0) entries[down.pixels[k] * side + x] += 1;
    for (let at = pattern.pointers[j]; at < pattern.pointers[j + 1]; at++) {
      const row = order.pInv[pattern.indices[at]];
      const y = down.pixels[row];
      if (y < 0) continue;
      entries[y * side + x] += 1;
      if (k < step || row < step) fill[y * side + x] -= 1;
    }
  }
}

/** The factor's columns before `step`, as columns below the diagonal or, mirrored, as rows above it. */
function addFactor({ fill, side, across, down }, order, step, isMirrored) {
  const [own, other] = isMirrored ? [down, across] : [across, down];
  const [ownStride, otherStride] = isMirrored ? [side, 1] : [1, side];
  for (let k = own.first; k < Math.min(own.last, step); k++) {
    if (own.pixels[k] < 0) continue;
    const base = own.pixels[k] * ownStride;
    const end = order.pointers[k + 1];
    for (let at = lowerBound(order.rows, order.pointers[k], end, other.first); at < end && order.rows[at] < other.last; at++) {
      const pixel = other.pixels[order.rows[at]];
      if (pixel >= 0) fill[base + pixel * otherStride] += 1;
    }
  }
}

/** For each node of a tree the last one of its chain, in which each is the parent of the one before it. */
function chainEnds(parent) {
  const ends = new Int32Array(parent.length);
  for (let k = parent.length - 1; k >= 0; k--) ends[k] = parent[k] === k + 1 ? ends[k + 1] : k;
  return ends;
}

/**
 * Visits the columns of a row of the factor, as runs: the ways from its entries up the tree to the row, each chain at once. The
 * chains that were met are marked with the row. Source: J. W. H. Liu, "A compact row storage scheme for Cholesky factors using
 * elimination trees" (1986).
 */
function visitRow(pattern, order, { ends, low, met }, row, visit) {
  const own = order.p[row];
  for (let at = pattern.pointers[own]; at < pattern.pointers[own + 1]; at++) {
    let node = order.pInv[pattern.indices[at]];
    while (node >= 0 && node < row) {
      const end = ends[node];
      const isMet = met[end] === row;
      if (isMet && node >= low[end]) break;
      visit(node, isMet ? low[end] - 1 : Math.min(end, row - 1));
      met[end] = row;
      low[end] = node;
      if (isMet) break;
      node = order.parent[end];
    }
  }
}

/** The same as addFactor, of a factor whose columns are not written: row by row. */
function addRows({ fill, side, across, down }, pattern, order, step, isMirrored) {
  const [own, other] = isMirrored ? [across, down] : [down, across];
  const [ownStride, otherStride] = isMirrored ? [1, side] : [side, 1];
  const n = order.p.length;
  const chains = { ends: chainEnds(order.parent), low: new Int32Array(n), met: new Int32Array(n).fill(-1) };
  const last = Math.min(other.last, step) - 1;
  for (let i = own.first; i < own.last; i++) {
    if (own.pixels[i] < 0) continue;
    const base = own.pixels[i] * ownStride;
    visitRow(pattern, order, chains, i, (from, to) => {
      const end = Math.min(to, last);
      for (let k = Math.max(from, other.first), next; k <= end; k = next) {
        const pixel = other.pixels[k];
        next = pixel < 0 ? k + 1 : Math.min(other.ends[pixel], end) + 1;
        if (pixel >= 0) fill[base + pixel * otherStride] += next - k;
      }
    });
  }
}

/** The factor before `step`, below the diagonal or mirrored. */
function addHalf(raster, pattern, order, step, isMirrored) {
  if (order.rows) addFactor(raster, order, step, isMirrored);
  else addRows(raster, pattern, order, step, isMirrored);
}

/** The factor's columns before `step` by themselves, below the diagonal. */
function addedHalf(raster, pattern, order, step) {
  const fill = new Float64Array(raster.fill.length);
  addHalf({ ...raster, fill }, pattern, order, step, false);
  return fill;
}

/** Adds counts and their mirror image, of a square about the diagonal: so the factor is read once. */
function addMirrored(fill, side, added) {
  for (let at = 0; at < added.length; at++) {
    if (added[at] === 0) continue;
    const x = at % side;
    fill[at] += added[at];
    fill[x * side + (at - x) / side] += added[at];
  }
}

/**
 * Counts the entries and the fill in each pixel of a box. `order` has p, pInv, parent and, where the factor was written,
 * pointers and rows; of the pattern both triangles are counted, and the diagonal. With `elements`, of elementsAt, the rows from their step on
 * have the fill of the rows before it alone, if that is not too much to count.
 */
export function counted(pattern, order, box, side, elements) {
  const raster = new Raster(pattern.n, box, side);
  const step = elements ? elements.step : pattern.n;
  addEntries(raster, pattern, order, step);
  const { fill, across, down } = raster;
  if (box.left === box.top) {
    addMirrored(fill, side, addedHalf(raster, pattern, order, step));
  } else {
    addHalf(raster, pattern, order, step, false);
    addHalf(raster, pattern, order, step, true);
  }
  if (elements) {
    visitFill(pattern, order, elements, across, (row, column) => {
      const [y, x] = [down.pixels[row], across.pixels[column]];
      if (y >= 0 && x >= 0) fill[y * side + x] += 1;
    });
  }
  return raster;
}

// Visits of a clique's rows that a picture may take: they take half a second.
const MOST_VISITS = 3e8;

/** For each row before `step` the last one before it on the way to its root. */
function rootsBefore(parent, step) {
  const root = new Int32Array(step);
  for (let k = step - 1; k >= 0; k--) root[k] = parent[k] < 0 || parent[k] >= step ? k : root[parent[k]];
  return root;
}

/** The rows from `step` on that are joined to each root's tree, in lists that may have a row several times. */
function bordersAt(pattern, order, step) {
  const root = rootsBefore(order.parent, step);
  const starts = new Int32Array(step + 1);
  const visit = (meet) => {
    for (let k = 0; k < step; k++) {
      const j = order.p[k];
      for (let at = pattern.pointers[j]; at < pattern.pointers[j + 1]; at++) {
        const i = order.pInv[pattern.indices[at]];
        if (i >= step) meet(root[k], i);
      }
    }
  };
  visit((element) => (starts[element + 1] += 1));
  for (let k = 0; k < step; k++) starts[k + 1] += starts[k];
  const next = starts.slice(0, step);
  const lists = new Int32Array(starts[step]);
  visit((element, i) => (lists[next[element]++] = i));
  return { starts, lists };
}

/** Such lists with each row once and rising, each list once, and none that is empty: as pointers and rows. */
function distinctLists({ starts, lists }) {
  const rows = new Int32Array(lists.length);
  const pointers = [0];
  const alike = new Map();
  const isSame = (from, to, other) => {
    for (let k = from; k < to; k++) if (rows[k] !== rows[pointers[other] + k - from]) return false;
    return pointers[other + 1] - pointers[other] === to - from;
  };
  for (let element = 0; element + 1 < starts.length; element++) {
    const from = pointers.at(-1);
    let to = from;
    for (const i of lists.subarray(starts[element], starts[element + 1]).sort()) if (to === from || rows[to - 1] !== i) rows[to++] = i;
    if (to === from) continue;
    const key = (rows[from] * 31 + rows[to - 1]) * 31 + (to - from);
    if (alike.has(key) && isSame(from, to, alike.get(key))) continue;
    alike.set(key, pointers.length - 1);
    pointers.push(to);
  }
  return { pointers: Int32Array.from(pointers), rows };
}

/**
 * The elements when the rows before `step` are eliminated, as lists of rows, and listed by row. What remains of the matrix is its
 * own entries and a clique for each element: the rows that are joined to one tree of eliminated rows.
 * Source: Duff and Reid, "The multifrontal solution of indefinite sparse symmetric linear equations" (1983).
 */
export function elementsAt(pattern, order, step) {
  const n = order.p.length;
  const { pointers, rows } = distinctLists(bordersAt(pattern, order, step));
  const starts = new Int32Array(n + 1);
  const count = pointers.length - 1;
  for (let at = 0; at < pointers[count]; at++) starts[rows[at] + 1] += 1;
  for (let i = 0; i < n; i++) starts[i + 1] += starts[i];
  const next = starts.slice(0, n);
  const list = new Int32Array(starts[n]);
  for (let k = 0; k < count; k++) for (let at = pointers[k]; at < pointers[k + 1]; at++) list[next[rows[at]]++] = k;
  return { step, pointers, rows, starts, list, seen: new Int32Array(n).fill(-1) };
}

/** How many rows are visited for the fill of these columns. */
function visitsOf({ step, pointers, starts, list }, { first, last }) {
  let visits = 0;
  for (let at = starts[Math.min(Math.max(first, step), last)]; at < starts[last]; at++) visits += pointers[list[at] + 1] - pointers[list[at]];
  return visits;
}

/** Visits each fill (row, column) that remains, once; false where it is too much. The columns are those from `first` to `last`. */
export function visitFill(pattern, order, elements, { first, last }, visit) {
  if (visitsOf(elements, { first, last }) > MOST_VISITS) return false;
  const { step, pointers, rows, starts, list, seen } = elements;
  seen.fill(-1);
  for (let j = Math.max(first, step); j < last; j++) {
    seen[j] = j;
    const own = order.p[j];
    for (let at = pattern.pointers[own]; at < pattern.pointers[own + 1]; at++) seen[order.pInv[pattern.indices[at]]] = j;
    for (let k = starts[j]; k < starts[j + 1]; k++) {
      for (let at = pointers[list[k]]; at < pointers[list[k] + 1]; at++) {
        const i = rows[at];
        if (seen[i] === j) continue;
        seen[i] = j;
        visit(i, j);
      }
    }
  }
  return true;
}

/** How many entries the rows from the step on have below the diagonal, and how many of them are fill; or nothing. */
export function remainingAt(pattern, order, elements) {
  const { step } = elements;
  let [entries, fill] = [0, 0];
  const isCounted = visitFill(pattern, order, elements, { first: step, last: pattern.n }, () => (fill += 1));
  if (!isCounted) return undefined;
  for (let k = step; k < pattern.n; k++) {
    const j = order.p[k];
    for (let at = pattern.pointers[j]; at < pattern.pointers[j + 1]; at++) if (order.pInv[pattern.indices[at]] > k) entries += 1;
  }
  return { entries: entries + fill / 2, fill: fill / 2 };
}

/**
 * What stands at a place of the matrix in an order: "diagonal", "entry", "fill" or "empty". With `elements` a fill of a later step
 * is "later".
 */
export function kindAt(pattern, order, row, column, elements) {
  if (row === column) return "diagonal";
  const [i, j] = [order.p[row], order.p[column]];
  const at = lowerBound(pattern.indices, pattern.pointers[j], pattern.pointers[j + 1], i);
  if (at < pattern.pointers[j + 1] && pattern.indices[at] === i) return "entry";
  const [low, high] = [Math.min(row, column), Math.max(row, column)];
  if (!(order.rows ? hasRow(order, low, high) : isReached(pattern, order, low, high))) return "empty";
  if (!elements || low < elements.step) return "fill";
  const holding = elements.list.subarray(elements.starts[low], elements.starts[low + 1]);
  return holding.some((k) => hasRow(elements, k, high)) ? "fill" : "later";
}

/** Whether a row of the factor has a column: whether this is on the way up from one of its entries. Source: Liu 1986. */
function isReached(pattern, order, column, row) {
  const own = order.p[row];
  for (let at = pattern.pointers[own]; at < pattern.pointers[own + 1]; at++) {
    let node = order.pInv[pattern.indices[at]];
    while (node >= 0 && node < column) node = order.parent[node];
    if (node === column) return true;
  }
  return false;
}

/** The rows of the column of the step: those of its entries and of its elements. */
export function frontAt(pattern, order, elements) {
  const { step, pointers, rows, starts, list } = elements;
  const own = order.p[step];
  const front = new Set();
  for (let at = pattern.pointers[own]; at < pattern.pointers[own + 1]; at++) front.add(order.pInv[pattern.indices[at]]);
  for (let k = starts[step]; k < starts[step + 1]; k++) for (const i of rows.subarray(pointers[list[k]], pointers[list[k] + 1])) front.add(i);
  return Int32Array.from([...front].filter((i) => i > step)).sort();
}

/** Whether one list has a row. */
function hasRow({ pointers, rows }, column, row) {
  const found = lowerBound(rows, pointers[column], pointers[column + 1], row);
  return found < pointers[column + 1] && rows[found] === row;
}

/** Where the nodes of a forest are drawn: leaves side by side, a parent amid its children, roots on top; both from 0 to 1. */
export function treeLayout(parent) {
  const n = parent.length;
  const depth = new Int32Array(n);
  let deepest = 0;
  for (let k = n - 1; k >= 0; k--) {
    depth[k] = parent[k] < 0 ? 0 : depth[parent[k]] + 1;
    deepest = Math.max(deepest, depth[k]);
  }
  // The children of each node, and a walk that meets them before it, so that no two edges cross.
  const first = new Int32Array(n).fill(-1);
  const next = new Int32Array(n).fill(-1);
  let root = -1;
  for (let k = n - 1; k >= 0; k--) {
    if (parent[k] < 0) {
      next[k] = root;
      root = k;
    } else {
      next[k] = first[parent[k]];
      first[parent[k]] = k;
    }
  }
  const [x, left, right] = [new Float64Array(n), new Float64Array(n).fill(Infinity), new Float64Array(n).fill(-Infinity)];
  let leaves = 0;
  for (let top = root; top >= 0; top = next[top]) {
    let node = top;
    let isDown = true;
    for (;;) {
      if (isDown && first[node] >= 0) {
        node = first[node];
        continue;
      }
      x[node] = first[node] < 0 ? leaves++ : (left[node] + right[node]) / 2;
      if (node === top) break;
      const above = parent[node];
      left[above] = Math.min(left[above], x[node]);
      right[above] = Math.max(right[above], x[node]);
      isDown = next[node] >= 0;
      node = isDown ? next[node] : above;
    }
  }
  const [wide, tall] = [Math.max(leaves - 1, 1), Math.max(deepest, 1)];
  return {
    x: Float32Array.from(x, (at) => (leaves > 1 ? at / wide : 0.5)),
    y: Float32Array.from(depth, (at) => at / tall),
    depth: deepest + (n > 0 ? 1 : 0),
    leaves,
  };
}

/** The edges of a large tree as counts of pixels. */
export function treeRaster(parent, layout, width, height) {
  const pixels = new Float32Array(width * height);
  const [dx, dy] = [width - 1, height - 1];
  for (let k = 0; k < parent.length; k++) {
    const [x, y] = [layout.x[k] * dx, layout.y[k] * dy];
    const above = parent[k] < 0 ? k : parent[k];
    const [toX, toY] = [layout.x[above] * dx, layout.y[above] * dy];
    const steps = Math.min(Math.ceil(Math.max(Math.abs(toX - x), Math.abs(toY - y))), width);
    for (let step = 0; step <= steps; step++) {
      const part = steps === 0 ? 0 : step / steps;
      pixels[Math.round(y + part * (toY - y)) * width + Math.round(x + part * (toX - x))] += 1;
    }
  }
  return pixels;
}
