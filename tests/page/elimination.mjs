// Elimination as it is defined, on a table of n by n places: slow, plain, and sharing no line with the page.

/** The entries of A + A' in the order p, off the diagonal, as a table of bytes. */
export function tableOf({ n, pointers, indices }, p) {
  const place = new Int32Array(n);
  p.forEach((row, k) => (place[row] = k));
  const table = new Uint8Array(n * n);
  for (let j = 0; j < n; j++) {
    for (let at = pointers[j]; at < pointers[j + 1]; at++) {
      const [a, b] = [place[indices[at]], place[j]];
      if (a !== b) table[a * n + b] = table[b * n + a] = 1;
    }
  }
  return table;
}

/** Eliminates one row of a table: each two rows of its front get an entry, which is 2 where there was none. */
export function eliminate(table, n, k) {
  const front = [];
  for (let i = k + 1; i < n; i++) if (table[k * n + i]) front.push(i);
  for (const a of front) for (const b of front) if (a !== b && !table[a * n + b]) table[a * n + b] = 2;
  return front;
}

/** How many places of a table have a value, from a row and column on. */
export function countFrom(table, n, value, first = 0) {
  let count = 0;
  for (let i = first; i < n; i++) for (let j = first; j < n; j++) if (table[i * n + j] === value) count += 1;
  return count;
}
