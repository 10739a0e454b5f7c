// Writes matrices as Matrix Market files, for the tests.

/** The bytes of a file with these entries. */
export function fileOf({ n, pointers, indices }) {
  const head = new TextEncoder().encode(`%%MatrixMarket matrix coordinate pattern general\n${n} ${n} ${indices.length}\n`);
  const bytes = new Uint8Array(head.length + 22 * indices.length);
  bytes.set(head);
  let at = head.length;
  const put = (number, behind) => {
    let [digits, rest] = [1, number];
    while (rest >= 10) {
      rest = Math.floor(rest / 10);
      digits += 1;
    }
    for (let k = at + digits - 1, left = number; k >= at; k--, left = Math.floor(left / 10)) bytes[k] = 48 + (left % 10);
    at += digits;
    bytes[at++] = behind;
  };
  for (let j = 0; j < n; j++) {
    for (let k = pointers[j]; k < pointers[j + 1]; k++) {
      put(indices[k] + 1, 32);
      put(j + 1, 10);
    }
  }
  return bytes.subarray(0, at);
}
