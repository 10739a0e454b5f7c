// The texts that a person takes along: the permutation in several forms, and the calls that give it.

const FORMATS = {
  text: { name: "permutation.txt", write: (p) => Array.from(p, (row) => `${row + 1}\n`) },
  mtx: {
    name: "permutation.mtx",
    write: (p) => [`%%MatrixMarket matrix array integer general\n${p.length} 1\n`, ...Array.from(p, (row) => `${row + 1}\n`)],
  },
  python: { name: "permutation.py", write: (p) => ["p = [", p.join(", "), "]\n"] },
  julia: { name: "permutation.jl", write: (p) => ["p = [", Array.from(p, (row) => row + 1).join(", "), "]\n"] },
};

/** A permutation as a file: numbers from 1 on, as the command writes and reads them; for Python from 0 on. */
export function fileOfPermutation(p, format) {
  const { name, write } = FORMATS[format];
  return { name, blob: new Blob(write(p), { type: "text/plain" }) };
}

const isPlain = ({ dense, aggressive }) => dense === 10 && aggressive;

/** The call in C, which takes the dense rows in thousandths: those that the page's own call took. */
function inC({ dense, thousandths, aggressive, hold }) {
  const lines = ["struct rimopaku_parameters parameters;", "struct rimopaku_statistics told;", "rimopaku_defaults(&parameters);"];
  if (dense !== 10) lines.push(`parameters.dense = ${thousandths};`);
  if (!aggressive) lines.push("parameters.aggressive = false;");
  const [name, marks] = hold.length > 0 ? ["rimopaku_order_holding_i32", " hold, n,"] : ["rimopaku_order_i32", ""];
  if (hold.length > 0) lines.push(`/* hold: n bool, true for the rows ${written(hold)} */`);
  lines.push(`status = ${name}(n, a_p, n + 1, a_i, a_p[n], &parameters,${marks} p, n, p_inv, n, &told);`);
  return lines.join("\n");
}

function inRust({ dense, aggressive, hold }) {
  const control = isPlain({ dense, aggressive })
    ? "amd::Control::default()"
    : `amd::Control { dense: ${/^-?\d+$/.test(String(dense)) ? `${dense}.0` : dense}, aggressive: ${aggressive} }`;
  const dependency = '// amd = { package = "rimopaku-amd", version = "1" }';
  if (hold.length === 0) return `${dependency}\nlet (p, p_inv, info) = amd::order(n, &a_p, &a_i, &${control})?;`;
  return `${dependency}\n// hold: n bool, true for the rows ${written(hold)}\n`
    + `let (p, p_inv, info) = amd::order_holding(n, &a_p, &a_i, &${control}, &hold)?;`;
}

function keywords({ dense, aggressive, hold }, write) {
  const parts = [];
  if (dense !== 10) parts.push(write("dense", String(dense)));
  if (!aggressive) parts.push(write("aggressive", null));
  if (hold.length > 0) parts.push(write("hold", `[${runsOf(hold).map(inRange).join(", ")}]`));
  return parts;
}

function inPython(options) {
  const parts = keywords(options, (name, value) => `${name}=${value ?? "False"}`);
  return `import rimopaku, scipy.io\nA = scipy.io.mmread("matrix.mtx")\np = rimopaku.amd(${["A.tocsc()", ...parts].join(", ")})`;
}

function inJavaScript({ dense, aggressive, hold }) {
  const parts = keywords({ dense, aggressive, hold: [] }, (name, value) => `${name}: ${value ?? "false"}`);
  const last = parts.length > 0 ? `, { ${parts.join(", ")} }` : "";
  if (hold.length === 0) return `import { order } from "rimopaku";\nconst { p, info } = order(n, pointers, indices${last});`;
  return [
    'import { orderHolding } from "rimopaku";',
    "const hold = new Uint8Array(n);",
    ...runsOf(hold).map(([from, to]) => `hold.fill(1, ${from}, ${to + 1});`),
    `const { p, info } = orderHolding(n, pointers, indices, hold${last});`,
  ].join("\n");
}

/** Rising rows as runs without a gap: the first and the last row of each. */
function runsOf(rows) {
  const runs = [];
  for (const row of rows) {
    if (runs.length > 0 && runs.at(-1)[1] + 1 === row) runs.at(-1)[1] = row;
    else runs.push([row, row]);
  }
  return runs;
}

const inRange = ([from, to]) => (from === to ? `${from}` : `*range(${from}, ${to + 1})`);
const written = (rows) => runsOf(rows).map(([from, to]) => (from === to ? `${from}` : `${from}-${to}`)).join(", ");

/** The call in each language that gives the order of these parameters. */
export const CODE = { c: inC, rust: inRust, python: inPython, javascript: inJavaScript };

/** The rows that a text names, as `0-9, 40`, each once; or nothing where it is at fault. */
export function rowsOf(text, n) {
  const rows = new Set();
  for (const part of text.split(/[\s,;]+/).filter((word) => word !== "")) {
    const match = /^(\d+)(?:-(\d+))?$/.exec(part);
    if (!match) return undefined;
    const [from, to] = [Number(match[1]), Number(match[2] ?? match[1])];
    if (to >= n || from > to) return undefined;
    for (let row = from; row <= to; row++) rows.add(row);
  }
  return [...rows].sort((a, b) => a - b);
}
