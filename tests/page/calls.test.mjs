// Tests the calls that the page shows for C, Python, Rust and JavaScript, and the files that it writes: each is run as it stands,
// and gives the order of the package in the folder RIMOPAKU_JS. ARCHIVES is a folder with the archives of the C library. CC, PYTHON
// and CARGO name the programs.
import assert from "node:assert/strict";
import { execFileSync, spawnSync } from "node:child_process";
import { copyFileSync, mkdirSync, mkdtempSync, rmSync, writeFileSync } from "node:fs";
import { tmpdir } from "node:os";
import { dirname, join, resolve } from "node:path";
import test, { after } from "node:test";
import { fileURLToPath, pathToFileURL } from "node:url";
import { CODE, fileOfPermutation } from "../../bindings/js/page/code.js";
import { SAMPLES } from "../../bindings/js/page/samples.js";
import { fileOf } from "./files.mjs";

const top = resolve(dirname(fileURLToPath(import.meta.url)), "../..");
const machine = process.arch === "arm64" ? "aarch64" : "x86_64";
const { CC = "cc", CARGO = "cargo", ARCHIVES = join(top, "prebuilt", `${machine}-linux`) } = process.env;
const REGISTRY = process.env.CARGO_REGISTRY ?? "/usr/share/cargo/registry";
const load = (name) => import(pathToFileURL(join(resolve(process.env.RIMOPAKU_JS), name)));
const { order, orderHolding } = await load("index.js");
const { thousandthsOf } = await load("calls.js");
const folder = mkdtempSync(join(tmpdir(), "rimopaku-calls-"));
after(() => rmSync(folder, { recursive: true, force: true }));

const runs = (program, ...words) => spawnSync(program, words, { encoding: "utf8" }).status === 0;
const PYTHON = [process.env.PYTHON ?? "python3", "/usr/bin/python3"].find((it) => runs(it, "-c", "import scipy.io"));

const { n, pointers, indices } = SAMPLES.find(({ key }) => key === "network").make();
writeFileSync(join(folder, "matrix.mtx"), fileOf({ n, pointers, indices }));
const OPTIONS = [
  { dense: 10, aggressive: true, hold: [] },
  { dense: 1.25, aggressive: true, hold: [] },
  { dense: -1, aggressive: false, hold: [] },
  { dense: 10, aggressive: true, hold: [0, 1, 2, 3, 40, 700, 701] },
  { dense: 2, aggressive: false, hold: [5] },
  { dense: 0.43217, aggressive: true, hold: [] },
  { dense: 1e12, aggressive: true, hold: [] },
].map((options) => ({ ...options, thousandths: thousandthsOf(options.dense, n) }));
const orderOf = ({ hold, dense, aggressive }) => {
  const options = { dense, aggressive };
  return [...(hold.length > 0 ? orderHolding(n, pointers, indices, hold, options) : order(n, pointers, indices, options)).p];
};

test("the calls of C", { skip: !runs(CC, "--version") && `no ${CC} here` }, () => {
  for (const options of OPTIONS) {
    const source = `#include <rimopaku.h>\n#include <stdio.h>
static int32_t a_p[] = {${pointers}}, a_i[] = {${indices}}, n = ${n}, p[${n}], p_inv[${n}];
static bool hold[${n}];
int main(void)
{
    int status, k;
    ${options.hold.map((row) => `hold[${row}] = true;`).join(" ")}
    {
        ${CODE.c(options)}
        for (k = 0; k < n; k++) printf("%d ", (int)p[k]);
    }
    return status + (hold[0] && !hold[0]);
}\n`;
    const [file, program] = [join(folder, "call.c"), join(folder, "call")];
    writeFileSync(file, source);
    const archives = ["libamd_c.a", "liblibc_c.a"].map((it) => join(ARCHIVES, it));
    execFileSync(CC, ["-std=c99", "-Wall", "-Wextra", "-Werror", `-I${top}/include`, file, ...archives, "-o", program]);
    assert.deepEqual(execFileSync(program, { encoding: "utf8" }).trim().split(" ").map(Number), orderOf(options));
  }
});

test("the calls of Python", { skip: !PYTHON && "no Python with scipy here" }, () => {
  const own = { PYTHONPATH: join(top, "bindings/python"), RIMOPAKU_LIBRARY: join(ARCHIVES, "librimopaku.so.1") };
  const env = { ...process.env, ...own, PYTHONDONTWRITEBYTECODE: "1" };
  for (const options of OPTIONS) {
    const told = execFileSync(PYTHON, ["-c", `${CODE.python(options)}\nprint(list(map(int, p)))`], { encoding: "utf8", cwd: folder, env });
    assert.deepEqual(JSON.parse(told), orderOf(options));
  }
});

test("the calls of JavaScript", async () => {
  for (const [k, options] of OPTIONS.entries()) {
    const name = pathToFileURL(join(resolve(process.env.RIMOPAKU_JS), "index.js")).href;
    const call = CODE.javascript(options).replace('"rimopaku"', JSON.stringify(name));
    const file = join(folder, `call${k}.mjs`);
    writeFileSync(file, `const n = ${n}, pointers = [${pointers}], indices = [${indices}];\n${call}\nexport default [...p];\n`);
    assert.deepEqual((await import(pathToFileURL(file))).default, orderOf(options));
  }
});

const OFFLINE = ["-q", "--offline", "--config", 'source.crates-io.replace-with="local"', "--config", `source.local.directory="${REGISTRY}"`];
const cargo = (at, ...words) => execFileSync(CARGO, [...words, ...OFFLINE], { encoding: "utf8", cwd: at, env: { ...process.env, RIMOPAKU_LIB_DIR: ARCHIVES } });

test("the calls of Rust", { skip: !(runs(CARGO, "--version") && runs("ls", REGISTRY)) && `no ${CARGO} or no ${REGISTRY} here` }, () => {
  const crate = join(folder, "crate");
  mkdirSync(join(crate, "src"), { recursive: true });
  const dependency = /^\/\/ (amd = \{ package = "rimopaku-amd", version = "1)" \}$/m.exec(CODE.rust(OPTIONS[0]))[1];
  const path = JSON.stringify(join(top, "bindings/rust"));
  const head = '[package]\nname = "call"\nversion = "0.1.0"\nedition = "2021"\n[dependencies]\n';
  writeFileSync(join(crate, "Cargo.toml"), `${head}${dependency}", path = ${path} }\n`);
  const functions = OPTIONS.map((options, k) => `fn call_${k}(n: i32, a_p: &[i32], a_i: &[i32]) -> Result<(), amd::${options.hold.length > 0 ? "Fault" : "Status"}> {
    let (a_p, a_i) = (a_p.to_vec(), a_i.to_vec());
    ${options.hold.length > 0 ? "let mut hold = vec![false; n as usize];" : ""}
    ${options.hold.map((row) => `hold[${row}] = true;`).join(" ")}
    ${CODE.rust(options)}
    println!("{p:?}");
    Ok(())
}\n`);
  const main = `fn main() {\nlet (n, a_p, a_i) = (${n}, [${pointers}], [${indices}]);
${OPTIONS.map((_, k) => `call_${k}(n, &a_p, &a_i).unwrap();`).join("\n")}\n}\n`;
  writeFileSync(join(crate, "src/main.rs"), `#![allow(unused_variables)]\n${functions.join("")}${main}`);
  const lines = cargo(crate, "run", "--target-dir", join(folder, "target")).trim().split("\n");
  assert.deepEqual(lines.map((line) => JSON.parse(line)), OPTIONS.map(orderOf));
});

// The readers are Python's and scipy's; that of Julia's literal is Python's, as lists of numbers are written alike in both.
test("the files of a permutation, by another reader", { skip: !PYTHON && "no Python with scipy here" }, async () => {
  const p = orderOf(OPTIONS[0]);
  for (const format of ["text", "mtx", "python", "julia"]) {
    const { name, blob } = fileOfPermutation(Int32Array.from(p), format);
    writeFileSync(join(folder, name), await blob.text());
  }
  copyFileSync(join(folder, "permutation.jl"), join(folder, "permutation_jl.py"));
  const script = `import json, numpy, scipy.io
text = numpy.loadtxt("permutation.txt", dtype=int) - 1
mtx = scipy.io.mmread("permutation.mtx")
assert mtx.shape == (len(text), 1)
told = {}
for name in ("permutation.py", "permutation_jl.py"):
    names = {}
    exec(open(name).read(), names)
    told[name] = names["p"]
print(json.dumps([text.tolist(), (mtx[:, 0] - 1).tolist(), told["permutation.py"], [row - 1 for row in told["permutation_jl.py"]]]))`;
  assert.deepEqual(JSON.parse(execFileSync(PYTHON, ["-c", script], { encoding: "utf8", cwd: folder })), [p, p, p, p]);
});
