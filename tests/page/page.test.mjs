// Tests the page RIMOPAKU_PAGE in a browser, from file://, as a person would use it. BROWSER is chromium or firefox, and PROGRAM its
// name; FIGURES is the program of figures.c, or empty; COMMAND is the command rimopaku, or empty; SHOTS a folder for pictures of the page, or
// empty; RIMOPAKU_JS is the folder of the package.
import assert from "node:assert/strict";
import { execFileSync } from "node:child_process";
import { mkdirSync, mkdtempSync, readFileSync, readdirSync, rmSync, writeFileSync } from "node:fs";
import { tmpdir } from "node:os";
import { join } from "node:path";
import test, { after, before } from "node:test";
import { pathToFileURL } from "node:url";
import { gzipSync } from "node:zlib";
import { SAMPLES } from "../../bindings/js/page/samples.js";
import { pause } from "./browser.mjs";
import { Chromium } from "./chromium.mjs";
import { countFrom, eliminate, tableOf } from "./elimination.mjs";
import { fileOf } from "./files.mjs";
import { Firefox } from "./firefox.mjs";
import { serve } from "./server.mjs";

const url = pathToFileURL(process.env.RIMOPAKU_PAGE).href;
const { FIGURES, COMMAND, SHOTS, PROGRAM, RIMOPAKU_JS } = process.env;
const isFirefox = process.env.BROWSER === "firefox";
const folder = mkdtempSync(join(tmpdir(), "rimopaku-files-"));
const downloads = join(folder, "downloads");
let browser;

before(async () => {
  browser = await (isFirefox ? Firefox : Chromium).start(PROGRAM);
  await browser.open(url, downloads);
});
after(async () => {
  await browser.stop();
  rmSync(folder, { recursive: true, force: true });
});

const click = (selector) => browser.value(`document.querySelector(${JSON.stringify(selector)}).click()`);
const text = (selector) => browser.value(`document.querySelector(${JSON.stringify(selector)}).textContent`);
const set = (selector, value, event = "change") => browser.value(`(() => {
  const it = document.querySelector(${JSON.stringify(selector)});
  if (it.type === "checkbox") it.checked = ${JSON.stringify(value)}; else it.value = ${JSON.stringify(value)};
  it.dispatchEvent(new Event(${JSON.stringify(event)}, { bubbles: true }));
})()`);

/** Waits until a task is done and both pictures show the orders that are chosen. */
async function settled(seconds = 60) {
  await browser.until("document.body.dataset.busy === 'false'", seconds);
  await browser.until("document.querySelector('#numbers [data-order=reversed]')", seconds);
  await browser.until(`!document.getElementById("fault").hidden || ["left", "right"].every((id, k) =>
    (document.querySelectorAll(".plot")[k].dataset.shown ?? "").split(" ")[0] === document.getElementById(id).value)`, seconds);
}

/** Does something that begins a task, and waits for its end. */
async function ending(begin, seconds) {
  const before = await browser.value("document.body.dataset.ended ?? '0'");
  await begin();
  await browser.until(`document.body.dataset.ended > ${before}`, seconds);
}

async function pick(key) {
  await ending(() => click(`#samples button[data-key="${key}"]`));
  await settled();
}

/** The figures in the table, by order. */
const figures = () => browser.value(`(() => {
  const told = {};
  for (const cell of document.querySelectorAll("#numbers td")) (told[cell.dataset.order] ??= {})[cell.dataset.figure] = Number(cell.dataset.value);
  return told;
})()`);

const counts = (panel) => browser.value(`(({ entries, fill }) => ({ entries: Number(entries), fill: Number(fill) }))(
  document.querySelectorAll(".plot")[${panel}].dataset)`);

/** An expression for how many rows a picture shows. */
const shownRows = (panel) => `Number(document.querySelectorAll(".plot")[${panel}].dataset.shown.split(" ")[1])`;

/** The share of pixels of a canvas that are drawn. */
const drawn = (selector) => browser.value(`(() => {
  const it = document.querySelector(${JSON.stringify(selector)});
  const { data } = it.getContext("2d").getImageData(0, 0, it.width, it.height);
  let count = 0;
  for (let k = 3; k < data.length; k += 4) if (data[k] > 0) count += 1;
  return count / (data.length / 4);
})()`);

function fileOfSample(key) {
  const path = join(folder, `${key}.mtx`);
  writeFileSync(path, fileOf(SAMPLES.find((sample) => sample.key === key).make()));
  return path;
}

/** What SuiteSparse says of a file, as the table has it. */
function expected(path) {
  const { natural, reversed, amd, bound, pairs, sum, n } = JSON.parse(execFileSync(FIGURES, [path], { encoding: "utf8" }));
  return { orders: { natural, reversed, amd, bound }, pairs, sum, n };
}

function compare(told, { orders, pairs, n }) {
  for (const [key, { lnz, nMultSubsLdl, nMultSubsLu, dMax }] of Object.entries(orders)) {
    assert.equal(told[key].lnz, lnz, `${key} lnz`);
    assert.equal(told[key].filled, lnz - pairs / 2, `${key} fill`);
    assert.equal(told[key].flops, lnz + 2 * nMultSubsLdl, `${key} flops`);
    assert.equal(told[key].nMultSubsLu, nMultSubsLu, `${key} LU`);
    assert.equal(told[key].dMax, dMax, `${key} front`);
    assert.equal(told[key].memory, lnz + n, `${key} memory`);
  }
}

const COMMAND_NAMES = { natural: "as_it_stands", amd: "ordered", bound: "at_most" };

/** The figures and the order that the command `rimopaku` tells of the same file; `others` are keys with orders of their own. */
function compareWithCommand(told, path, options = [], others = {}) {
  const run = (more) => {
    const words = ["order", path, "--compare", "--json", ...options, ...more];
    return JSON.parse(execFileSync(COMMAND, words, { encoding: "utf8", stdio: ["ignore", "pipe", "ignore"] }));
  };
  const compareOne = (key, figures) => {
    assert.equal(told[key].lnz, figures.entries_of_l, `${key} lnz`);
    assert.equal(told[key].flops, figures.entries_of_l + 2 * figures.multiply_subtracts_ldl, `${key} flops`);
    assert.equal(told[key].nMultSubsLu, figures.multiply_subtracts_lu, `${key} LU`);
    assert.equal(told[key].dMax, figures.largest_column, `${key} front`);
    if ("fill" in figures) assert.equal(told[key].filled, figures.fill, `${key} fill`);
  };
  const json = run([]);
  for (const [key, name] of Object.entries(COMMAND_NAMES)) compareOne(key, json[name]);
  for (const [key, p] of Object.entries(others)) {
    const list = join(folder, "order-for-the-command.txt");
    writeFileSync(list, p.map((row) => `${row + 1}\n`).join(""));
    compareOne(key, run(["--with", list]).with);
  }
  return json.permutation.map((row) => row - 1);
}

/** Each figure of the table has a bar, as long as the number beside the greatest one of its row. */
async function barsAre(told) {
  const bars = await browser.value(`[...document.querySelectorAll("#bars .bar")].map((bar) => [
    bar.dataset.figure, bar.dataset.order, Number.parseFloat(bar.querySelector("i").style.width)])`);
  assert.equal(bars.length, Object.keys(told).length * Object.keys(told.amd).length);
  for (const [figure, order, width] of bars) {
    const most = Math.max(...Object.values(told).map((figures) => figures[figure]), 1);
    assert.ok(Math.abs(width - (100 * told[order][figure]) / most) < 0.01, `${figure} ${order}`);
  }
}

/** The sum over a permutation that figures.c prints. */
function sumOf(p) {
  let sum = 1469598103934665603n;
  for (const row of p) sum = BigInt.asUintN(64, (sum ^ BigInt(row)) * 1099511628211n);
  return String(sum);
}

/** The text of a download, once it is whole: a browser may keep a place for it, or write beside it. */
async function downloaded(format) {
  rmSync(downloads, { recursive: true, force: true });
  mkdirSync(downloads);
  await click(`[data-format="${format}"]`);
  for (let k = 0; k < 200; k++) {
    await pause(50);
    const names = readdirSync(downloads);
    if (names.length !== 1 || /\.(crdownload|part)$/.test(names[0])) continue;
    const content = readFileSync(join(downloads, names[0]), "utf8");
    if (content !== "") return content;
  }
  throw new Error("no download");
}

async function shoot(name, width, height, { dark = false, mobile = false, clip = undefined } = {}) {
  if (!SHOTS) return;
  await browser.look({ width, height, dark, mobile });
  // As high as the page, so that nothing moves while the picture is taken.
  await pause(200);
  const whole = await browser.value("document.documentElement.scrollHeight");
  await browser.look({ width, height: whole, dark, mobile });
  await pause(1000);
  await settled();
  writeFileSync(join(SHOTS, `${name}.png`), await browser.picture(clip));
  await browser.lookAsBefore();
}

/** Where the parts of something are in the window: from 0 to 1 across and down. */
async function placesIn(selector) {
  const box = await browser.value(`(() => {
    const it = document.querySelector(${JSON.stringify(selector)});
    it.scrollIntoView({ block: "center", behavior: "instant" });
    const { x, y, width, height } = it.getBoundingClientRect();
    return { x, y, width, height };
  })()`);
  return (x, y) => [box.x + x * box.width, box.y + y * box.height];
}

/** The order that is on the right, from its file. */
const orderOnTheRight = async () => (await downloaded("text")).trim().split("\n").map((row) => Number(row) - 1);

for (const { key, make } of SAMPLES.filter((sample) => sample.key !== "million")) {
  test(`the sample ${key}`, async () => {
    await pick(key);
    const told = await figures();
    const { n, pointers, indices } = make();
    if (FIGURES) compare(told, expected(fileOfSample(key)));
    const diagonal = n; // each sample has its whole diagonal
    assert.equal(pointers[n], indices.length);
    for (const [panel, order] of [[0, "natural"], [1, "amd"]]) {
      // Each pixel counts what lies in it, so all of them count all: the factor and its mirror image, and the entries.
      const seen = await counts(panel);
      assert.equal(seen.entries, indices.length);
      assert.equal(seen.fill, 2 * told[order].lnz - (indices.length - diagonal));
      assert.ok((await drawn(`.plot[data-panel="${panel}"]`)) > 0.001);
    }
    assert.ok((await drawn("#tree")) > 0.001);
    await barsAre(told);
    await shoot(`sample-${key}`, 1280, 1000);
  });
}

test("the permutation of a sample, in each form", async () => {
  await pick("cube");
  const n = 13 ** 3;
  const p = (await downloaded("text")).trim().split("\n").map((row) => Number(row) - 1);
  assert.equal(p.length, n);
  if (FIGURES) assert.equal(sumOf(p), expected(fileOfSample("cube")).sum);
  const market = (await downloaded("mtx")).trim().split("\n");
  assert.deepEqual(market.slice(0, 2), ["%%MatrixMarket matrix array integer general", `${n} 1`]);
  assert.deepEqual(market.slice(2).map((row) => Number(row) - 1), p);
  const literal = (source) => JSON.parse(source.replace("p = ", ""));
  assert.deepEqual(literal(await downloaded("python")), p);
  assert.deepEqual(literal(await downloaded("julia")).map((row) => row - 1), p);
});

test("a dropped file, plain and compressed, has the figures of SuiteSparse and of the command", async () => {
  const path = fileOfSample("truss");
  await browser.give("#file", path);
  await browser.until("document.getElementById('message').textContent.startsWith('truss.mtx')");
  await settled();
  const plain = await figures();
  const n = plain.amd.memory - plain.amd.lnz;
  const reversed = Array.from({ length: n }, (_, k) => n - 1 - k);
  if (FIGURES) compare(plain, expected(path));
  if (COMMAND) assert.deepEqual(compareWithCommand(plain, path, [], { reversed }), await orderOnTheRight());
  writeFileSync(`${path}.gz`, gzipSync(readFileSync(path)));
  await browser.give("#file", `${path}.gz`);
  await browser.until("document.getElementById('message').textContent.startsWith('truss.mtx.gz')");
  await settled();
  assert.deepEqual(await figures(), plain);
});

test("a symmetric file with values stands for its mirror image", async () => {
  const path = join(folder, "symmetric.mtx");
  const lines = ["%%MatrixMarket matrix coordinate real symmetric", "% a path", "4 4 7", "1 1 2.0", "2 2 2", "3 3 2e0", "4 4 .5", "2 1 -1"];
  writeFileSync(path, [...lines, "3 2 -1.5e-3", "", "4 3 1", ""].join("\n"));
  await browser.give("#file", path);
  await browser.until("document.getElementById('message').textContent.startsWith('symmetric.mtx')");
  await settled();
  const told = await figures();
  assert.equal(told.amd.lnz, 3);
  assert.equal(told.natural.lnz, 3);
  assert.deepEqual(await counts(0), { entries: 10, fill: 0 });
});

const BROKEN = [
  ["no-number.mtx", "%%MatrixMarket matrix coordinate pattern general\n3 3 2\n1 1\n2 x\n", 4],
  ["outside.mtx", "%%MatrixMarket matrix coordinate pattern general\n3 3 1\n% note\n4 1\n", 4],
  ["too-few.mtx", "%%MatrixMarket matrix coordinate pattern general\n3 3 3\n1 1\n", 4],
  ["too-many.mtx", "%%MatrixMarket matrix coordinate pattern general\n3 3 1\n1 1\n2 2\n", 4],
  ["words.mtx", "%%MatrixMarket matrix coordinate real general\n3 3 1\n1 1\n", 3],
  ["oblong.mtx", "%%MatrixMarket matrix coordinate real general\n3 4 1\n1 1 1\n", 2],
  ["header.mtx", "%%MatrixMarket matrix coordinate real\n3 3 1\n1 1 1\n", 1],
  ["no-matrix.mtx", "a letter to a friend\n", 1],
];
test("a broken file is refused with the line", async () => {
  for (const [name, content, line] of BROKEN) {
    const path = join(folder, name);
    writeFileSync(path, content);
    await browser.give("#file", path);
    await browser.until("!document.getElementById('fault').hidden");
    await browser.until("document.body.dataset.busy === 'false'");
    assert.match(await text("#fault"), new RegExp(`^Line ${line}: `), name);
    await browser.value("document.getElementById('fault').hidden = true");
  }
  const path = join(folder, "cut.mtx.gz");
  writeFileSync(path, gzipSync(Buffer.from(BROKEN[0][1])).subarray(0, 20));
  await browser.give("#file", path);
  await browser.until("!document.getElementById('fault').hidden");
  assert.match(await text("#fault"), /gzip/);
});

/** A drawn order of n rows. */
function drawnOrder(n) {
  const p = Array.from({ length: n }, (_, k) => k);
  let state = 20;
  for (let k = n - 1; k > 0; k--) {
    state = (state * 1103515245 + 12345) % 2 ** 31;
    const other = state % (k + 1);
    [p[k], p[other]] = [p[other], p[k]];
  }
  return p;
}

test("what a file is shows in its bytes, and a permutation needs its matrix", async () => {
  await browser.open(url, downloads);
  const matrix = "%%MatrixMarket matrix coordinate pattern general\r\n3 3 1\r\n2 1\r\n";
  const files = [
    ["order.txt", "3\n1\n2\n", /^This looks like a permutation: open its matrix first/],
    ["huge.mtx", matrix.replace("3 3 1", "2000000000 2000000000 1"), /^Line 2: the matrix has too many rows/],
    ["packed", gzipSync(matrix), /^$/],
    ["plain.mtx.gz", matrix, /^$/],
  ];
  for (const [name, content, fault] of files) {
    const path = join(folder, name);
    writeFileSync(path, content);
    await ending(() => browser.give("#file", path));
    assert.match(await text("#fault"), fault, name);
  }
  await settled();
  assert.equal((await figures()).amd.lnz, 1);
});

test("a permutation of the person's own, in each form", async () => {
  await pick("truss");
  const n = 183;
  const p = drawnOrder(n);
  const forms = {
    "own.txt": p.map((row) => `${row + 1}\n`).join(""),
    "own-from-0.txt": p.join("\n"),
    "own.mtx": `%%MatrixMarket matrix array integer general\n% a note\n${n} 1\n${p.map((row) => `${row + 1}\n`).join("")}`,
    "own.py": `p = [${p.join(", ")}]\n`,
    "own.jl": `p = [${p.map((row) => row + 1).join(", ")}]\n`,
    "own.csv": p.map((row) => row + 1).join(","),
  };
  for (const [name, content] of Object.entries(forms)) {
    const path = join(folder, name);
    writeFileSync(path, content);
    await set("#right", "amd");
    await ending(() => browser.give("#file", path));
    await browser.until("document.getElementById('right').value === 'own'");
    await settled();
    assert.deepEqual(await orderOnTheRight(), p, name);
  }
  const told = await figures();
  if (COMMAND) compareWithCommand(told, fileOfSample("truss"), [], { own: p });
  await barsAre(told);
});

test("a wrong permutation is refused with the line", async () => {
  await pick("arrow");
  const lines = Array.from({ length: 100 }, (_, k) => k + 1);
  const wrong = [
    [lines.map((row) => (row === 41 ? 7 : row)), /^Line 41: 7 stands there twice/],
    [lines.slice(1), /^The permutation has 99 numbers, and the matrix 100 rows/],
    [[...lines, 5], /^Line 101: there are more numbers than the 100 rows/],
    [lines.map((row) => (row === 3 ? 101 : row)), /^Line 3: 101 is no row/],
    [lines.map((row) => (row === 3 ? 0 : row)), /^Line 100: 100 is no row/],
  ];
  for (const [rows, message] of wrong) {
    const path = join(folder, "wrong.txt");
    writeFileSync(path, rows.join("\n"));
    await ending(() => browser.give("#file", path));
    assert.match(await text("#fault"), message);
  }
  assert.equal((await figures()).own, undefined);
});

test("parameters change the order and the calls", async () => {
  await pick("network");
  const before = await figures();
  await set("#hold", "0-9, 40");
  await browser.until("document.getElementById('code').textContent.includes('holding')");
  await settled();
  for (const [tab, words] of Object.entries({ rust: "0-9, 40", python: "[*range(0, 10), 40]", javascript: "hold.fill(1, 0, 10)", c: "0-9, 40" })) {
    await click(`#tab-${tab}`);
    assert.ok((await text("#code")).includes(words), tab);
  }
  const after = await figures();
  assert.notEqual(after.amd.lnz, before.amd.lnz);
  const p = await orderOnTheRight();
  assert.deepEqual(p.slice(-11), [0, 1, 2, 3, 4, 5, 6, 7, 8, 9, 40]);
  const held = join(folder, "held.txt");
  writeFileSync(held, [1, 2, 3, 4, 5, 6, 7, 8, 9, 10, 41].join("\n"));
  if (COMMAND) assert.deepEqual(compareWithCommand(after, fileOfSample("network"), ["--hold", held]), p);
  await set("#hold", "7-");
  await browser.until("!document.getElementById('fault').hidden");
  await set("#hold", "");
  await set("#dense", "1");
  await browser.until("document.getElementById('code').textContent.includes('1000')");
  await settled();
  for (const tab of ["rust", "python", "javascript", "c"]) {
    await click(`#tab-${tab}`);
    assert.match(await text("#code"), tab === "c" ? /parameters\.dense = 1000/ : /dense/);
  }
  if (COMMAND) assert.deepEqual(compareWithCommand(await figures(), fileOfSample("network"), ["--dense", "1"]), await orderOnTheRight());
  await set("#aggressive", false);
  await browser.until("document.getElementById('code').textContent.includes('aggressive')");
  await settled();
  const others = ["--dense", "1", "--no-aggressive"];
  if (COMMAND) assert.deepEqual(compareWithCommand(await figures(), fileOfSample("network"), others), await orderOnTheRight());
  // The picture is that of the order of these parameters.
  await browser.until(`Number(document.querySelectorAll(".plot")[1].dataset.fill) === ${
    2 * (await figures()).amd.lnz - (SAMPLES.find(({ key }) => key === "network").make().indices.length - 1500)}`);
  await set("#aggressive", true);
  await set("#dense", "10");
  await settled();
  await browser.until(`!document.getElementById('code').textContent.includes('1000')`);
  assert.deepEqual(await figures(), before);
});

/** Whether the text under the pictures is true of the place that it names, in the natural order on the left and AMD on the right. */
async function rightPlace(key) {
  const form = /^Place (\d+), (\d+): left (.+) \(row (\d+), column (\d+) of the file\); right (.+) \(row (\d+), column (\d+) of the file\)\.$/;
  const [, row, column, left, ...others] = form.exec(await text("#where"));
  const matrix = SAMPLES.find((sample) => sample.key === key).make();
  const { n } = matrix;
  const right = await orderOnTheRight();
  const kindIn = (p) => {
    const table = tableOf(matrix, p);
    for (let k = 0; k < n; k++) eliminate(table, n, k);
    return row === column ? "on the diagonal" : ["empty", "an entry", "fill"][table[row * n + Number(column)]];
  };
  const natural = Array.from({ length: n }, (_, k) => k);
  assert.deepEqual([left, ...others], [kindIn(natural), row, column, kindIn(right), String(right[row]), String(right[column])]);
}

test("zoom, drag and the keyboard move both pictures", async () => {
  await pick("plane");
  const whole = await counts(1);
  const size = () => browser.value(shownRows(0));
  await click("#closer");
  await click("#closer");
  await browser.until(`${shownRows(0)} < 1000 && ${shownRows(1)} < 1000`);
  assert.ok((await counts(1)).entries < whole.entries);
  const before = await size();
  await browser.value("document.querySelector('.plot').focus()");
  await browser.press("+");
  await browser.until(`${shownRows(0)} < ${before}`);
  await browser.press("0");
  await browser.until(`${shownRows(1)} === 1600`);
  assert.deepEqual(await counts(1), whole);
  const at = await placesIn(".plot");
  await browser.move([at(0.4, 0.4), at(0.505, 0.505)]);
  await browser.until("document.getElementById('where').textContent.startsWith('Place 8')");
  await rightPlace("plane");
  await browser.wheel(at(0.25, 0.25), -240);
  await browser.until(`${shownRows(0)} === 800 && ${shownRows(1)} === 800`);
  // A drag by a quarter of the picture moves both by 200 rows.
  const left = () => browser.value("document.getElementById('where').textContent");
  await browser.move([at(0.1, 0.1), at(0.11, 0.11)]);
  await browser.until("/^Place \\d/.test(document.getElementById('where').textContent)");
  const placeOf = async () => Number(/^Place (\d+)/.exec(await left())[1]);
  const first = await placeOf();
  await browser.move([at(0.6, 0.6), at(0.5, 0.5), at(0.35, 0.35)], true);
  await browser.move([at(0.12, 0.12), at(0.11, 0.11)]);
  await browser.until(`document.getElementById('where').textContent.startsWith('Place ${first + 200}')
    || document.getElementById('where').textContent.startsWith('Place ${first + 199}')
    || document.getElementById('where').textContent.startsWith('Place ${first + 201}')`);
});

/** Moves the slider, and waits until the picture on the right is that of the step. */
async function step(place) {
  await set("#step", String(place), "input");
  await browser.until(`document.getElementById('step-told').textContent.startsWith('Step ${place} ')`);
  await browser.until(`document.querySelectorAll(".plot")[1].dataset.step === "${place}"`);
}

test("the steps of the elimination: the first ones, some between, and the last", async () => {
  await pick("truss");
  const { n, pointers, indices } = SAMPLES.find(({ key }) => key === "truss").make();
  const p = await orderOnTheRight();
  const table = tableOf({ n, pointers, indices }, p);
  let done = 0;
  for (const place of [0, 1, 2, 50, 100, 150, 170, n - 1]) {
    for (; done < place; done++) eliminate(table, n, done);
    await step(place);
    // Entries and fill so far, each twice, and the diagonal.
    const [entries, fill] = [countFrom(table, n, 1), countFrom(table, n, 2)];
    assert.deepEqual(await counts(1), { entries: entries + n, fill });
    const front = table.subarray(place * n + place + 1, (place + 1) * n).reduce((sum, it) => sum + (it > 0 ? 1 : 0), 0);
    const remaining = [countFrom(table, n, 1, place) / 2, countFrom(table, n, 2, place) / 2];
    const words = `row ${p[place]} of the file, whose front has ${front} row.*; ${n - place} rows remain, `
      + `with ${remaining[0] + remaining[1]} entries below the diagonal, of which ${remaining[1]} are fill\\.$`;
    assert.match(await text("#step-told"), new RegExp(words));
    assert.ok((await drawn(".panels figure:nth-child(2) .over")) > 0.01);
    assert.ok((await drawn("#tree-over")) > 0.0001);
  }
  assert.match(await text("#step-told"), /front has 0 rows.*root of the tree.*100\.0% of the entries/);
  await click("#step-off");
  await browser.until(`document.querySelectorAll(".plot")[1].dataset.step === ""`);
  const told = await figures();
  assert.deepEqual(await counts(1), { entries: indices.length, fill: 2 * told.amd.lnz - (indices.length - n) });
  assert.equal(await drawn(".panels figure:nth-child(2) .over"), 0);
});

test("the slider by the keyboard", async () => {
  await pick("cube");
  await browser.value("document.getElementById('step').focus()");
  await browser.press("ArrowRight");
  await browser.press("ArrowRight");
  await browser.until(`document.getElementById('step-told').textContent.startsWith('Step 2 ')`);
  await browser.until(`document.querySelectorAll(".plot")[1].dataset.step === "2"`);
  await pick("arrow");
  assert.equal(await browser.value(`document.querySelectorAll(".plot")[1].dataset.step`), "");
});

const SMALL = {
  "one.mtx": ["%%MatrixMarket matrix coordinate pattern general\n1 1 1\n1 1\n", 1, 0],
  "one-empty.mtx": ["%%MatrixMarket matrix coordinate pattern general\n1 1 0\n", 1, 0],
  "none.mtx": ["%%MatrixMarket matrix coordinate pattern general\n0 0 0\n", 0, 0],
  "two.mtx": ["%%MatrixMarket matrix coordinate complex hermitian\n2 2 1\n2 1 1 -1\n", 2, 1],
  "dense.mtx": ["%%MatrixMarket matrix array real general\n2 2\n1\n2\n0\n1\n", 2, 1],
  "empty-rows.mtx": ["%%MatrixMarket matrix coordinate integer skew-symmetric\n5 5 1\n4 2 3\n", 5, 1],
};
test("matrices of few rows", async () => {
  for (const [name, [content, n, lnz]] of Object.entries(SMALL)) {
    const path = join(folder, name);
    writeFileSync(path, content);
    await ending(() => browser.give("#file", path));
    assert.equal(await browser.value("document.getElementById('fault').hidden"), true, name);
    await settled();
    const told = await figures();
    assert.deepEqual([told.amd.lnz, told.amd.memory, told.natural.lnz, told.reversed.lnz], [lnz, n + lnz, lnz, lnz], name);
    if (COMMAND && n > 0) compareWithCommand(told, path);
    assert.equal((await downloaded("mtx")).trim().split("\n").length, 2 + n, name);
    if (n > 1) await step(n - 1);
  }
});

test("a file that is really dropped", async () => {
  await pick("arrow");
  const content = "%%MatrixMarket matrix coordinate pattern general\n3 3 2\n2 1\n3 2\n";
  await ending(() => browser.value(`(() => {
    const data = new DataTransfer();
    data.items.add(new File([${JSON.stringify(content)}], "dropped.mtx"));
    for (const type of ["dragenter", "dragover", "drop"]) {
      document.body.dispatchEvent(new DragEvent(type, { dataTransfer: data, bubbles: true, cancelable: true }));
    }
  })()`));
  assert.match(await text("#message"), /^dropped\.mtx: 3 rows/);
  assert.equal((await figures()).amd.lnz, 2);
});

test("by the keyboard alone", async () => {
  await pick("arrow");
  await browser.value("document.activeElement.blur()");
  await browser.value("getSelection().removeAllRanges()");
  await browser.open(url, downloads);
  const met = [];
  const name = `(({ id, className, dataset, tagName }) =>
    id || dataset.key || dataset.format || className.split(" ")[0] || tagName)(document.activeElement)`;
  for (let k = 0; k < 60; k++) {
    await browser.press("Tab");
    const now = await browser.value(name);
    met.push(now);
    if (now === "cube") {
      await ending(() => browser.press("Enter"));
      await settled();
    }
    if (now === "tab-c") {
      await browser.press("ArrowRight");
      await browser.until("document.activeElement.id === 'tab-rust' && document.getElementById('code').textContent.includes('amd::order')");
    }
    if (now === "to-contracts") break;
  }
  const wanted = ["file", "arrow", "cube", "million", "left", "plot", "right", "plot", "fill", "closer", "farther", "whole", "dense", "aggressive",
    "hold", "step", "text", "mtx", "python", "julia", "tab-c", "code", "to-contracts"];
  for (const [k, it] of wanted.entries()) assert.ok(met.includes(it), `${it} (${k}) is not met: ${met}`);
  await browser.press("Enter");
  await browser.until("document.getElementById('contracts').open");
  assert.match(await text("#contracts"), /rimopaku_order_within_i32[^]*ensures[^]*OrdersWithin[^]*ColumnsWithin[^]*CountsWithin/);
});

test("what a screen reader is told has names", { skip: isFirefox && "Marionette tells no tree of accessibility" }, async () => {
  await pick("cube");
  await step(5);
  const parts = await browser.parts();
  const named = ["button", "combobox", "checkbox", "slider", "textbox", "spinbutton", "image", "img", "tab", "tabpanel", "table",
    "progressbar", "region"];
  assert.deepEqual(parts.filter(({ role, name }) => named.includes(role) && name === ""), []);
  const names = parts.map(({ role, name }) => `${role}: ${name}`);
  for (const it of ["combobox: Left", "combobox: Right", "slider: Step", "checkbox: Show the fill", "button: Zoom in", "tab: Rust"]) {
    assert.ok(names.includes(it), `${it} in ${names.join("; ")}`);
  }
  assert.ok(parts.some(({ role, name }) => /^im(g|age)$/.test(role) && /^AMD: the pattern of Cube/.test(name)));
  assert.ok(parts.some(({ role, name }) => /^im(g|age)$/.test(role) && /^Elimination tree: [\d,]+ leaves/.test(name)));
  await click("#step-off");
});

test("on a phone", { skip: isFirefox && "Firefox's window is no phone" }, async () => {
  for (const width of [320, 390]) {
    await browser.look({ width, height: 800, mobile: true });
    await pick("cube");
    assert.ok((await browser.value("document.documentElement.scrollWidth")) <= width, `wider than ${width}`);
    // One finger on the whole matrix scrolls the page; two zoom; and then one drags.
    const at = await placesIn(".plot");
    const top = () => browser.value("scrollY");
    const before = await top();
    await browser.touch([[at(0.5, 0.6)], [at(0.5, 0.5)], [at(0.5, 0.4)], [at(0.5, 0.2)]]);
    await browser.until(`scrollY > ${before}`);
    await pause(1500); // the page still glides
    const there = await placesIn(".plot");
    await browser.touch([
      ...[0.05, 0.1, 0.2, 0.3].map((apart) => [there(0.5 - apart, 0.5), there(0.5 + apart, 0.5)]),
    ]);
    await browser.until(`${shownRows(0)} < 1500 && ${shownRows(1)} === ${shownRows(0)}`);
    const [scrolled, seen] = [await top(), await counts(1)];
    await browser.touch([[there(0.6, 0.6)], [there(0.5, 0.5)], [there(0.3, 0.3)]]);
    await browser.until(`Number(document.querySelectorAll(".plot")[1].dataset.fill) !== ${seen.fill}`);
    assert.equal(await top(), scrolled);
  }
  await browser.lookAsBefore();
});

test("the looks, light, dark and on a phone", { skip: !SHOTS }, async () => {
  await pick("cube");
  await shoot("light", 1280, 1000);
  if (isFirefox) return shoot("dark", 1280, 1000, { dark: true });
  // What the README shows.
  await shoot("page", 1280, 1000, { clip: { x: 0, y: 0, width: 1265, height: 1020, scale: 1 } });
  await shoot("dark", 1280, 1000, { dark: true });
  await shoot("phone", 390, 844, { mobile: true });
  await shoot("phone-dark", 390, 844, { mobile: true, dark: true });
  await step(1200);
  await shoot("step", 1280, 1000);
  await shoot("step-dark", 1280, 1000, { dark: true });
  await shoot("step-phone", 390, 844, { mobile: true });
});

test("a task is cancelled, and another one follows", async () => {
  await click('#samples button[data-key="million"]');
  await browser.until("!document.getElementById('cancel').hidden");
  await pause(300);
  await click("#cancel");
  await browser.until("document.body.dataset.busy === 'false'");
  assert.match(await text("#message"), /^Cancelled/);
  assert.equal(await browser.value("document.getElementById('opened').hidden"), true);
  await pick("arrow");
  assert.equal((await figures()).amd.lnz, 99);
});

test("a million rows from a file", async (t) => {
  const path = fileOfSample("million");
  const started = Date.now();
  await browser.give("#file", path);
  await browser.until("document.getElementById('message').textContent.startsWith('million.mtx')", 120);
  await browser.until("document.body.dataset.busy === 'false'", 120);
  const numbers = Date.now() - started;
  await browser.until(`["natural 1000000", "amd 1000000"].every((it, k) => document.querySelectorAll(".plot")[k].dataset.shown === it)`, 120);
  const pictures = Date.now() - started;
  t.diagnostic(`the figures after ${numbers} ms, the pictures after ${pictures} ms; ${await text("#message")}`);
  await settled(120);
  const told = await figures();
  if (FIGURES) compare(told, expected(path));
  assert.equal((await counts(1)).entries, 4996000);
  assert.equal((await counts(1)).fill, 2 * told.amd.lnz - 3996000);
  // The factor of the natural order has 10^9 entries: it is drawn and not written.
  assert.deepEqual(await counts(0), { entries: 4996000, fill: 2 * told.natural.lnz - 3996000 });
  await shoot("million", 1280, 1000);
  const stepped = Date.now();
  await step(900000);
  t.diagnostic(`a step after ${Date.now() - stepped} ms`);
  assert.match(await text("#step-told"), /100,000 rows remain, with [\d,]+ entries below the diagonal, of which [\d,]+ are fill\.$/);
  await shoot("million-step", 1280, 1000);
  await set("#right", "natural");
  await settled();
  await step(500000);
  // The rows before it, and a clique of 1000 rows; the grid has 1998000 pairs.
  assert.match(await text("#step-told"), /whose front has 1,000 rows below it.*; 500,000 rows remain, with/);
  const at = await placesIn(".plot");
  await browser.move([at(0.5, 0.5), at(0.5, 0.502)]);
  await browser.until("document.getElementById('where').textContent.startsWith('Place 50')");
  const most = Number(process.env.MOST_MILLISECONDS ?? 5000);
  const time = isFirefox ? numbers : pictures;
  assert.ok(time <= most, `${time} ms are more than ${most}`);
});

const asked = async () => {
  await browser.note?.();
  return browser.requests.filter((it) => !/^(file|blob|data|about):/.test(it));
};

test("no request to any host, and no fault in the log", async () => {
  assert.deepEqual(await asked(), []);
  assert.deepEqual(browser.faults, []);
});

// It also shows that what a page asks for is noted.
test("the package in a page and in a worker of a browser", async () => {
  const server = await serve(RIMOPAKU_JS);
  try {
    await browser.open(server.url);
    for (const it of ["page", "worker"]) await browser.until(`document.documentElement.dataset.${it} === "0 3 2 4 1"`);
    const noted = await asked();
    for (const it of ["index.js", "calls.js", "worker.js"]) assert.ok(noted.includes(server.url + it), it);
  } finally {
    server.stop();
  }
});
