// The page: what a person picks goes to the worker, and what comes back is shown.
import { CODE, fileOfPermutation, rowsOf } from "./code.js";
import { Cancelled, Client } from "./client.js";
import { fillBars, fillTable, shown } from "./figures.js";
import { SAMPLES } from "./samples.js";
import { View, fitted } from "./view.js";

const part = (id) => document.getElementById(id);
const NAMES = { natural: "Natural order", reversed: "Reversed order", amd: "AMD", own: "Your permutation" };
const WORDS = { diagonal: "on the diagonal", entry: "an entry", fill: "fill", later: "fill of a later step", empty: "empty" };

const page = { summary: undefined, options: undefined, isStepping: false, language: "c", turn: 0 };

const client = new Client(part("worker").textContent, (stage, done) => {
  if (document.body.dataset.busy !== "true") return; // nobody waits for it
  part("message").textContent = `${stage[0].toUpperCase()}${stage.slice(1)} ...`;
  part("progress").value = done;
});
const view = new View(
  [...document.querySelectorAll("#pictures .frame")],
  (key, box, side, step) => client.ask("draw", { key, box, side, step }),
  (place) => tellPlace(place),
  (fault) => fault instanceof Cancelled || blameFault(fault),
);

const say = (text) => (part("message").textContent = text);

function busy(is) {
  part("progress").hidden = part("cancel").hidden = !is;
  document.body.dataset.busy = String(is);
}

function blame(text) {
  part("fault").textContent = text ?? "";
  part("fault").hidden = text === undefined;
}

const blameFault = (fault) => blame(`${fault.message[0].toUpperCase()}${fault.message.slice(1)}.`);

/** Runs a task that a person began; what it ends with is told. */
async function run(work) {
  const turn = ++page.turn;
  blame(undefined);
  busy(true);
  try {
    await work();
  } catch (fault) {
    if (!(fault instanceof Cancelled)) {
      blameFault(fault);
      say(page.summary && !part("opened").hidden ? "The matrix of before is still open." : "Choose a file or a sample.");
    }
  } finally {
    if (turn === page.turn) busy(false);
    document.body.dataset.ended = turn;
  }
}

function chosenOptions(n) {
  const dense = Number(part("dense").value);
  const hold = rowsOf(part("hold").value, n);
  if (part("dense").value.trim() === "" || Number.isNaN(dense)) throw new Error("the parameter for dense rows is no number");
  if (hold === undefined) throw new Error(`the rows held last are to be numbers from 0 to ${n - 1}, as in 0-9, 40`);
  return { dense, aggressive: part("aggressive").checked, hold };
}

/** Asks for the order with the chosen parameters. */
async function order() {
  const options = chosenOptions(page.summary.n);
  const { figures, milliseconds, thousandths } = await client.ask("order", { options });
  page.options = { ...options, thousandths };
  page.summary.orders.amd = figures;
  page.summary.pairs = figures.info.nzAPlusAt;
  view.panels.forEach((panel) => panel.key === "amd" && (panel.shown = undefined));
  const { n, name } = page.summary;
  return `${name}: ${shown(n)} rows, ordered in ${milliseconds < 10 ? milliseconds.toFixed(1) : Math.round(milliseconds)} ms.`;
}

async function orderAgain() {
  const told = await order();
  showAll();
  say(told);
}

/** The first order of a matrix, beside the natural one. The reversed order is counted when these are shown. */
async function firstOrder() {
  const told = await order();
  const { summary } = page;
  summary.orders.natural = await client.ask("count", { key: "natural" });
  part("opened").hidden = false;
  fillChoices();
  [part("left").value, part("right").value] = ["natural", "amd"];
  view.open(summary.n, ["natural", "amd"]);
  showAll();
  say(told);
  client.ask("count", { key: "reversed" }).then((figures) => {
    if (summary !== page.summary) return;
    summary.orders.reversed = figures;
    fillChoices();
    showFigures();
  }, () => {});
}

/** Goes back to the first step, and to pictures of the whole factor. */
function stepOff() {
  page.isStepping = false;
  part("step").value = 0;
  part("step-off").hidden = true;
  view.mark(undefined);
}

function opened(name, told) {
  view.close();
  page.summary = { name, ...told, orders: {} };
  stepOff();
  part("hold").value = "";
  part("opened").hidden = true;
}

function showOwn(figures) {
  stepOff();
  page.summary.orders.own = figures;
  fillChoices();
  part("right").value = "own";
  view.panels[1].key = "own";
  view.panels[1].shown = undefined;
  showAll();
  say("Your permutation is on the right.");
}

const openFile = (file) => run(async () => {
  say("Reading ...");
  const told = await client.ask("open", { file });
  press(undefined);
  if (told.own) return showOwn(told.own);
  opened(file.name, told.summary);
  await firstOrder();
});

const openSample = (sample) => run(async () => {
  press(sample.key);
  const told = await client.ask("sample", { key: sample.key });
  opened(sample.name, told.summary);
  await firstOrder();
});

function press(key) {
  for (const button of part("samples").children) button.setAttribute("aria-pressed", String(button.dataset.key === key));
}

/** The orders that can be shown on either side. */
function fillChoices() {
  for (const select of [part("left"), part("right")]) {
    const before = select.value;
    const keys = Object.keys(NAMES).filter((key) => key in page.summary.orders);
    select.replaceChildren(...keys.map((key) => new Option(NAMES[key], key)));
    if (keys.includes(before)) select.value = before;
  }
}

function showFigures() {
  fillTable(part("numbers"), page.summary);
  fillBars(part("bars"), page.summary);
}

function showAll() {
  fillChoices();
  showFigures();
  showPanels();
  showCode();
  showTree();
  part("step").max = Math.max(page.summary.n - 1, 0);
  showStep();
}

function showPanels() {
  [part("left"), part("right")].forEach((select, k) => {
    const figures = page.summary.orders[select.value];
    view.panels[k].key = select.value;
    const note = `${shown(figures.lnz)} entries`;
    document.querySelector(`.note[data-panel="${k}"]`).textContent = note;
    view.panels[k].plot.setAttribute("aria-label", `${NAMES[select.value]}: the pattern of ${page.summary.name} and ${note} of its factor`);
  });
  view.refresh();
}

/** What is under the pointer, in both orders. */
async function tellPlace(place) {
  if (!place) return;
  const keys = view.panels.map((panel) => panel.key);
  const asked = (page.asked = {});
  try {
    const told = await client.ask("at", { keys, step: view.marks?.place, ...place });
    if (asked !== page.asked) return;
    const sides = told.map(({ kind, row, column }, k) => `${k === 0 ? "left" : "right"} ${WORDS[kind]} (row ${row}, column ${column} of the file)`);
    part("where").textContent = `Place ${place.row}, ${place.column}: ${sides.join("; ")}.`;
  } catch {
    // The task was cancelled; nothing is to be told.
  }
}

async function showTree() {
  const canvas = part("tree");
  const { width, height, context } = fitted(canvas);
  const key = part("right").value;
  const margin = 8;
  const tree = await client.ask("tree", { key, width: width - 2 * margin, height: height - 2 * margin }).catch(() => undefined);
  if (!tree || key !== part("right").value) return;
  page.tree = { ...tree, margin };
  const style = getComputedStyle(document.documentElement);
  context.clearRect(0, 0, width, height);
  canvas.setAttribute("aria-label", `Elimination tree: ${shown(tree.leaves)} leaves, ${shown(tree.depth)} levels`);
  canvas.dataset.depth = tree.depth;
  canvas.dataset.leaves = tree.leaves;
  const [atX, atY] = [(x) => margin + x * (width - 2 * margin - 1), (y) => margin + y * (height - 2 * margin - 1)];
  context.strokeStyle = context.fillStyle = style.getPropertyValue("--ink").trim();
  if (tree.pixels) {
    drawPixels(context, tree.pixels, width - 2 * margin, height - 2 * margin, margin);
  } else {
    context.globalAlpha = 0.6;
    context.beginPath();
    tree.parent.forEach((above, k) => {
      if (above < 0) return;
      context.moveTo(atX(tree.x[k]), atY(tree.y[k]));
      context.lineTo(atX(tree.x[above]), atY(tree.y[above]));
    });
    context.stroke();
    context.globalAlpha = 1;
    const radius = radiusIn(tree);
    for (let k = 0; k < tree.x.length; k++) {
      context.beginPath();
      context.arc(atX(tree.x[k]), atY(tree.y[k]), radius, 0, 7);
      context.fill();
    }
  }
  showStep();
}

const radiusIn = (tree) => (tree.x.length < 300 ? 3 : 1.5);

function drawPixels(context, pixels, width, height, margin) {
  const most = Math.log1p(pixels.reduce((a, b) => Math.max(a, b), 1));
  for (let y = 0; y < height; y++) {
    for (let x = 0; x < width; x++) {
      const count = pixels[y * width + x];
      if (count === 0) continue;
      context.globalAlpha = 0.25 + (0.75 * Math.log1p(count)) / most;
      context.fillRect(margin + x, margin + y, 1, 1);
    }
  }
  context.globalAlpha = 1;
}

/** The path of the step's row to its root, over the tree, where the rows of the steps before it are pale if it is small. */
function drawPath(path, eliminated) {
  const { width, height, context } = fitted(part("tree-over"));
  context.clearRect(0, 0, width, height);
  const { tree } = page;
  if (!tree || !(path[0] < tree.x.length)) return;
  const [atX, atY] = [(x) => tree.margin + x * (width - 2 * tree.margin - 1), (y) => tree.margin + y * (height - 2 * tree.margin - 1)];
  const style = getComputedStyle(document.documentElement);
  context.fillStyle = style.getPropertyValue("--line").trim();
  for (let k = 0; k < (tree.pixels ? 0 : eliminated); k++) {
    context.beginPath();
    context.arc(atX(tree.x[k]), atY(tree.y[k]), radiusIn(tree) + 0.5, 0, 7);
    context.fill();
  }
  context.strokeStyle = context.fillStyle = style.getPropertyValue("--front").trim();
  context.lineWidth = 2;
  context.beginPath();
  path.forEach((node, k) => context[k === 0 ? "moveTo" : "lineTo"](atX(tree.x[node]), atY(tree.y[node])));
  context.stroke();
  context.beginPath();
  context.arc(atX(tree.x[path[0]]), atY(tree.y[path[0]]), 4, 0, 7);
  context.fill();
}

const percent = (some, all) => `${all === 0 ? 100 : ((100 * some) / all).toFixed(1)}%`;

/** Tells the step of the slider. One question at a time: where the slider moves meanwhile, it is asked again at the end. */
async function showStep() {
  const { summary } = page;
  if (summary.n === 0 || page.isAskingStep) return;
  page.isAskingStep = true;
  const [place, key] = [Number(part("step").value), part("right").value];
  const wanted = { place, key, isShown: page.isStepping };
  const told = await client.ask("step", wanted).catch(() => undefined);
  page.isAskingStep = false;
  if (summary !== page.summary) return page.summary && showStep();
  if (place !== Number(part("step").value) || key !== part("right").value || wanted.isShown !== page.isStepping) return showStep();
  if (told) tellStep(told, wanted);
}

function tellStep(told, { place, key, isShown }) {
  const { n, orders } = page.summary;
  part("step-off").hidden = !isShown;
  // The pictures show the whole factor until the slider is used.
  view.mark(isShown ? { place, front: told.front } : undefined);
  drawPath(told.path, isShown ? place : 0);
  const { lnz, nMultSubsLdl } = orders[key];
  const rows = told.size === 1 ? "1 row" : `${shown(told.size)} rows`;
  const then = told.parent < 0 ? "It is a root of the tree." : `Its parent is step ${told.parent}.`;
  part("step-told").textContent = `Step ${place} of ${shown(n)}: row ${told.row} of the file, whose front has ${rows} below it. ${then} `
    + `Behind it are ${percent(place, n)} of the rows, ${percent(told.entries, lnz)} of the entries and ${percent(told.work, nMultSubsLdl)} `
    + `of the multiply-subtracts; ${shown(n - place)} rows remain${remainingIn(told, isShown)}.`;
}

/** What remains at a step, in words. */
function remainingIn({ remaining }, isShown) {
  if (!isShown) return "";
  if (!remaining) return ", whose entries are too many to draw";
  return `, with ${shown(remaining.entries)} entries below the diagonal, of which ${shown(remaining.fill)} are fill`;
}

function showCode() {
  if (page.options) part("code").textContent = CODE[page.language](page.options);
}

async function download(format) {
  const { p } = await client.ask("permutation", { key: part("right").value });
  const { name, blob } = fileOfPermutation(p, format);
  const link = Object.assign(document.createElement("a"), { href: URL.createObjectURL(blob), download: name });
  link.click();
  setTimeout(() => URL.revokeObjectURL(link.href), 10000);
}

/** Everything that a person can press. */
function listen() {
  part("file").addEventListener("change", () => {
    const [file] = part("file").files;
    if (file) openFile(file);
    part("file").value = "";
  });
  const drop = part("drop");
  for (const name of ["dragover", "dragenter"]) {
    document.addEventListener(name, (event) => {
      event.preventDefault();
      drop.classList.add("over");
    });
  }
  document.addEventListener("dragleave", () => drop.classList.remove("over"));
  document.addEventListener("drop", (event) => {
    event.preventDefault();
    drop.classList.remove("over");
    const [file] = event.dataTransfer.files;
    if (file) openFile(file);
  });
  for (const sample of SAMPLES) {
    const button = Object.assign(document.createElement("button"), { type: "button", textContent: sample.name, title: sample.about });
    button.dataset.key = sample.key;
    button.setAttribute("aria-pressed", "false");
    button.addEventListener("click", () => openSample(sample));
    part("samples").append(button);
  }
  part("cancel").addEventListener("click", () => {
    client.cancel();
    page.summary = undefined;
    part("opened").hidden = true;
    press(undefined);
    say("Cancelled. Choose a file or a sample.");
  });
  for (const id of ["left", "right"]) {
    part(id).addEventListener("change", () => {
      stepOff();
      showAll();
    });
  }
  part("closer").addEventListener("click", () => view.zoom(0.5));
  part("farther").addEventListener("click", () => view.zoom(2));
  part("whole").addEventListener("click", () => view.whole());
  part("fill").addEventListener("change", () => {
    view.withFill = part("fill").checked;
    view.repaint();
  });
  part("parameters").addEventListener("submit", (event) => event.preventDefault());
  part("parameters").addEventListener("change", () => page.summary && run(orderAgain));
  part("step").addEventListener("input", () => {
    page.isStepping = true;
    showStep();
  });
  part("step-off").addEventListener("click", () => {
    stepOff();
    part("step").focus();
    showStep();
  });
  for (const button of document.querySelectorAll("[data-format]")) button.addEventListener("click", () => download(button.dataset.format));
  listenToTabs();
  part("to-contracts").addEventListener("click", () => (part("contracts").open = true));
  matchMedia("(prefers-color-scheme: dark)").addEventListener("change", () => {
    view.repaint();
    if (page.summary) showTree();
  });
  addEventListener("resize", () => page.summary && showTree());
}

function listenToTabs() {
  const tabs = [...document.querySelectorAll("[role=tab]")];
  const choose = (tab) => {
    for (const other of tabs) {
      other.setAttribute("aria-selected", String(other === tab));
      other.tabIndex = other === tab ? 0 : -1;
    }
    part("code").setAttribute("aria-labelledby", tab.id);
    page.language = tab.id.replace("tab-", "");
    showCode();
  };
  tabs.forEach((tab, k) => {
    tab.addEventListener("click", () => choose(tab));
    tab.addEventListener("keydown", (event) => {
      const step = { ArrowRight: 1, ArrowLeft: -1 }[event.key];
      if (!step) return;
      const other = tabs[(k + step + tabs.length) % tabs.length];
      other.focus();
      choose(other);
    });
  });
}

listen();
