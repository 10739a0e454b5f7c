// Two pictures of one part of the matrix, side by side: each in its own order. They are moved together.

/** A colour of the page's style as red, green and blue. */
function channels(name) {
  const probe = document.createElement("canvas").getContext("2d");
  probe.fillStyle = getComputedStyle(document.documentElement).getPropertyValue(name).trim();
  const number = parseInt(probe.fillStyle.slice(1), 16);
  return [(number >> 16) & 255, (number >> 8) & 255, number & 255];
}

/** The counts of pixels as a picture: more entries make a pixel darker, and the share of fill gives its colour. */
function painted({ entries, fill }, side, withFill) {
  const image = new ImageData(side, side);
  const [ink, warm] = [channels("--ink"), channels("--fill")];
  let most = 1;
  for (let k = 0; k < entries.length; k++) most = Math.max(most, entries[k] + (withFill ? fill[k] : 0));
  const scale = 1 / Math.log1p(most);
  for (let k = 0; k < entries.length; k++) {
    const filled = withFill ? fill[k] : 0;
    const count = entries[k] + filled;
    if (count <= 0) continue;
    const share = filled / count;
    for (let c = 0; c < 3; c++) image.data[4 * k + c] = ink[c] + share * (warm[c] - ink[c]);
    image.data[4 * k + 3] = 255 * (most <= 1 ? 1 : 0.3 + 0.7 * Math.log1p(count) * scale);
  }
  const canvas = document.createElement("canvas");
  canvas.width = canvas.height = side;
  canvas.getContext("2d").putImageData(image, 0, 0);
  return canvas;
}

/** The pixels of a canvas on this screen. */
export function fitted(canvas) {
  const ratio = Math.min(window.devicePixelRatio || 1, 2);
  const box = canvas.getBoundingClientRect();
  const [width, height] = [Math.max(1, Math.round(box.width * ratio)), Math.max(1, Math.round(box.height * ratio))];
  if (canvas.width !== width || canvas.height !== height) Object.assign(canvas, { width, height });
  return { width, height, context: canvas.getContext("2d") };
}

export class View {
  /**
   * `ask(key, box, side, step)` answers with the counts of a box; `tellPlace(place)` is told the place under the pointer,
   * and `tellFault(fault)` why a picture is not drawn.
   */
  constructor(panels, ask, tellPlace, tellFault) {
    this.panels = panels.map((frame) => ({
      plot: frame.querySelector(".plot"), over: frame.querySelector(".over"), key: undefined, shown: undefined, isAsking: false,
    }));
    this.ask = ask;
    this.tellPlace = tellPlace;
    this.tellFault = tellFault;
    this.marks = undefined;
    this.withFill = true;
    for (const panel of this.panels) this.listen(panel.plot);
    const observer = new ResizeObserver(() => this.refresh());
    for (const panel of this.panels) observer.observe(panel.plot);
  }

  /** Shows a matrix with n rows, all of it. One without rows has empty pictures. */
  open(n, keys) {
    this.n = n;
    keys.forEach((key, k) => Object.assign(this.panels[k], { key, shown: undefined }));
    if (n === 0) for (const { key, plot } of this.panels) Object.assign(plot.dataset, { entries: 0, fill: 0, shown: `${key} 0`, step: "" });
    this.whole();
  }

  /** Shows no matrix. */
  close() {
    Object.assign(this, { n: 0, marks: undefined, pointed: undefined });
  }

  whole() {
    this.box = { left: 0, top: 0, size: Math.max(this.n, 1) };
    this.refresh();
  }

  moveTo(left, top, size) {
    const kept = Math.min(Math.max(size, Math.min(6, this.n)), this.n);
    const within = (start) => Math.min(Math.max(start, 0), this.n - kept);
    this.box = { left: within(left), top: within(top), size: kept };
    this.refresh();
  }

  /** Zooms about a place of the picture, both from 0 to 1. */
  zoom(factor, x = 0.5, y = 0.5) {
    const size = Math.min(Math.max(this.box.size * factor, Math.min(6, this.n)), this.n);
    this.moveTo(this.box.left + x * (this.box.size - size), this.box.top + y * (this.box.size - size), size);
  }

  pan(x, y) {
    this.moveTo(this.box.left + x * this.box.size, this.box.top + y * this.box.size, this.box.size);
  }

  /** Draws what is known at once, and asks for the rest. */
  refresh() {
    for (const panel of this.panels) {
      // A finger that drags the whole matrix would move nothing: so it scrolls the page.
      panel.plot.classList.toggle("whole", !this.n || this.box.size >= this.n);
      this.draw(panel);
      if (this.n) this.fetch(panel);
    }
  }

  // One question for each picture at a time: what moved meanwhile is asked for at its end.
  async fetch(panel) {
    if (panel.isAsking || !panel.key) return;
    const { width } = fitted(panel.plot);
    if (width < 2) return; // it is not shown, and its size is yet to come
    const { left, top, size } = this.box;
    // Where a row is wider than two pixels each place is a pixel of its own, and is drawn larger.
    const isNear = size * 2 <= width;
    const [x, y] = [Math.floor(left), Math.floor(top)];
    const count = Math.ceil(size) + 1;
    const asked = isNear ? { box: { left: x, top: y, size: count }, side: count } : { box: { left, top, size }, side: width };
    const step = this.stepOf(panel);
    const wanted = JSON.stringify([panel.key, asked, step]);
    if (panel.shown?.wanted === wanted) return;
    panel.isAsking = true;
    try {
      const counts = await this.ask(panel.key, asked.box, asked.side, step);
      panel.shown = { wanted, counts, key: panel.key, ...asked };
      panel.image = undefined;
      const sum = (list) => list.reduce((total, count) => total + count, 0);
      const told = { entries: sum(counts.entries), fill: sum(counts.fill), shown: `${panel.key} ${asked.box.size}`, step: step ?? "" };
      Object.assign(panel.plot.dataset, told);
    } catch (fault) {
      this.tellFault(fault); // that of a cancelled task too; the next one asks anew
      return;
    } finally {
      panel.isAsking = false;
    }
    this.draw(panel);
    this.fetch(panel);
  }

  /** Forgets the colours, as the style or the legend changed. */
  repaint() {
    for (const panel of this.panels) panel.image = undefined;
    this.refresh();
  }

  draw(panel) {
    const { width, height, context } = fitted(panel.plot);
    context.clearRect(0, 0, width, height);
    if (!panel.shown || panel.shown.key !== panel.key) return this.drawOver(panel);
    panel.image ??= painted(panel.shown.counts, panel.shown.side, this.withFill);
    const { box } = panel.shown;
    const scale = width / this.box.size;
    context.imageSmoothingEnabled = false;
    context.drawImage(panel.image, (box.left - this.box.left) * scale, (box.top - this.box.top) * scale, box.size * scale, box.size * scale);
    this.drawOver(panel);
  }

  /** The step of the elimination, and the place under the pointer. */
  drawOver(panel) {
    const { width, height, context } = fitted(panel.over);
    context.clearRect(0, 0, width, height);
    if (!this.n) return;
    const style = getComputedStyle(document.documentElement);
    const scale = width / this.box.size;
    const at = (place, start) => (place - start) * scale;
    if (this.marks && panel === this.panels[1]) {
      const { place, front } = this.marks;
      const [x, y] = [at(place, this.box.left), at(place, this.box.top)];
      const thick = Math.max(scale, 1.5);
      context.fillStyle = style.getPropertyValue("--shade");
      context.fillRect(0, 0, width, Math.max(y, 0));
      context.fillRect(0, Math.max(y, 0), Math.max(x, 0), height);
      context.fillStyle = style.getPropertyValue("--front");
      context.globalAlpha = 0.55;
      context.fillRect(x, y, thick, height);
      context.fillRect(x, y, width, thick);
      context.globalAlpha = 1;
      for (const row of front) {
        context.fillRect(x, at(row, this.box.top), thick, thick);
        context.fillRect(at(row, this.box.left), y, thick, thick);
        context.fillRect(width - 6, at(row, this.box.top), 6, thick);
      }
    }
    if (this.pointed) {
      context.fillStyle = style.getPropertyValue("--soft");
      context.globalAlpha = 0.5;
      context.fillRect(0, at(this.pointed.row + 0.5, this.box.top), width, 1);
      context.fillRect(at(this.pointed.column + 0.5, this.box.left), 0, 1, height);
      context.globalAlpha = 1;
    }
  }

  /** Shows a step of the elimination on the right, or the whole factor again. */
  mark(marks) {
    this.marks = marks;
    this.drawOver(this.panels[1]);
    if (this.n) this.fetch(this.panels[1]);
  }

  /** The step that a picture shows: the rows from it on have the fill of the rows before it alone. */
  stepOf(panel) {
    return panel === this.panels[1] ? this.marks?.place : undefined;
  }

  point(place) {
    this.pointed = place;
    for (const panel of this.panels) this.drawOver(panel);
    this.tellPlace(place);
  }

  /** Where an event is in its picture, from 0 to 1. */
  placeOf(event) {
    const box = event.currentTarget.getBoundingClientRect();
    return { x: (event.clientX - box.left) / box.width, y: (event.clientY - box.top) / box.height };
  }

  listen(plot) {
    const fingers = new Map();
    const keys = {
      ArrowLeft: () => this.pan(-0.1, 0), ArrowRight: () => this.pan(0.1, 0), ArrowUp: () => this.pan(0, -0.1), ArrowDown: () => this.pan(0, 0.1),
      "+": () => this.zoom(0.5), "=": () => this.zoom(0.5), "-": () => this.zoom(2), 0: () => this.whole(), Home: () => this.whole(),
    };
    plot.addEventListener("keydown", (event) => {
      const act = keys[event.key];
      if (!act || !this.n || event.ctrlKey || event.metaKey) return;
      event.preventDefault();
      act();
    });
    plot.addEventListener("wheel", (event) => {
      if (!this.n) return;
      event.preventDefault();
      const { x, y } = this.placeOf(event);
      this.zoom(2 ** (Math.max(-240, Math.min(240, event.deltaY)) / 240), x, y);
    }, { passive: false });
    plot.addEventListener("dblclick", (event) => {
      const { x, y } = this.placeOf(event);
      this.zoom(0.5, x, y);
    });
    plot.addEventListener("pointerdown", (event) => {
      plot.setPointerCapture(event.pointerId);
      fingers.set(event.pointerId, this.placeOf(event));
    });
    const lift = (event) => fingers.delete(event.pointerId);
    plot.addEventListener("pointerup", lift);
    plot.addEventListener("pointercancel", lift);
    plot.addEventListener("pointerleave", () => this.n && this.point(undefined));
    plot.addEventListener("pointermove", (event) => this.n && this.moved(fingers, event));
  }

  /** A pointer moved: it drags, two of them zoom, and else it points. */
  moved(fingers, event) {
    const here = this.placeOf(event);
    const before = fingers.get(event.pointerId);
    if (before && fingers.size === 2) {
      const [other] = [...fingers].filter(([id]) => id !== event.pointerId).map(([, place]) => place);
      const distance = (place) => Math.hypot(place.x - other.x, place.y - other.y) || 1e-3;
      this.zoom(distance(before) / distance(here), (here.x + other.x) / 2, (here.y + other.y) / 2);
    } else if (before) {
      this.pan(before.x - here.x, before.y - here.y);
    }
    if (before) fingers.set(event.pointerId, here);
    const inside = (at, start) => Math.min(Math.max(Math.floor(start + at * this.box.size), 0), this.n - 1);
    this.point({ row: inside(here.y, this.box.top), column: inside(here.x, this.box.left) });
  }
}
