// Debian's chromium by its debugging protocol, over the WebSocket that Node has.
import { spawn } from "node:child_process";
import { existsSync, readFileSync } from "node:fs";
import { join } from "node:path";
import { Browser, pause } from "./browser.mjs";

const FLAGS = ["--headless=new", "--no-sandbox", "--disable-gpu", "--no-first-run", "--disable-background-networking",
  "--disable-component-update", "--disable-sync", "--disable-dev-shm-usage", "--remote-debugging-port=0", "--window-size=1280,1000"];
// Keys that the tests press: the code of the key, and what it types.
const KEYS = { Tab: [9], Enter: [13, "\r"], ArrowLeft: [37], ArrowRight: [39], "+": [187, "+"], 0: [48, "0"] };

export class Chromium extends Browser {
  static async start(program) {
    const browser = new Chromium();
    browser.process = spawn(program, [...FLAGS, `--user-data-dir=${browser.folder}`, "about:blank"], { stdio: "ignore" });
    const told = join(browser.folder, "DevToolsActivePort");
    for (let k = 0; k < 300 && !existsSync(told); k++) await pause(100);
    const [port, path] = readFileSync(told, "utf8").split("\n");
    browser.socket = new WebSocket(`ws://127.0.0.1:${port}${path}`);
    await new Promise((resolve, reject) => Object.assign(browser.socket, { onopen: resolve, onerror: reject }));
    browser.socket.onmessage = ({ data }) => browser.receive(JSON.parse(data));
    return browser;
  }

  receive({ id, method, params, error, result }) {
    if (id) {
      this.answered(id, error, result);
    } else if (method === "Network.requestWillBeSent") {
      this.requests.push(params.request.url);
    } else if (method === "Runtime.exceptionThrown") {
      this.faults.push(params.exceptionDetails.exception?.description ?? params.exceptionDetails.text);
    } else if (method === "Log.entryAdded" && params.entry.level === "error") {
      this.faults.push(params.entry.text);
    } else if (method === "Target.attachedToTarget") {
      // A worker of the page: what it asks for is noted too.
      for (const it of ["Network.enable", "Runtime.enable"]) this.send(it, {}, params.sessionId).catch(() => {});
    }
  }

  send(method, params = {}, sessionId = this.session) {
    const id = this.next++;
    this.socket.send(JSON.stringify({ id, method, params, ...(sessionId ? { sessionId } : {}) }));
    return this.answer(id);
  }

  /** Opens a page anew; `downloads` is where its files go. */
  async open(url, downloads) {
    this.session = undefined;
    const { targetId } = await this.send("Target.createTarget", { url: "about:blank" });
    const { sessionId } = await this.send("Target.attachToTarget", { targetId, flatten: true });
    if (downloads) await this.send("Browser.setDownloadBehavior", { behavior: "allow", downloadPath: downloads });
    this.session = sessionId;
    for (const domain of ["Page", "Runtime", "Network", "DOM", "Log", "Accessibility"]) await this.send(`${domain}.enable`);
    await this.send("Target.setAutoAttach", { autoAttach: true, waitForDebuggerOnStart: false, flatten: true });
    await this.send("Page.navigate", { url });
    await this.until("document.readyState === 'complete'");
  }

  async value(expression) {
    const { result, exceptionDetails } = await this.send("Runtime.evaluate", { expression, returnByValue: true, awaitPromise: true });
    if (exceptionDetails) throw new Error(exceptionDetails.exception?.description ?? exceptionDetails.text);
    return result.value;
  }

  /** Hands a file to an input, as a person who chooses it. */
  async give(selector, path) {
    const { root } = await this.send("DOM.getDocument");
    const { nodeId } = await this.send("DOM.querySelector", { nodeId: root.nodeId, selector });
    await this.send("DOM.setFileInputFiles", { nodeId, files: [path] });
  }

  /** Moves the mouse along places of the window, with its button down if it drags. */
  async move(places, isDragging = false) {
    const event = (type, [x, y], more = {}) => this.send("Input.dispatchMouseEvent", { type, x, y, ...more });
    const held = { button: "left", buttons: 1, clickCount: 1 };
    if (isDragging) await event("mousePressed", places[0], held);
    for (const place of places) await event("mouseMoved", place, isDragging ? { buttons: 1, button: "left" } : {});
    if (isDragging) await event("mouseReleased", places.at(-1), held);
  }

  async wheel([x, y], deltaY) {
    await this.send("Input.dispatchMouseEvent", { type: "mouseWheel", x, y, deltaX: 0, deltaY });
  }

  /** Fingers that begin, move and leave: a list of places for each moment. */
  async touch(moments) {
    const points = (places) => ({ touchPoints: places.map(([x, y], id) => ({ x, y, id })) });
    await this.send("Input.dispatchTouchEvent", { type: "touchStart", ...points(moments[0]) });
    for (const places of moments.slice(1)) await this.send("Input.dispatchTouchEvent", { type: "touchMove", ...points(places) });
    await this.send("Input.dispatchTouchEvent", { type: "touchEnd", touchPoints: [] });
  }

  async press(key) {
    const [windowsVirtualKeyCode, text] = KEYS[key];
    const told = { key, windowsVirtualKeyCode, ...(text ? { text } : {}) };
    await this.send("Input.dispatchKeyEvent", { type: text ? "keyDown" : "rawKeyDown", ...told });
    await this.send("Input.dispatchKeyEvent", { type: "keyUp", key, windowsVirtualKeyCode });
  }

  /** The looks of the page: how wide and high it is, dark or light, on a phone or not. */
  async look({ width, height, dark = false, mobile = false }) {
    await this.send("Emulation.setDeviceMetricsOverride", { width, height, deviceScaleFactor: mobile ? 2 : 1, mobile });
    await this.send("Emulation.setTouchEmulationEnabled", { enabled: mobile });
    await this.send("Emulation.setEmulatedMedia", { features: [{ name: "prefers-color-scheme", value: dark ? "dark" : "light" }] });
  }

  async lookAsBefore() {
    await this.send("Emulation.clearDeviceMetricsOverride");
    await this.send("Emulation.setTouchEmulationEnabled", { enabled: false });
    await this.send("Emulation.setEmulatedMedia", { features: [] });
  }

  /** What a screen reader is told of the page: the role and the name of each part. */
  async parts() {
    const { nodes } = await this.send("Accessibility.getFullAXTree");
    return nodes.filter((node) => !node.ignored).map(({ role, name }) => ({ role: role?.value, name: name?.value ?? "" }));
  }

  async picture(clip) {
    const { data } = await this.send("Page.captureScreenshot", { format: "png", clip });
    return Buffer.from(data, "base64");
  }
}
