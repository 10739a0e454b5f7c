// Debian's Firefox by its protocol Marionette: messages of JSON over a plain socket, each with its length before it.
import { spawn } from "node:child_process";
import { existsSync, readFileSync, writeFileSync } from "node:fs";
import { connect } from "node:net";
import { join } from "node:path";
import { Browser, pause } from "./browser.mjs";

// A profile that asks no host of its own accord, downloads without a question, and picks a free port.
const SETTINGS = {
  "marionette.port": 0,
  "app.update.disabledForTesting": true,
  "browser.download.always_ask_before_handling_new_types": false,
  "browser.download.folderList": 2,
  "browser.download.alwaysOpenPanel": false,
  "browser.shell.checkDefaultBrowser": false,
  "datareporting.policy.dataSubmissionEnabled": false,
  "network.captive-portal-service.enabled": false,
  "network.connectivity-service.enabled": false,
  "remote.prefs.recommended": true,
};
const KEYS = { Tab: "\ue004", Enter: "\ue007", Home: "\ue011", ArrowLeft: "\ue012", ArrowRight: "\ue014" };
// Runs in the browser itself: notes what the page and its workers ask for, and which faults of the page are told.
const WATCH = `
  const noted = (window.rimopakuNoted ??= { requests: [], faults: [] });
  if (window.rimopakuWatches) return;
  window.rimopakuWatches = [];
  const watch = { observe(subject, topic) {
    if (topic === "http-on-modify-request") {
      const { URI, loadInfo } = subject.QueryInterface(Ci.nsIChannel);
      if (!loadInfo.triggeringPrincipal.isSystemPrincipal || /^127/.test(URI.host)) noted.requests.push(URI.spec);
    } else if (subject instanceof Ci.nsIScriptError && !(subject.flags & Ci.nsIScriptError.warningFlag)) {
      if (/^(file|blob):/.test(subject.sourceName)) noted.faults.push(subject.message);
    }
  } };
  window.rimopakuWatches.push(watch);
  Services.obs.addObserver(watch, "http-on-modify-request");
  Services.console.registerListener(watch);`;

export class Firefox extends Browser {
  static async start(program) {
    const browser = new Firefox();
    const lines = Object.entries(SETTINGS).map(([name, value]) => `user_pref(${JSON.stringify(name)}, ${JSON.stringify(value)});\n`);
    writeFileSync(join(browser.folder, "user.js"), lines.join(""));
    const flags = ["--headless", "--marionette", "--remote-allow-system-access", "--no-remote", "--width", "1280", "--height", "1100"];
    browser.process = spawn(program, [...flags, "--profile", browser.folder], { stdio: "ignore" });
    const told = join(browser.folder, "MarionetteActivePort");
    for (let k = 0; k < 600 && !existsSync(told); k++) await pause(100);
    browser.socket = connect(Number(readFileSync(told, "utf8")), "127.0.0.1");
    browser.waiting = Buffer.alloc(0);
    browser.socket.on("data", (data) => browser.receive(data));
    await browser.send("WebDriver:NewSession", { capabilities: { alwaysMatch: { acceptInsecureCerts: false } } });
    await browser.send("WebDriver:SetTimeouts", { script: 120000 });
    return browser;
  }

  receive(data) {
    this.waiting = Buffer.concat([this.waiting, data]);
    for (;;) {
      const at = this.waiting.indexOf(":");
      const end = at + 1 + Number(this.waiting.subarray(0, at));
      if (at < 0 || this.waiting.length < end) return;
      const message = JSON.parse(this.waiting.subarray(at + 1, end));
      this.waiting = this.waiting.subarray(end);
      // The first message is a greeting.
      if (Array.isArray(message)) this.answered(message[1], message[2], message[3]);
    }
  }

  send(command, parameters = {}) {
    const id = this.next++;
    const text = JSON.stringify([0, id, command, parameters]);
    this.socket.write(`${Buffer.byteLength(text)}:${text}`);
    return this.answer(id);
  }

  /** Runs a script in the browser itself, not in the page. */
  async inside(script, args = []) {
    await this.send("Marionette:SetContext", { value: "chrome" });
    try {
      return (await this.send("WebDriver:ExecuteScript", { script, args })).value;
    } finally {
      await this.send("Marionette:SetContext", { value: "content" });
    }
  }

  async open(url, downloads) {
    await this.inside(WATCH);
    if (downloads) await this.inside('Services.prefs.setStringPref("browser.download.dir", arguments[0]);', [downloads]);
    await this.send("WebDriver:Navigate", { url });
    await this.until("document.readyState === 'complete'");
  }

  async value(expression) {
    const script = `return (${expression});`;
    return (await this.send("WebDriver:ExecuteScript", { script, args: [], sandbox: null })).value;
  }

  async give(selector, path) {
    const { value } = await this.send("WebDriver:FindElement", { using: "css selector", value: selector });
    await this.send("WebDriver:ElementSendKeys", { id: Object.values(value)[0], text: path });
  }

  async act(type, actions, parameters) {
    await this.send("WebDriver:PerformActions", { actions: [{ type, id: type, actions, ...(parameters ? { parameters } : {}) }] });
  }

  async move(places, isDragging = false) {
    const moves = places.map(([x, y]) => ({ type: "pointerMove", duration: 0, x: Math.round(x), y: Math.round(y) }));
    const [down, up] = [{ type: "pointerDown", button: 0 }, { type: "pointerUp", button: 0 }];
    await this.act("pointer", isDragging ? [moves[0], down, ...moves.slice(1), up] : moves, { pointerType: "mouse" });
  }

  async wheel([x, y], deltaY) {
    await this.act("wheel", [{ type: "scroll", x: Math.round(x), y: Math.round(y), deltaX: 0, deltaY }]);
  }

  async press(key) {
    const value = KEYS[key] ?? key;
    await this.act("key", [{ type: "keyDown", value }, { type: "keyUp", value }]);
  }

  async look({ width, height, dark = false }) {
    await this.inside('Services.prefs.setIntPref("layout.css.prefers-color-scheme.content-override", arguments[0]);', [dark ? 0 : 1]);
    await this.send("WebDriver:SetWindowRect", { width, height: Math.min(height, 1100) });
  }

  async lookAsBefore() {
    await this.look({ width: 1280, height: 1100 });
  }

  async picture() {
    const { value } = await this.send("WebDriver:TakeScreenshot", { full: true });
    return Buffer.from(value, "base64");
  }

  /** Takes over what was noted inside. */
  async note() {
    const { requests, faults } = await this.inside("return window.rimopakuNoted;");
    Object.assign(this, { requests, faults });
  }

  async stop() {
    await this.send("Marionette:Quit", { flags: ["eForceQuit"] }).catch(() => {});
    await super.stop();
  }
}
