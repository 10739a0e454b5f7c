// What the tests ask of a browser, whichever it is: one page, what it logs, and what it asks hosts for.
import { mkdtempSync, rmSync } from "node:fs";
import { tmpdir } from "node:os";
import { join } from "node:path";

export const pause = (milliseconds) => new Promise((resolve) => setTimeout(resolve, milliseconds));

/** A browser that `start` of chromium.mjs or firefox.mjs began. It has `value(expression)` of the page beside these. */
export class Browser {
  constructor() {
    this.folder = mkdtempSync(join(tmpdir(), "rimopaku-page-"));
    Object.assign(this, { next: 1, pending: new Map(), requests: [], faults: [] });
  }

  async until(expression, seconds = 60) {
    const end = Date.now() + 1000 * seconds;
    while (Date.now() < end) {
      if (await this.value(`Boolean(${expression})`)) return;
      await pause(50);
    }
    throw new Error(`after ${seconds} s it is not so: ${expression}`);
  }

  /** A promise for the answer to a message with this number. */
  answer(id) {
    return new Promise((resolve, reject) => this.pending.set(id, { resolve, reject }));
  }

  answered(id, error, result) {
    const { resolve, reject } = this.pending.get(id);
    this.pending.delete(id);
    if (error) reject(new Error(error.message));
    else resolve(result);
  }

  async stop() {
    if (this.socket.close) this.socket.close();
    else this.socket.destroy();
    this.process.kill();
    await new Promise((resolve) => this.process.on("exit", resolve));
    // Its other processes may still write there for a moment.
    rmSync(this.folder, { recursive: true, force: true, maxRetries: 20, retryDelay: 100 });
  }
}
