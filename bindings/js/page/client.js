// The worker as seen from the page: a promise for each task. Cancelling ends the worker, and a new one begins with nothing open.

/** What a task that was cancelled ends with. */
export class Cancelled extends Error {}

export class Client {
  constructor(source, tellProgress) {
    this.url = URL.createObjectURL(new Blob([source], { type: "text/javascript" }));
    this.tellProgress = tellProgress;
    this.next = 0;
    this.start();
  }

  start() {
    this.pending = new Map();
    this.worker = new Worker(this.url);
    this.worker.onmessage = ({ data }) => this.receive(data);
    this.worker.onerror = (event) => {
      for (const { reject } of this.pending.values()) reject(new Error(event.message || "the worker ended"));
      this.pending.clear();
    };
  }

  receive({ id, kind, ...told }) {
    const waiting = this.pending.get(id);
    if (!waiting) return;
    if (kind === "progress") {
      this.tellProgress(told.stage, told.part);
      return;
    }
    this.pending.delete(id);
    if (kind === "done") waiting.resolve(told.result);
    else waiting.reject(Object.assign(new Error(told.text), { line: told.line }));
  }

  ask(task, given = {}) {
    const id = this.next++;
    return new Promise((resolve, reject) => {
      this.pending.set(id, { resolve, reject });
      this.worker.postMessage({ id, task, ...given });
    });
  }

  cancel() {
    this.worker.terminate();
    for (const { reject } of this.pending.values()) reject(new Cancelled());
    this.start();
  }
}
