// Serves the files of the package to a browser on this machine, and a page that calls them in itself and in a worker.
import { readFileSync } from "node:fs";
import { createServer } from "node:http";
import { join } from "node:path";

const CALL = `const { p } = order(5, [0, 2, 6, 10, 12, 14], [0, 1, 0, 1, 2, 4, 1, 2, 3, 4, 2, 3, 1, 4]);`;
const MADE = {
  "/": ["text/html", `<!doctype html><meta charset="utf-8"><title>The package</title><script type="module">
    import { order } from "./index.js";
    ${CALL}
    document.documentElement.dataset.page = p.join(" ");
    const worker = new Worker("./worker.js", { type: "module" });
    worker.onmessage = ({ data }) => (document.documentElement.dataset.worker = data.join(" "));
  </script>`],
  "/worker.js": ["text/javascript", `import { order } from "./index.js";\n${CALL}\npostMessage(p);`],
};

/** A server of a folder: its address, and how to end it. */
export async function serve(folder) {
  const server = createServer(({ url }, answer) => {
    const [type, text] = MADE[url] ?? (/^\/\w+\.js$/.test(url) ? ["text/javascript", readFileSync(join(folder, url))] : []);
    answer.writeHead(text ? 200 : 404, { "content-type": type ?? "text/plain" }).end(text);
  });
  await new Promise((resolve) => server.listen(0, "127.0.0.1", resolve));
  return { url: `http://127.0.0.1:${server.address().port}/`, stop: () => server.close() };
}
