// Joins the sources of the page and a package that bindings/js/build made into one file. The modules are written one after another,
// without their import and export words; so the names at their tops must differ, which is checked here.
// Usage: node bindings/js/page/build.mjs PACKAGE OUT.html
import { readFileSync, writeFileSync } from "node:fs";
import { dirname, join } from "node:path";
import { fileURLToPath } from "node:url";

const here = dirname(fileURLToPath(import.meta.url));
const [, , pack, out] = process.argv;
if (!out) {
  console.error("usage: node bindings/js/page/build.mjs PACKAGE OUT.html");
  process.exit(2);
}

const WORKER = [`${pack}/bytes.js`, `${pack}/calls.js`, "matrix.js", "samples.js", "pattern.js", "worker.js"];
const MAIN = ["matrix.js", "samples.js", "code.js", "client.js", "figures.js", "view.js", "main.js"];

/** One script of modules, each after those that it takes names from. */
function joined(files) {
  const seen = new Map();
  const texts = files.map((file) => {
    const text = readFileSync(file.includes("/") ? file : join(here, file), "utf8");
    const plain = text.replace(/^import [^;]*;\n/gm, "").replace(/^export (?=const|class|function|let|async)/gm, "");
    if (/^(import|export)\b/m.test(plain)) throw new Error(`${file} has an import or export of another form`);
    for (const [, name] of plain.matchAll(/^(?:async )?(?:const|let|class|function) (\w+)/gm)) {
      if (seen.has(name)) throw new Error(`${name} is named in ${seen.get(name)} and ${file}`);
      seen.set(name, file);
    }
    return plain;
  });
  const script = `"use strict";\n${texts.join("\n")}`;
  if (/<\/script/i.test(script)) throw new Error("a source has the end of a script in it");
  return script;
}

/** The contracts of the calls as their source has them, without the bodies. */
function contracts() {
  const text = readFileSync(join(here, "../../../crates/amd_bare/src/int32.rt"), "utf8");
  const found = [...text.matchAll(/^((?:\/\/\/.*\n)+)#\[unsafe\(no_mangle\)\]\n(pub extern "C" fn \w+_within_i32[^{]*\n    ensures \{[^}]*\})\n\{$/gm)];
  if (found.length !== 4) throw new Error("the contracts of the four calls are not found");
  return found.map(([, words, contract]) => words + contract).join("\n\n").replaceAll("&", "&amp;").replaceAll("<", "&lt;");
}

const version = JSON.parse(readFileSync(join(here, "../package.json"), "utf8")).version;
const parts = {
  "<!-- STYLE -->": readFileSync(join(here, "style.css"), "utf8"),
  "<!-- WORKER -->": joined(WORKER),
  "<!-- MAIN -->": joined(MAIN),
  "<!-- CONTRACTS -->": contracts(),
  "Version VERSION": `Version ${version}`,
};
let html = readFileSync(join(here, "page.html"), "utf8");
for (const [mark, text] of Object.entries(parts)) {
  if (html.split(mark).length !== 2) throw new Error(`${mark} stands not once in page.html`);
  html = html.replace(mark, () => text.trimEnd());
}
writeFileSync(out, html);
