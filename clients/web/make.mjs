// Puts the page into one file:  node clients/web/make.mjs WASM OUT
//
// WASM is the folder of the modules, or a page that has them; which ones, programs.json says.
import fs from 'node:fs';
import path from 'node:path';
import crypto from 'node:crypto';
import { fileURLToPath, pathToFileURL } from 'node:url';
import { materialOf } from './material.mjs';

const here = path.dirname(fileURLToPath(import.meta.url));
export const TOP = path.join(here, '..', '..');
const read = (name) => fs.readFileSync(path.join(here, name), 'utf8');
export const PROGRAMS = JSON.parse(read('programs.json'));
const ENGINE = ['programs.js', 'words.js', 'session.js', 'runs.js'];
const PAGE = ['dom.js', 'keep.js', 'wire.js', 'diagram.js', 'predict.js', 'link.js', 'reach.js', 'state.js', 'form.js', 'layout.js', 'drawing.js', 'complete.js', 'record.js',
  'exercise.js', 'rack.js', 'questions.js', 'manual.js', 'panel.js', 'timing.js', 'show.js', 'files.js', 'menus.js', 'sheet.js', 'page.js'];

// The modules are written so that their top-level names differ; joined in order they need no imports.
function joined(names) {
  const text = names.map((name) => read(name).replace(/^import .* from '\.\/.*';\n/gm, '').replace(/^export /gm, '')).join('\n');
  const left = text.match(/^(import|export) .*/m);
  if (left) throw new Error(`not joined: ${left[0]}`);
  const top = [...text.matchAll(/^(?:async )?(?:const|let|function) (\w+)/gm)].map((m) => m[1]);
  const twice = top.filter((name, i) => top.indexOf(name) !== i);
  if (twice.length) throw new Error(`two parts of the page have the name ${twice.join(', ')}`);
  return text;
}

// Inside <script> only "</" and "<!--" could end it too early.
const safeJson = (value) => JSON.stringify(value).replace(/</g, '\\u003c');
const safeCode = (text) => {
  if (/<\/script|<!--/i.test(text)) throw new Error('the code would end its <script>');
  return text;
};

const named = (names) => `${names.slice(0, -1).join(', ')} and ${names.at(-1)}`;

// From the folder of the modules, or out of a page that has them already.
function modulesOf(from) {
  if (!from.endsWith('.html')) return Object.fromEntries(PROGRAMS.map(({ name }) => [name, fs.readFileSync(path.join(from, `${name}.wasm`))]));
  const [, json] = fs.readFileSync(from, 'utf8').match(/<script type="application\/json" id="wasm">(.*?)<\/script>/s);
  const inPage = JSON.parse(json);
  return Object.fromEntries(PROGRAMS.map(({ name }) => [name, Buffer.from(inPage[name], 'base64')]));
}

export function makePage(wasm) {
  const bytes = modulesOf(wasm);
  const hash = crypto.createHash('sha256');
  const version = fs.readFileSync(path.join(TOP, 'VERSION'), 'utf8').trim();
  Object.values(bytes).forEach((b) => hash.update(b));
  const parts = {
    'page.css': read('page.css'),
    names: named(PROGRAMS.map((p) => p.name).filter((name) => name !== 'plrun')), // which has no card of thirty-two cells
    wasm: safeJson(Object.fromEntries(Object.entries(bytes).map(([name, b]) => [name, b.toString('base64')]))),
    material: safeJson({ ...materialOf(TOP), programs: PROGRAMS, build: `${version}, ${hash.digest('hex').slice(0, 12)}` }),
    worker: safeCode(joined([...ENGINE, 'worker.js'])),
    'page.js': safeCode(joined([...ENGINE, ...PAGE])),
  };
  return read('page.html').replace(/\/\*\{\{([\w.]+)\}\}\*\/|\{\{([\w.]+)\}\}/g, (_, a, b) => parts[a ?? b]);
}

if (import.meta.url === pathToFileURL(process.argv[1]).href) {
  const [wasm, out] = process.argv.slice(2);
  const page = makePage(wasm);
  fs.writeFileSync(out, page);
  console.log(`${out}: ${Buffer.byteLength(page)} bytes`);
}
