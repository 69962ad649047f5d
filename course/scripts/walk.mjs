// Opens every link of links.html in the page, in Chromium, as a student does. `course/check --page`
// starts it.
//
// A link to wire: the task is there, the solution written above the ticks agrees everywhere, and the
// first wrong wiring differs. A link to predict: every tick is covered.
import fs from 'node:fs';
import path from 'node:path';
import { fileURLToPath, pathToFileURL } from 'node:url';
import { openChromium } from '../../clients/web/driver.mjs';

const HERE = path.dirname(path.dirname(fileURLToPath(import.meta.url))); // the folder of the course
const folders = fs.readdirSync(path.join(HERE, 'exercises')).sort();
const read = (...parts) => fs.readFileSync(path.join(HERE, 'exercises', ...parts), 'utf8');
const list = path.join(HERE, 'links.html');
const urlOf = (href) => new URL(href.replaceAll('&amp;', '&'), pathToFileURL(list)).href;
const links = [...fs.readFileSync(list, 'utf8').matchAll(/href="(\.\.[^"]*)">(wire|predict) it/g)]
  .map(([, href, kind]) => ({ kind, url: urlOf(href) }));

let passed = 0;
let failed = 0;
function expect(what, good, found) {
  if (good) passed += 1; else failed += 1;
  if (!good) console.log(`FAILED ${what}: ${found}`);
}

const { page, close } = await openChromium();

// The lines above the first tick are replaced, and plcheck's words are read in the tab of the exercise.
async function checkedWith(wiring) {
  const text = await page.evaluate('document.getElementById("text").value');
  const lines = wiring + text.slice(text.search(/^T /m));
  await page.evaluate(`(() => {
    const t = document.getElementById('text');
    t.focus();
    t.value = ${JSON.stringify(lines)};
    t.dispatchEvent(new Event('input', { bubbles: true }));
    t.blur();
  })()`);
  await page.click('#tab-task');
  return page.text('#panel pre.plcheck');
}

async function wires(folder, url) {
  await page.open(url, true);
  await page.click('#tab-task');
  const task = read(folder, 'task.md').split('\n')[2].replace(/^- /, '');
  expect(`${folder}: the task`, (await page.text('#panel .prose')).includes(task), await page.text('#panel .prose'));
  const right = await checkedWith(read(folder, 'solution.lines'));
  expect(`${folder}: the solution`, /^\d\d answers agree, 0 differ$/.test(right), right);
  const wrong = fs.readdirSync(path.join(HERE, 'exercises', folder)).find((name) => name.startsWith('wrong-'));
  const found = await checkedWith(read(folder, wrong));
  expect(`${folder}: ${wrong}`, / tick \d+: [\s\S]* [1-9]\d* differ$/.test(found), found);
}

async function predicts(url) {
  await page.open(url, true);
  const covered = async () => (await page.texts('#answers b')).filter((answer) => answer === '?').length;
  const ticks = (await page.evaluate('document.getElementById("text").value')).match(/^T /gm).length;
  expect(`${url.slice(-20)}: every tick is covered`, await covered() === ticks && ticks > 5, await covered());
  await page.click('#tab-task');
  await page.press('[data-next]');
  await page.press('[data-uncover]');
  expect('the first tick is uncovered', await covered() === ticks - 1, await covered());
}

expect('twelve links to wire', links.filter((link) => link.kind === 'wire').length === 12, links.length);
for (const [i, { url }] of links.filter((link) => link.kind === 'wire').entries()) await wires(folders[i], url);
for (const { url } of links.filter((link) => link.kind === 'predict')) await predicts(url);
await close();
console.log(`${passed} passed, ${failed} failed`);
process.exit(failed ? 1 : 0);
