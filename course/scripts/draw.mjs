// The drawings of wirings, by the page in Chromium. `course/make --drawings` starts it, with
// [{ file, hash }, ...] on standard input.
import fs from 'node:fs';
import path from 'node:path';
import { fileURLToPath, pathToFileURL } from 'node:url';
import { openChromium } from '../../clients/web/driver.mjs';

const HERE = path.dirname(fileURLToPath(import.meta.url));
const PAGE = pathToFileURL(path.join(HERE, '..', '..', 'docs', 'card.html')).href;

// What *Save as wiring.svg* would write to a file.
const SAVED = `(() => {
  const make = URL.createObjectURL;
  return new Promise((resolve) => {
    URL.createObjectURL = (blob) => { blob.text().then(resolve); return make.call(URL, blob); };
    document.querySelector('[data-save-drawing]').click();
  });
})()`;

const { page, close } = await openChromium();
for (const { file, hash } of JSON.parse(fs.readFileSync(0, 'utf8'))) {
  await page.open(PAGE + hash, true);
  await page.press('#tab-drawing');
  fs.writeFileSync(file, `${(await page.evaluate(SAVED)).trim()}\n`);
  console.log(path.basename(file));
}
await close();
