// Checks the page:  node clients/web/check.mjs [PAGE] [--shots DIR] [--firefox] [--no-browser] [--walk] [--step NAME]
//
// 1. its modules give the bytes of target/bin's programs on every stored session and on random wirings, and the stored outputs
// 2. plrun, the rows and the sentences of plexplain have the same answers, and a card put together from rows is the one that reads back
// 3. what a form writes is what the card then reads, on examples and on random wirings
// 4. the page in Chromium, and with --firefox there too: what a person does, and what is shown. With --walk only this, and with --step
//    only that step of it.
import fs from 'node:fs';
import os from 'node:os';
import path from 'node:path';
import { pathToFileURL } from 'node:url';
import { TOP } from './make.mjs';
import { modulesIn, comparePage, compareModules, compareBytes, compareRandom, compareRecords, compareStored, compareReading, compareAnswers, compareForms } from './compare.mjs';
import { openChromium, openFirefox } from './driver.mjs';
import { expect, tally } from './expect.mjs';
import * as walk from './walk.mjs';
import * as forms from './walk-forms.mjs';
import * as more from './walk-more.mjs';

const words = process.argv.slice(2);
const valueOf = (option) => (words.includes(option) ? words[words.indexOf(option) + 1] : null);
const shots = valueOf('--shots');
const only = valueOf('--step');
const file = path.resolve(words[0] && !words[0].startsWith('--') ? words[0] : path.join(TOP, 'docs', 'card.html'));

// Each step, and the program without which it is not there to be walked. Behind a step its picture is taken.
const STEPS = [
  [walk.prints], [walk.wiresFirstExample], [walk.looksAtReasons], [walk.predicts], [walk.doesExercise], [walk.keepsRecord, 'plsave'], [walk.findsWiring, 'plcheck'],
  [walk.callsRack, 'plrack'], [walk.takesHint], [walk.triesLookup], [forms.wiresByForm], [forms.pressesTable], [forms.setsTriggerAndState], [forms.rebuildsExamples],
  [forms.drawsWirings], [forms.completesNames], [forms.typesFast], [more.asksOfBusyLine, 'plreach'], [more.stopsAsking, 'plreach'], [more.tellsTime], [more.makesManyTicks],
  [more.readsManual], [more.opensAnything], [more.asksBeforeRecord, 'plsave'], [more.switchesCells, 'plsave'], [more.keepsWork], [more.handsIn, 'plcheck'], [walk.labelsByTick], [walk.meetsRefusal],
  [walk.opensEverything], [walk.opensCarriageReturns], [walk.runsLong], [walk.followsLink], [walk.fits], [more.holdsPhone],
];
const ON_PHONE = [[walk.wiresFirstExample], [walk.looksAtReasons]];

async function drive(open, prefix, has) {
  const { page, version, close } = await open();
  const url = pathToFileURL(file).href;
  const walked = async (steps, where) => {
    for (const [step, needed] of steps) {
      if (only && step.name !== only) continue;
      if (!needed || has(needed)) await step(page, url);
      if (shots) await page.shot(path.join(shots, `${prefix}${where}${step.name}.png`));
    }
  };
  try {
    await page.size(1280, 720);
    const from = Date.now();
    await page.open(url);
    console.log(`start   ${Date.now() - from} ms until the page is ready, with a turn through about:blank`);
    await walked(STEPS, '');
    await page.size(390, 844, true);
    await page.open(url);
    await walked(ON_PHONE, 'phone-');
    expect('no exceptions', await page.complaints(), []);
  } finally {
    await close();
  }
  console.log(`page    driven in ${version}`);
}

const work = fs.mkdtempSync(path.join(os.tmpdir(), 'card-modules-'));
try {
  const page = fs.readFileSync(file, 'utf8');
  const bytes = modulesIn(page);
  const modules = Object.fromEntries(Object.entries(bytes).map(([name, b]) => [name, new WebAssembly.Module(b)]));
  if (!only && !words.includes('--walk')) {
    comparePage(page, bytes, work);
    compareModules(bytes);
    compareBytes(modules);
    compareRandom(modules);
    if (modules.plsave) compareRecords(modules);
    compareStored(modules);
    compareReading(modules);
    if (modules.plreach) compareAnswers();
    compareForms(modules);
  }
  if (!words.includes('--no-browser')) await drive(openChromium, '', (name) => name in modules);
  if (words.includes('--firefox')) await drive(openFirefox, 'firefox-', (name) => name in modules);
} catch (error) {
  expect(`the check ran to its end (${error.stack})`, false, true);
} finally {
  fs.rmSync(work, { recursive: true });
}
console.log(`${tally.passed} passed, ${tally.failed} failed`);
process.exit(tally.failed ? 1 : 0);
