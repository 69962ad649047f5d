// What the walks through the page have in common: the hands of a person.
import { spawnSync } from 'node:child_process';
import path from 'node:path';
import { TOP } from './make.mjs';
import { SHIFT } from './driver.mjs';

export const focusLines = (page) => page.evaluate('document.getElementById("text").focus()');
export const leaveLines = (page) => page.evaluate('document.activeElement.blur()');
export const answers = (page) => page.texts('#answers b');
export const lines = (page) => page.evaluate('document.getElementById("text").value');
export const switchTtl0 = (page) => page.key('0', SHIFT);
export const quick = (page) => page.key('q');
export const pause = (ms) => new Promise((resolve) => setTimeout(resolve, ms));

// From nothing, with lines that are typed; many of them at once.
export async function typeLines(page, text) {
  await page.click('#new');
  await page.evaluate(`(() => { const t = document.getElementById('text'); t.focus(); t.value = ${JSON.stringify(text)}; t.dispatchEvent(new Event('input', { bubbles: true })); })()`);
  await leaveLines(page);
}

// A choice, as a person makes it: the focus goes there, the value changes.
export const setValue = (page, selector, value) => page.evaluate(`(() => { const e = document.querySelector(${JSON.stringify(selector)}); e.focus();
  if (e.options && ![...e.options].some(o => o.value === '${value}')) throw new Error('no choice ${value} in ' + ${JSON.stringify(selector)});
  e.value = '${value}'; e.dispatchEvent(new Event('input', { bubbles: true })); e.dispatchEvent(new Event('change', { bubbles: true })); })()`);

export const choose = (page, key, value) => setValue(page, `#form [data-form="${key}"]`, value);
export const ask = (page, key, value) => setValue(page, `#reach-form [data-ask="${key}"]`, value);

export async function chooseAddress(page, key, address) {
  const base = address % 64;
  await choose(page, `what ${key}`, base ? `base ${base}` : address);
  if (base) await choose(page, `how ${key}`, address - base);
}

// A file of a text, or of bytes.
export const openFile = (page, name, content) => page.evaluate(`(() => { const data = new DataTransfer();
  const content = ${JSON.stringify(content)};
  data.items.add(new File([typeof content === 'string' ? content : new Uint8Array(content)], ${JSON.stringify(name)}));
  const file = document.getElementById('file'); file.files = data.files; file.dispatchEvent(new Event('change')); })()`);

// What the page saves is kept instead of downloaded: a promise of its bytes, and its name.
export const keepSaved = (page) => page.evaluate(`(() => { const make = URL.createObjectURL; URL.createObjectURL = (blob) => {
  if (blob.type !== 'application/octet-stream') return make.call(URL, blob);
  window.saved = blob.arrayBuffer().then((b) => [...new Uint8Array(b)]); return 'about:blank#'; };
  const press = HTMLAnchorElement.prototype.click;
  HTMLAnchorElement.prototype.click = function () { if (this.download) window.savedName = this.download; else press.call(this); }; })()`);
export const savedBytes = (page) => page.evaluate('window.saved');
export const savedText = async (page) => Buffer.from(await savedBytes(page)).toString();

export const program = (name, input, words = [], encoding = 'utf8') => spawnSync(path.join(TOP, 'target', 'bin', name), words, { input }).stdout.toString(encoding);
export const plprint = (input, words = []) => program('plprint', input, words);

// The lamp on BNC3 for five ticks, twenty ticks after TTL0, not while BNC2 is high.
export const TASK = ['M E=34', '36CCA Y=0', 'M E=1', '36CCA Y=15', '36CCA Z=20', '36CCB X=169 Y=192', 'M E=2', '36CCA Y=14', '36CCA Z=5', '36CCB X=129 Y=192 Z=34',
  'M E=35', '36CCA Z=2'];
