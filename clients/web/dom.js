// Small things that all parts of the page use.

export const escapeText = (s) => s.replace(/[&<>"]/g, (c) => ({ '&': '&amp;', '<': '&lt;', '>': '&gt;', '"': '&quot;' })[c]);

export const byId = (id) => document.getElementById(id);

// A long one gets a row of its own. `buttons` are words and what they do.
const SHORT = 40;

export function notice(text, buttons = []) {
  const box = byId('notice');
  box.textContent = text;
  box.classList.toggle('long', text.length > SHORT);
  for (const [words, act, id = ''] of buttons) box.append(' ', Object.assign(document.createElement('button'), { textContent: words, onclick: act, id }));
}

// Whatever fails is said: a page that stands still must not look as if the card did.
export const failed = (error) => notice(`The page failed (${error?.message ?? error}). What is shown may be old: reload it.`);

// "0.75 ms", "12.5 s"
const LONG = 10000; // ms
export function msWords(ms) {
  const rounded = (n) => String(Math.round(n * 1e6) / 1e6);
  return ms < LONG ? `${rounded(ms)} ms` : `${rounded(ms / 1000)} s`;
}

// Only what is another than it was is put into the page.
const shown = new WeakMap();
export function put(element, html) {
  if (shown.get(element) === html) return false;
  shown.set(element, html);
  element.innerHTML = html;
  return true;
}

// The same of rows, each one element: those that are as they were stay; where many are others, all are put in.
const shownRows = new WeakMap();
export function putRows(element, rows) {
  const before = shownRows.get(element) ?? [];
  const changed = rows.flatMap((html, i) => (html === before[i] ? [] : [i]));
  shownRows.set(element, [...rows]);
  if (before.length !== rows.length || changed.length > rows.length / 2) element.innerHTML = rows.join('');
  else for (const i of changed) element.children[i].outerHTML = rows[i];
}

// A row that somebody has changed is not as it was shown.
export function forgetRow(element, row) {
  const rows = shownRows.get(element);
  if (rows) rows[[...element.children].indexOf(row)] = null;
}

export const capital = (text) => text[0].toUpperCase() + text.slice(1);

export const count = (n, noun) => `${n} ${noun}${n === 1 ? '' : 's'}`;

export function download(name, content) {
  const url = URL.createObjectURL(new Blob([content], { type: 'application/octet-stream' }));
  Object.assign(document.createElement('a'), { href: url, download: name }).click();
  setTimeout(() => URL.revokeObjectURL(url), 10000);
}

// Whether the browser let it be copied; who may read the clipboard is the browser's affair.
export async function copied(address, what) {
  try {
    await navigator.clipboard.writeText(address);
    notice(`${what} copied, ${address.length} characters.`);
    return true;
  } catch {
    return false;
  }
}

// The size of an element and how far it is scrolled, kept as it was last seen: to ask for them in the middle of a change would lay the whole page out for it.
const seen = new Map();
const resized = new ResizeObserver((changes) => changes.forEach(({ target }) => Object.assign(seen.get(target), sizeOf(target))));
const sizeOf = (element) => ({ width: element.clientWidth, height: element.clientHeight });

export function boxOf(id) {
  const element = byId(id);
  if (!seen.has(element)) {
    seen.set(element, { ...sizeOf(element), left: element.scrollLeft, top: element.scrollTop });
    resized.observe(element);
    element.addEventListener('scroll', () => Object.assign(seen.get(element), { left: element.scrollLeft, top: element.scrollTop }), { passive: true, capture: true });
  }
  return seen.get(element);
}

// After a window has changed, before the observer has said so.
export const measureAgain = () => seen.forEach((box, element) => Object.assign(box, sizeOf(element)));

export function scrollTo(id, { left, top }) {
  const element = byId(id);
  if (left !== undefined) element.scrollLeft = left;
  if (top !== undefined) element.scrollTop = top;
  Object.assign(boxOf(id), { left: element.scrollLeft, top: element.scrollTop });
}
