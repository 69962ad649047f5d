// The wiring stands in the address behind #, deflated: a reload keeps it, and the address is a link to it. No server sees it.
//
//   #w=CODE        the lines
//   &c=32          the card has thirty-two cells
//   &l=N           line N is looked at
//   &q=CODE        questions about the wiring, deflated too
//   &u=MS          the length of a tick in ms
//   &n=TITLE       the title
//   &x=N           an exercise: all lines from N on are covered
//   &t=CODE        an exercise: ticks with their answers, for which a wiring is to be found
//   &d=CODE        the text of an exercise
//
// What it does not know it passes over, so that an older page takes a newer link as far as it goes.

import { SIZES } from './session.js';

export const TICK_MS = 0.25; // as the manual has it: 4000 ticks a second

const CODE = /^[\w-]+$/;

async function packed(text) {
  const stream = new Blob([text]).stream().pipeThrough(new CompressionStream('deflate-raw'));
  const bytes = new Uint8Array(await new Response(stream).arrayBuffer());
  const binary = Array.from(bytes, (b) => String.fromCharCode(b)).join('');
  return btoa(binary).replace(/\+/g, '-').replace(/\//g, '_').replace(/=+$/, '');
}

async function unpacked(code) {
  if (!CODE.test(code)) throw new Error('damaged');
  const bytes = Uint8Array.from(atob(code.replace(/-/g, '+').replace(/_/g, '/')), (c) => c.charCodeAt(0));
  return new Response(new Blob([bytes]).stream().pipeThrough(new DecompressionStream('deflate-raw'))).text();
}

// Lines are counted from 1 in an address, as in the page, and from 0 in here.
export async function hashOf({ text, cells = 16, looksAt = null, coveredFrom = null, task = null, brief = '', questions = [], tickMs = TICK_MS, title = '' }) {
  if (!text && !task && !questions.length && !title) return '#';
  const parts = [
    ['w', await packed(text)], cells !== 16 && ['c', cells], looksAt !== null && ['l', looksAt + 1], questions.length && ['q', await packed(questions.join('\n'))],
    tickMs !== TICK_MS && ['u', tickMs], title && ['n', encodeURIComponent(title)],
    coveredFrom !== null && ['x', coveredFrom + 1], task !== null && ['t', await packed(task)], brief && ['d', await packed(brief)],
  ];
  return `#${parts.filter(Boolean).map((pair) => pair.join('=')).join('&')}`;
}

// Where a text has a link of this page in it: from # on.
export const hashIn = (text) => text.match(/#w=[\w-]+(?:&[a-z]=[\w%.!~*'()-]*)*/)?.[0] ?? null;

// What a link says: none where there is no link, and an error where it is damaged.
export async function readHash(hash) {
  if (!hash.startsWith('#w=')) return null;
  const found = Object.fromEntries(hash.slice(1).split('&').map((part) => [part.slice(0, 1), part.slice(2)]));
  const optional = async (key) => (found[key] ? unpacked(found[key]) : null);
  const number = (key) => {
    if (!(key in found)) return null;
    if (!(Number(found[key]) >= 0)) throw new Error('damaged');
    return Number(found[key]);
  };
  const line = (key) => (number(key) ? number(key) - 1 : null);
  return {
    text: await unpacked(found.w), cells: SIZES.find((cells) => cells === number('c')) ?? 16, title: decodeURIComponent(found.n ?? ''), questions: (await optional('q'))?.split('\n') ?? [],
    task: await optional('t'), brief: await optional('d') ?? '', coveredFrom: line('x'), looksAt: line('l'), tickMs: number('u') ?? TICK_MS,
  };
}
