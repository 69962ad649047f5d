// The wiring as a drawing: what layout.js placed, as SVG, with the levels of the tick that is looked at. While the wiring stays the same only what the tick
// changes is drawn anew: levels, woken cells, counts.

import { bitOf, isCell, nameOf } from './session.js';
import { PORT, baseOf, layoutOf, spanOf, within } from './layout.js';
import { catalogue, countOf, typeName, fixedWords, addressWords } from './form.js';
import { state, wired, tickLookedAt } from './state.js';
import { byId, escapeText } from './dom.js';

// ---- lines and boxes

const level = (place, t) => Boolean(t) && (isCell(place) ? bitOf(t.cells, place - 1) : bitOf(t.levels, place - 33));
const isHigh = (place, t) => (level(place, t) ? ' high' : '');

const path = (cls, d, more = '') => `<path class="${cls}" d="${d}"${more}/>`;

// Each track with what comes in from the left and what goes out to the right; those that are high come last, and so lie above.
function tracksHtml({ channels, columns }, t) {
  const all = channels.flatMap((tracks, c) => tracks.map((track) => ({ track, c, high: level(track.source.place, t) })));
  const lines = all.toSorted((a, b) => a.high - b.high).map(({ track, c }) => path(`wire${track.late ? ' late' : ''}${isHigh(track.source.place, t)}`,
    trackPath(track, c, columns, channels), ` data-of="${track.source.place}"`));
  const dots = all.flatMap(({ track }) => junctions(track).map((y) => `<circle class="joint${isHigh(track.source.place, t)}" data-of="${track.source.place}" cx="${track.x}" cy="${y}" r="2.4"/>`));
  return lines.join('') + dots.join('');
}

function trackPath(t, c, columns, channels) {
  const [low, high] = spanOf(t);
  const from = t.from ? t.from.x + t.from.w : null;
  const parts = [];
  if (t.from) parts.push(`M${from} ${t.start}H${t.x}`);
  if (high > low) parts.push(`M${t.x} ${low}V${high}`);
  for (const y of t.ends) parts.push(`M${t.x} ${y}H${endOf(t, y, c, columns)}`);
  if (t.lane) for (const up of channels.flat().filter((o) => o.up === t.lane)) parts.push(`M${t.x} ${t.down}H${up.x}`);
  return parts.join('');
}

// Where a line that leaves a track at some height ends: at the box there, or where it goes on.
function endOf(t, y, c, columns) {
  const reader = columns[c + 1].find((n) => n.kind !== 'pass' && n.ports.some((p) => n.y + p.y === y));
  return reader ? reader.x : t.pass.x;
}

function junctions(t) {
  const ys = [...(t.from ? [t.start] : []), ...t.ends, ...(t.down === undefined ? [] : [t.down])];
  const [low, high] = spanOf(t);
  return ys.length > 2 ? [...new Set(ys)].filter((y) => within(y, [low, high])) : [];
}

const text = (cls, x, y, words, more = '') => `<text class="${cls}" x="${x}" y="${y}"${more}>${escapeText(words)}</text>`;

// Marks at a slot: a circle for the inverse, a step up for a rise, a step down for a fall.
function markAt(address, x, y) {
  const how = address - baseOf(address);
  if (how === 64) return `<circle class="mark" cx="${x - 4}" cy="${y}" r="3.5"/>`;
  if (how === 128) return path('mark edge', `M${x + 3} ${y + 4}h4v-8h4`);
  return how === 192 ? path('mark edge', `M${x + 3} ${y - 4}h4v8h4`) : '';
}

function portHtml(n, port) {
  const y = n.y + port.y;
  if (!baseOf(port.address)) return text('slot', n.x + 8, y + 4, `${port.name}: ${fixedWords(port.address, port.edge)}`);
  return markAt(port.address, n.x, y) + (n.kind === 'cell' ? text('slot', n.x + (port.address >= 128 ? 15 : 8), y + 4, port.name) : '');
}

const wokenClass = (n, t) => {
  if (!t || n.kind !== 'cell' || !bitOf(t.woken, n.place - 1)) return '';
  return n.place in t.named ? ' woken' : ' woken-full';
};

const classOf = (n, t) => `node ${n.kind}${isHigh(n.place, t)}${wokenClass(n, t)}${state.form === n.place ? ' open' : ''}`;

// "duration 5", and the count where plexplain gave it: "2 of 5".
function noteOf(n, t) {
  const { configuration } = catalogue().types[n.part.type];
  const counted = t ? countOf(t, n.place) : null;
  if (counted !== null && configuration?.name === 'duration') return `${counted} of ${n.part.configuration}`;
  return [counted !== null && `count ${counted}`, configuration && `${configuration.name} ${n.part.configuration}`].filter(Boolean).join(', ').replace(/^duration /, '');
}

function nodeHtml(n, t, parts) {
  const words = escapeText(sentenceOf(n.place, parts, t));
  return `<g class="${classOf(n, t)}" role="button" tabindex="0" data-place="${n.place}" data-key="${n.key}" aria-label="${words}"><title>${words}</title>${
    n.kind === 'cell' ? boxHtml(n, t) : pillHtml(n)}</g>`;
}

function boxHtml(n, t) {
  return `<rect x="${n.x}" y="${n.y}" width="${n.w}" height="${n.h}" rx="6"/>${text('name', n.x + 8, n.y + 17, nameOf(n.place))}
    ${text('note', n.x + n.w - 11, n.y + 17, noteOf(n, t), ' text-anchor="end"')}${text('type', n.x + 8, n.y + 31, typeName(n.part, n.place))}
    <circle class="lamp-of" cx="${n.x + n.w}" cy="${n.y + n.out}" r="4"/>${n.ports.map((p) => portHtml(n, p)).join('')}`;
}

function pillHtml(n) {
  const fixed = n.ports[0] && !baseOf(n.ports[0].address);
  return `<rect x="${n.x}" y="${n.y}" width="${n.w}" height="${n.h}" rx="13"/>${text('name', n.x + 29, n.y + 17, nameOf(n.place))}
    <circle class="lamp-of" cx="${n.x + 19}" cy="${n.y + PORT}" r="4.5"/>${fixed ? '' : n.ports.map((p) => portHtml(n, p)).join('')}`;
}

// ---- in words, as the list and the names of the boxes have it

export function sentenceOf(place, parts, t) {
  const part = parts[place];
  const now = t ? `; ${level(place, t) ? 'high' : 'low'} in tick ${t.number}` : '';
  if (!isCell(place)) return `${nameOf(place)}, ${typeName(part, place)}${part.type && part.configuration ? ` from ${sourceWords(part.configuration, place)}` : ''}${now}`;
  const { configuration, slots } = catalogue().types[part.type];
  const reads = Object.entries(slots).map(([s, { name, edge }]) => `${name || s}: ${sourceWords(part.slots[s], place, edge)}`);
  return `${nameOf(place)}, ${typeName(part, place)}${configuration ? `, ${configuration.name} ${part.configuration}` : ''}${reads.length ? `; ${reads.join(', ')}` : ''}${now}`;
}

const sourceWords = (address, reader, edge) => `${addressWords(address, edge)}${isCell(reader) && baseOf(address) >= reader && isCell(baseOf(address)) ? ' (one tick late)' : ''}`;

// ---- the whole

const svgHtml = (layout, parts, t) => `<svg class="wiring" xmlns="http://www.w3.org/2000/svg" viewBox="0 0 ${layout.width} ${layout.height}" width="${layout.width}"
  height="${layout.height}" style="--w:${layout.width}px;--h:${layout.height}px" role="group" aria-label="The wiring: ${layout.nodes.length} boxes"><g class="wires"
  aria-hidden="true">${tracksHtml(layout, t)}</g>${layout.nodes.map((n) => nodeHtml(n, t, parts)).join('')}</svg>`;

export function svgOf(parts, t) {
  const layout = layoutOf(parts);
  return layout ? svgHtml(layout, parts, t) : '';
}

const drawn = { key: '', layout: null }; // what the panel shows

const keyOf = (parts) => JSON.stringify(parts);

export function drawingHtml() {
  const { parts } = wired();
  const t = tickLookedAt();
  if (drawn.key !== keyOf(parts)) Object.assign(drawn, { key: keyOf(parts), layout: layoutOf(parts) });
  const { layout } = drawn;
  if (!layout) return '<p class="quiet">Nothing is wired yet. <button data-new-cell>New cell</button> makes one; a connector’s name opens its form.</p>';
  const svg = svgHtml(layout, parts, t);
  return `<div class="tools drawing-tools"><button data-new-cell>New cell</button> <button data-save-drawing>Save<span> as wiring.svg</span></button>${legendOf(svg)}</div>
    <div class="canvas">${svg}</div><p class="quiet when">${whenWords(t)}</p>
    <details><summary>the same as a list</summary><ul class="wiring-list">${
  placesDrawn(layout).map((p) => `<li><button data-place="${p}">${escapeText(sentenceOf(p, parts, t))}</button></li>`).join('')}</ul></details>`;
}

const placesDrawn = (layout) => [...new Set(layout.nodes.map((n) => n.place))];

const whenWords = (t) => (t ? `Levels of tick ${t.number}; an output shows its source as it was in the tick before.` : 'A box opens its form.');

// Whether the drawing that is there is that of the wiring: then it gets the levels of the tick, and nothing else is touched.
export function updateDrawing() {
  const svg = byId('panel').querySelector('.canvas svg');
  const { parts } = wired();
  if (!svg || !drawn.layout || drawn.key !== keyOf(parts)) return false;
  const t = tickLookedAt();
  const nodes = new Map(drawn.layout.nodes.map((n) => [n.key, n]));
  for (const g of svg.querySelectorAll('.node')) {
    const n = nodes.get(g.dataset.key);
    const words = sentenceOf(n.place, parts, t);
    setAttribute(g, 'class', classOf(n, t));
    setAttribute(g, 'aria-label', words);
    setText(g.querySelector('title'), words);
    if (n.kind === 'cell') setText(g.querySelector('.note'), noteOf(n, t));
  }
  for (const wire of svg.querySelectorAll('.wires [data-of]')) wire.classList.toggle('high', level(Number(wire.dataset.of), t));
  for (const button of byId('panel').querySelectorAll('.wiring-list [data-place]')) setText(button, sentenceOf(Number(button.dataset.place), parts, t));
  setText(byId('panel').querySelector('.when'), whenWords(t));
  return true;
}

function setAttribute(element, name, value) {
  if (element.getAttribute(name) !== String(value)) element.setAttribute(name, value);
}

function setText(element, value) {
  if (element.textContent !== value) element.textContent = value;
}

// Only the marks that are there to be seen; levels and woken cells may come with any tick.
function legendOf(svg) {
  const sample = (w, inner) => `<svg class="wiring" width="${w}" height="12" aria-hidden="true">${inner}</svg>`;
  const items = [
    ['mark edge" d="M\\d+ \\d+h4v-8', sample(12, path('mark edge', 'M1 10h4v-8h4')), 'rises'], ['mark edge" d="M\\d+ \\d+h4v8', sample(12, path('mark edge', 'M1 2h4v8h4')), 'falls'],
    ['class="mark" cx', sample(12, '<circle class="mark" cx="6" cy="6" r="3.5"/>'), 'inverse'], ['wire late', sample(24, path('wire late', 'M0 6h24')), 'one tick late'],
    ['', sample(24, path('wire high', 'M0 6h24')), 'high'], ['', '<i class="woken"></i>', 'woken'],
  ];
  return `<p class="legend">${items.filter(([form]) => new RegExp(form).test(svg)).map(([, mark, word]) => `<span>${mark}${word}</span>`).join('')}</p>`;
}

// For a file: with the page's styles of the drawing inside, and its colours as they are.
export function drawingFile(rules, colourOf) {
  const style = rules.map((r) => r.replace(/var\((--[\w-]+)\)/g, (_, name) => colourOf(name))).join('\n');
  return svgOf(wired().parts, tickLookedAt()).replace('role="group"', 'font-family="sans-serif"').replace('><g', `><style>${style}</style><rect width="100%" height="100%" style="stroke:none"/><g`);
}
