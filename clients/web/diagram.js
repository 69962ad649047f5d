// The timing diagram: rows of levels, one column for each tick line. It draws what the session holds and decides nothing about the card.

import { bitOf, isCell, nameOf } from './session.js';
import { FIXED_BASE, addressName, placesIn } from './wire.js';
import { countOf, describe, readsOf, typeName } from './form.js';
import { escapeText, msWords } from './dom.js';

const NARROW = 22;
const WIDE = 40;
const HEAD = 40;
const ZOOMS = [1, 2, 3, 4, 6, 8, 11, 15, 22, 30, 40, 60, 80]; // pixels of a tick
const [GRID_FROM, KINDS_FROM, COUNTS_FROM] = [5, 8, 12]; // and from how many on a column shows these
// A row's height, and where a high and a low level are in it. With fingers it has to be higher.
const size = { row: 24, high: 5, low: 19 };
export const setRowHeight = (row) => Object.assign(size, { row, high: Math.round(row * 0.21), low: Math.round(row * 0.79) });
export const rowHeight = () => size.row;

const END = 5; // behind the last column, where the mark of other lines may stand

// ---- which rows

// Inputs, then cells, then outputs, in the order that the last card gives. A row is left out when it was never high and neither of the two cards speaks of
// it: the last one, and the one at the line that is looked at, which gives the labels.
export function rowsOf(session, { parts: last }, { parts: at }, showAll) {
  const ticks = session.ticks.filter((e) => !e.tick.idle && !e.covered).map((e) => e.tick);
  const places = placesIn(last);
  const read = new Set([last, at].flatMap((parts) => placesIn(parts).flatMap((p) => readsOf(parts[p], p))).map((a) => a % FIXED_BASE));
  const isWired = (part, place) => part.type !== 0 && (isCell(place) || part.configuration !== 0);
  const isInput = (place) => last[place].type === 0;
  const inOrder = [...places.filter((p) => !isCell(p) && isInput(p)), ...places.filter(isCell), ...places.filter((p) => !isCell(p) && !isInput(p))];
  const rows = inOrder.map((p) => ({ ...(isCell(p) ? cellRow : connectorRow)(p, at[p]), shown: read.has(p) || isWired(last[p], p) || isWired(at[p], p) }));
  return rows.filter((row) => showAll || row.shown || ticks.some(row.level));
}

const connectorRow = (place, part) => ({
  name: nameOf(place), group: part.type ? 'output' : 'input', label: `${nameOf(place)}${part.type ? ` ← ${addressName(part.configuration)}` : ''}`,
  note: typeName(part, place), help: `${nameOf(place)}: ${describe(part, place)}.`, level: (t) => bitOf(t.levels, place - 33),
});

const cellRow = (place, part) => ({
  name: nameOf(place), group: 'cell', cell: place, label: nameOf(place), note: typeName(part, place), help: `${nameOf(place)} (${typeName(part, place)}): ${describe(part, place)}`,
  level: (t) => bitOf(t.cells, place - 1), woken: (t) => bitOf(t.woken, place - 1),
});

// ---- the drawing

export const columnWidthFor = (count, room) => Math.max(NARROW, Math.min(WIDE, Math.floor((room - END - 1) / Math.max(count, 1))));
export const widthToFit = (count, room) => Math.max(ZOOMS[0], Math.min(WIDE, Math.floor((room - END - 1) / Math.max(count, 1))));
export const nextZoom = (column, step) => (step > 0 ? ZOOMS.find((z) => z > column) : ZOOMS.findLast((z) => z < column)) ?? column;
export const nearZoom = (column) => Math.max(ZOOMS[0], Math.min(ZOOMS.at(-1), Math.round(column)));
export const widthOf = (count, column) => count * column + END;
export const columnAt = (x, count, column) => Math.max(0, Math.min(count - 1, Math.floor(x / column)));
export const rowAt = (y) => Math.floor(y / size.row);
export const HEAD_HEIGHT = HEAD;

// Columns are drawn from `from` up to `to`: those in sight, where there are many. The heads of the columns are a drawing of their own, since they stay in
// sight when the rows are scrolled.
export function drawWaves(session, rows, column, from, to, tickMs = 0) {
  const columns = session.ticks.slice(from, to);
  const height = rows.length * size.row;
  const body = [
    columnBands(columns, height, column),
    rows.map((row, i) => rowGround(row, i, columns, column)).join(''),
    column >= GRID_FROM ? grid(columns, height, column) : '',
    rows.map((row, i) => `<path class="wave ${row.group}" d="${wavePath(row, columns, i * size.row, column)}"/>`).join(''),
  ];
  const heads = columnBands(columns, HEAD, column) + columnHeads(columns, column, tickMs) + editMarks(session, column, from, to);
  return { width: widthOf(columns.length, column), height, heads, body: body.join('') };
}

const rect = (cls, x, y, w, h, more = '') => `<rect class="${cls}" x="${x}" y="${y}" width="${Math.max(1, w)}" height="${h}" ${more}/>`;

function columnBands(columns, height, column) {
  return columns.map((e, i) => {
    if (e.covered) return rect('covered', i * column, 0, column, height);
    if (e.tick.idle) return rect('idle', i * column, 0, column, height);
    return e.tick.full ? rect('full', i * column, 0, column, height) : '';
  }).join('');
}

// Woken cells are tinted by plrun's woken set. In a full tick every cell is in it; those that the rules name stand out.
function rowGround(row, i, columns, column) {
  const y = i * size.row;
  const line = `<path class="rule" d="M0 ${y + size.row - 0.5}H${columns.length * column}"/>`;
  if (!row.woken) return line;
  const paths = { woken: '', 'woken-full': '' };
  let counts = '';
  columns.forEach((e, c) => {
    if (e.tick.idle || e.covered || !row.woken(e.tick)) return;
    paths[row.cell in e.tick.named ? 'woken' : 'woken-full'] += `M${c * column} ${y + 1}h${column}v${size.row - 2}h${-column}z`;
    if (column >= COUNTS_FROM) counts += countText(countOf(e.tick, row.cell), c * column + column / 2, y + size.row / 2 + 3, column);
  });
  return Object.entries(paths).map(([cls, d]) => (d ? `<path class="${cls}" d="${d}"/>` : '')).join('') + counts + line;
}

// The count of a timer or a counter; three dots where it does not fit.
function countText(count, x, y, column) {
  return count === null ? '' : `<text class="count" x="${x}" y="${y}">${String(count).length * 6 < column ? count : '…'}</text>`;
}

function grid(columns, height, column) {
  return `<path class="grid" d="${columns.map((_, i) => `M${i * column + 0.5} 0V${height}`).join('')}"/>`;
}

// Numbers and times as often as there is room for them.
const STEPS = [1, 2, 5, 10, 20, 50, 100, 200, 500, 1000, 2000, 5000];
const stepFor = (column, room) => STEPS.find((s) => s * column >= room) ?? STEPS.at(-1);
const [NUMBER_ROOM, TIME_ROOM] = [28, 50];

function columnHeads(columns, column, tickMs) {
  const numbers = stepFor(column, NUMBER_ROOM);
  const times = stepFor(column, TIME_ROOM);
  // tick 1, and then every so many that are not too near to it
  const isNth = (n, step, room) => n === 1 || (n % step === 0 && (n - 1) * column >= room);
  return columns.map((e, i) => {
    const x = i * column + column / 2;
    const { number, idle, full } = e.tick;
    const kind = e.covered ? '?' : idle ? '–' : full ? 'F' : '';
    return (!idle && isNth(number, numbers, NUMBER_ROOM - 6) ? `<text class="number" x="${x}" y="11">${number}</text>` : '')
      + (!idle && tickMs && isNth(number, times, TIME_ROOM) ? `<text class="time" x="${x}" y="22">${msWords((number - 1) * tickMs)}</text>` : '')
      + (kind && column >= KINDS_FROM ? `<text class="kind" x="${x}" y="33">${kind}</text>` : '');
  }).join('');
}

// A small mark between two ticks where lines that are no ticks stand.
function editMarks(session, width, from, to) {
  const marks = [];
  for (let column = Math.max(from, 1); column <= to; column += 1) {
    const between = session.entries.slice(session.ticks[column - 1].index + 1, session.ticks[column]?.index);
    if (between.length) marks.push(editMark((column - from) * width, between));
  }
  return marks.join('');
}

const LINES_IN_MARK = 20;

function editMark(x, entries) {
  const shown = entries.slice(0, LINES_IN_MARK);
  const refused = shown.some((e) => e.kind === 'refused' && !e.covered);
  const title = shown.map((e) => `${e.line}   ${e.covered ? '?' : e.answer}`).join('\n');
  return `<path class="edit${refused ? ' refused' : ''}" d="M${x - 4} ${HEAD - 10}h8l-4 7z"><title>${escapeText(title)}</title></path>`;
}

function wavePath(row, columns, top, column) {
  let path = '';
  let level = false;
  let last = 0;
  columns.forEach((e, i) => {
    if (e.covered) return;
    const now = e.tick.idle ? level : row.level(e.tick);
    const y = top + (now ? size.high : size.low);
    if (!path) path = `M0 ${y}`;
    else if (now !== level) path += `H${i * column}V${y}`;
    level = now;
    last = i + 1;
  });
  return path && `${path}H${last * column}`;
}

// What is predicted for the first covered tick. A mark of waking has a frame.
export function drawGuess(rows, column, left, cover) {
  return rows.map((r, i) => `<path class="guess" d="M${left + 2} ${i * size.row + (cover.high[r.name] ? size.high : size.low)}h${Math.max(1, column - 4)}"/>${
    cover.wakes[r.name] ? rect('guess-wakes', left + 1, i * size.row + 1, column - 2, size.row - 3, 'rx="4"') : ''}`).join('');
}

// Where a tick was not as predicted.
export function drawMisses(rows, column, left, missed) {
  return missed.map(({ name, kind }) => {
    const y = rows.findIndex((r) => r.name === name) * size.row;
    if (y < 0) return '';
    return kind === 'high' ? rect('miss', left + 1, y + 1, column - 2, size.row - 3, 'rx="4"') : rect('miss wakes', left + 4, y + 4, column - 8, size.row - 9, 'rx="2"');
  }).join('');
}
