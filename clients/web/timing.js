// The timing diagram in the page: its columns and rows, zoom, the two marks, and jumps from change to change. diagram.js draws it.

import { drawWaves, drawGuess, drawMisses, columnWidthFor, widthToFit, nextZoom, nearZoom, widthOf, rowHeight, HEAD_HEIGHT } from './diagram.js';
import { placeOf } from './session.js';
import { state, view, select } from './state.js';
import { boxOf, byId, count, escapeText, msWords, put, putRows, scrollTo } from './dom.js';

const COLUMNS_AROUND = 60;
export const diagram = { column: columnWidthFor(0, 0), from: 0, to: 0 }; // the width of a column, and which columns are drawn

// ---- columns

const roomForColumns = () => boxOf('waves').width - boxOf('labels').width;

export function showDiagram() {
  const { session, rows } = view;
  diagram.column = state.zoom ?? columnWidthFor(session.ticks.length, roomForColumns());
  byId('plot').style.width = `${widthOf(session.ticks.length, diagram.column)}px`;
  putRows(byId('label-rows'), rows.map(labelHtml));
  put(byId('legend'), legendHtml(session));
  byId('waves').classList.toggle('empty', session.ticks.length === 0);
  showRows(rows);
  drawColumns();
}

// Only what is there to be seen.
function legendHtml({ ticks, entries }) {
  const ran = ticks.filter((e) => e.kind === 'tick' && !e.covered);
  const others = ticks.length && entries.length - ticks[0].index > ticks.length;
  return [[ran.some((e) => e.tick.count), 'woken', 'woken'], [ran.some((e) => e.tick.full), 'woken-full', 'only since the tick is full'], [others, 'edit', 'other lines']]
    .filter(([seen]) => seen).map(([, mark, words]) => `<i class="${mark}"></i>${words}`).join(' ');
}

function columnsInSight() {
  const fitting = Math.ceil(roomForColumns() / diagram.column);
  const first = Math.max(0, Math.min(Math.floor(boxOf('waves').left / diagram.column), view.session.ticks.length - fitting));
  return { first, last: first + fitting };
}

function drawColumns() {
  const { session, rows } = view;
  const { column } = diagram;
  const { first, last } = columnsInSight();
  diagram.from = Math.max(0, first - COLUMNS_AROUND);
  diagram.to = Math.min(session.ticks.length, last + COLUMNS_AROUND);
  const { width, height, heads, body } = drawWaves(session, rows, column, diagram.from, diagram.to, state.tickMs);
  const left = (index) => (columnOf(index) - diagram.from) * column;
  const predicted = [
    ...state.score.map((t) => drawMisses(rows, column, left(t.index), t.missed)),
    state.cover?.high ? drawGuess(rows, column, left(state.cover.from), state.cover) : '',
  ].join('');
  put(sizeSvg('heads', width, HEAD_HEIGHT), heads);
  put(sizeSvg('drawing', width, height), `${body}${predicted}
    <rect class="hover" id="hover" y="0" width="${column}" height="${height}" visibility="hidden"/>
    <rect class="mark" id="mark" y="0.5" width="${column}" height="${Math.max(0, height - 1)}" visibility="hidden"/>
    <rect class="chosen" id="chosen" y="0.5" width="${column}" height="${Math.max(0, height - 1)}" visibility="hidden"/>`);
  placeColumn('chosen', columnOf(state.selected));
  placeColumn('mark', columnOf(state.mark));
}

export function diagramScrolled() {
  const { first, last } = columnsInSight();
  if (first < diagram.from || Math.min(last, view.session.ticks.length) > diagram.to) drawColumns();
}

const labelHtml = (row) => `<div class="label ${row.group}" style="height:${rowHeight()}px" title="${escapeText(row.help)}">
  <i></i><button data-place="${placeOf(row.name)}" aria-label="Form of ${row.name}"><b>${escapeText(row.label)}</b></button> <span>${escapeText(row.note)}</span></div>`;

function sizeSvg(id, width, height) {
  const svg = byId(id);
  svg.setAttribute('width', width);
  svg.setAttribute('height', height);
  svg.style.marginLeft = `${diagram.from * diagram.column}px`;
  return svg;
}

export function columnOf(index) {
  const { ticks } = view.session;
  let [low, high] = [0, ticks.length - 1];
  while (low <= high) {
    const middle = (low + high) >> 1;
    if (ticks[middle].index === index) return middle;
    if (ticks[middle].index < index) low = middle + 1;
    else high = middle - 1;
  }
  return -1;
}

export function placeColumn(id, column) {
  const hidden = column < diagram.from || column >= diagram.to;
  byId(id).setAttribute('visibility', hidden ? 'hidden' : 'visible');
  if (!hidden) byId(id).setAttribute('x', (column - diagram.from) * diagram.column);
}

export function scrollToColumn(column) {
  const { left: at } = boxOf('waves');
  const room = roomForColumns();
  const left = column * diagram.column;
  const right = left + 2 * diagram.column;
  if (left < at) scrollTo('waves', { left: left - 2 * diagram.column });
  else if (right > at + room) scrollTo('waves', { left: right - room });
  diagramScrolled();
}

// ---- zoom

// The tick under a place keeps it: that of the pointer, or the middle.
function zoomTo(column, x = roomForColumns() / 2) {
  const tick = (boxOf('waves').left + x) / diagram.column;
  state.zoom = column;
  showDiagram();
  scrollTo('waves', { left: tick * diagram.column - x });
  drawColumns();
}

export const zoom = (step, x) => zoomTo(nextZoom(diagram.column, step), x);

export function zoomToFit() {
  state.zoom = widthToFit(view.session.ticks.length, roomForColumns());
  showDiagram();
}

// Two fingers: as far apart as they are, compared with how they began. One finger scrolls.
let pinch = null;

function fingersMoved(e) {
  if (e.touches.length !== 2) return;
  e.preventDefault();
  const [a, b] = e.touches;
  const distance = Math.hypot(a.clientX - b.clientX, a.clientY - b.clientY);
  pinch ??= { distance, column: diagram.column };
  const column = nearZoom(pinch.column * distance / pinch.distance);
  if (column !== diagram.column) zoomTo(column, (a.clientX + b.clientX) / 2 - byId('waves').getBoundingClientRect().left - boxOf('labels').width);
}

const fingersLeft = () => { pinch = null; };

export function listenToZoom() {
  const waves = byId('waves');
  byId('zoom-in').onclick = () => zoom(1);
  byId('zoom-out').onclick = () => zoom(-1);
  byId('zoom-fit').onclick = zoomToFit;
  waves.addEventListener('wheel', (e) => {
    if (!e.ctrlKey && !e.metaKey) return;
    e.preventDefault();
    zoom(-Math.sign(e.deltaY), e.clientX - waves.getBoundingClientRect().left - boxOf('labels').width);
  }, { passive: false });
  waves.addEventListener('touchmove', fingersMoved, { passive: false });
  for (const end of ['touchend', 'touchcancel']) waves.addEventListener(end, fingersLeft);
}

// ---- marks and distances

const ranNumber = (column) => view.session.ticks.slice(0, column + 1).findLast((e) => e.tick.number)?.tick.number ?? 0;

// "tick line 3 of 9, 0.5 ms; mark at tick 1: 2 ticks, 0.5 ms"
export function whereWords() {
  const { ticks } = view.session;
  const column = columnOf(state.selected);
  const at = column < 0 ? count(ticks.length, 'tick') : `tick line ${column + 1} of ${ticks.length}`;
  const time = column >= 0 && state.tickMs && ranNumber(column) ? `, ${msWords((ranNumber(column) - 1) * state.tickMs)}` : '';
  return `${at}${time}${distanceWords(column)}`;
}

function distanceWords(column) {
  const from = columnOf(state.mark);
  if (from < 0) return '';
  const ticks = column < 0 ? null : Math.abs(ranNumber(column) - ranNumber(from));
  const far = ticks === null ? '' : `: ${count(ticks, 'tick')}${state.tickMs ? `, ${msWords(ticks * state.tickMs)}` : ''}`;
  return `; mark at tick ${ranNumber(from)}${far}`;
}

// The second mark, where the tick is that is looked at; once more there, it is taken away.
export function setMark(index = state.selected) {
  state.mark = columnOf(index) < 0 || state.mark === index ? -1 : index;
  byId('where').textContent = whereWords();
  placeColumn('mark', columnOf(state.mark));
  byId('set-mark').setAttribute('aria-pressed', state.mark >= 0);
}

// ---- jumps

const rowNow = () => view.rows.find((r) => r.name === state.row) ?? view.rows[0];

function showRows(rows) {
  put(byId('row'), rows.map((r) => `<option value="${r.name}">${r.name}</option>`).join(''));
  if (rowNow()) byId('row').value = rowNow().name;
  for (const id of ['row', 'row-next', 'row-before', 'set-mark', 'zoom-in', 'zoom-out', 'zoom-fit']) byId(id).disabled = !view.session.ticks.length;
}

export function chooseRow(name) {
  state.row = name;
  showRows(view.rows);
}

// The next tick, or the one before, in which the row is not as in the tick in front of it. Nothing of a covered tick is told.
export function jump(step) {
  const row = rowNow();
  const ran = view.session.ticks.filter((e) => e.kind === 'tick' && !e.covered);
  const changes = ran.filter((e, i) => row && row.level(e.tick) !== (i > 0 && row.level(ran[i - 1].tick)));
  const next = step > 0 ? changes.find((e) => e.index > state.selected) : changes.findLast((e) => e.index < state.selected);
  if (next) select(next.index);
  return next ? '' : `${row?.name ?? 'Nothing'} does not change ${step > 0 ? 'behind' : 'in front of'} this tick.`;
}
