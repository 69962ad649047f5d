// The start of the page, and what buttons, keys and pointers do.

import { compileModules } from './programs.js';
import { makeRuns } from './runs.js';
import { SIZES, sizeWords } from './session.js';
import { columnAt, rowAt, setRowHeight } from './diagram.js';
import { listenToForm, describeParts, newCell } from './form.js';
import { drawingFile } from './drawing.js';
import { showCompletions, keyInCompletions, listenToCompletions } from './complete.js';
import { state, view, openForm, startState, forgetPast, change, undo, redo, select, makeRows, tick, toggleBit, setTrigger, stopRun } from './state.js';
import { mark, uncover, uncoverAll, setPredicting } from './state.js';
import { show, showConnectors, buildConnectors, forgetLineHeight, linesScrolled, showProgress } from './show.js';
import { placeColumn, diagramScrolled, diagram, chooseRow, jump, listenToZoom, setMark, zoom, zoomToFit } from './timing.js';
import { buildTabs, openTab, panelScrolled, picture, showPanel, tabIds } from './panel.js';
import { describeReach, pressedInReach, changedInReach } from './questions.js';
import { describePapers, listenToPapers } from './manual.js';
import { openAddress, openKept, savePromises } from './files.js';
import { buildMenus, listenToMenus, openExample, saveProgram } from './menus.js';
import { copyResult, listenToExercises } from './exercise.js';
import { listenToRack } from './rack.js';
import { fillSheet } from './sheet.js';
import { byId, count, download, failed, measureAgain, notice } from './dom.js';

window.addEventListener('error', (e) => failed(e.error ?? e.message));
window.addEventListener('unhandledrejection', (e) => failed(e.reason));

// ---- lines

const lineOfCaret = (area) => area.value.slice(0, area.selectionStart).split('\n').length - 1;

function lineClicked(e) {
  const at = e.target.closest('[data-line]');
  if (at) select(Number(at.dataset.line));
}

function listenToLines() {
  const area = byId('text');
  area.addEventListener('input', () => {
    change({ text: area.value }, { typing: true, select: lineOfCaret(area) });
    showCompletions(area);
  });
  document.addEventListener('selectionchange', () => {
    if (document.activeElement !== area || view.running) return;
    const line = Math.min(lineOfCaret(area), view.session.entries.length - 1);
    if (line !== state.selected) select(line);
  });
  byId('editor').addEventListener('scroll', linesScrolled, { passive: true });
  byId('answers').addEventListener('click', lineClicked);
  byId('refusals').addEventListener('click', lineClicked);
  byId('stop').onclick = stopRun;
  byId('title').addEventListener('input', (e) => change({ title: e.target.value }, { typing: true }));
}

// ---- the next tick

const MOST_TICKS = 100000;

// As many as it says, or none.
function manyTicks() {
  const count = Number(byId('count').value);
  if (!Number.isInteger(count) || count < 1) notice('How many ticks? A whole number, 1 or more.');
  else if (count > MOST_TICKS) notice(`At most ${MOST_TICKS} ticks at a time.`);
  else tick('Q', count);
}

// The lines stay as they are; what the other card refuses is red.
function setCells(cells) {
  if (cells === state.cells) return;
  change({ cells });
  const refused = view.running ? 0 : view.session.entries.filter((e) => e.kind === 'refused').length;
  notice(`The card has ${sizeWords(cells)} cells now; the lines are the same${refused ? `, and it refuses ${count(refused, 'line')} of them` : ''}.`);
}

function listenToBench() {
  for (const cells of SIZES) byId(`cells-${cells}`).onclick = () => setCells(cells);
  byId('quick').onclick = () => tick('Q');
  byId('full').onclick = () => tick('F');
  byId('many').onclick = manyTicks;
  byId('undo').onclick = undo;
  byId('clock').onchange = () => change({ clock: byId('clock').value });
  byId('trigger').onchange = () => {
    setTrigger(Number(byId('trigger').value));
    showConnectors();
  };
  byId('fold').onclick = () => {
    document.documentElement.classList.toggle('fold-toggled');
    byId('fold').setAttribute('aria-expanded', byId('connectors').checkVisibility());
  };
  byId('connectors').addEventListener('click', (e) => {
    const jack = e.target.closest('.jack');
    if (!jack) return;
    const index = Number(jack.dataset.index);
    if (e.target.closest('.plug')) toggleBit('attached', index);
    else if (e.target.closest('.switch')) toggleBit('levels', index);
  });
}

// ---- the diagram

const jumpTo = (step) => notice(jump(step));

function listenToDiagram() {
  const plot = byId('plot');
  const column = (e) => columnAt(e.clientX - plot.getBoundingClientRect().left, view.session.ticks.length, diagram.column);
  const row = (e) => view.rows[rowAt(e.clientY - byId('drawing').getBoundingClientRect().top)];
  plot.addEventListener('pointermove', (e) => {
    placeColumn('hover', column(e));
    const reason = reasonAt(view.session.ticks[column(e)], row(e));
    if (plot.title !== reason) plot.title = reason;
  });
  plot.addEventListener('pointerleave', () => placeColumn('hover', -1));
  plot.addEventListener('click', (e) => {
    const entry = view.session.ticks[column(e)];
    if (entry) columnClicked(entry, row(e), e.shiftKey);
  });
  byId('waves').addEventListener('scroll', diagramScrolled, { passive: true });
  byId('predict').onchange = (e) => setPredicting(e.target.checked);
  byId('all-rows').onchange = (e) => {
    state.allRows = e.target.checked;
    makeRows();
    show({ moved: true });
  };
  byId('row').onchange = () => chooseRow(byId('row').value);
  byId('row-next').onclick = () => jumpTo(1);
  byId('row-before').onclick = () => jumpTo(-1);
  byId('set-mark').onclick = () => setMark();
  byId('tick-ms').onchange = (e) => change({ tickMs: Math.max(0, Number(e.target.value)) || 0 });
  listenToZoom();
}

// Why the cell of a row woke in a tick.
function reasonAt(entry, row) {
  if (!row?.cell || !entry || entry.covered || entry.tick.idle) return '';
  return entry.words.find((text) => text.startsWith(`${row.name} (`)) ?? '';
}

function columnClicked(entry, row, withShift) {
  if (row && entry.index === state.cover?.from && state.selected === entry.index) {
    if (!withShift) mark('high', row.name);
    else if (row.woken) mark('wakes', row.name);
    return;
  }
  if (withShift) return setMark(entry.index);
  if (row) state.row = row.name;
  if (!['card', 'drawing', 'reach', 'tables'].includes(state.tab)) state.tab = 'line';
  select(entry.index);
}

// The tick before or after the line that is looked at.
function stepTick(step) {
  const { ticks } = view.session;
  const next = step > 0 ? ticks.find((e) => e.index > state.selected) : ticks.findLast((e) => e.index < state.selected);
  if (next) select(next.index);
}

function stepRow(step) {
  const at = Math.max(0, view.rows.findIndex((r) => r.name === state.row));
  const next = view.rows[Math.max(0, Math.min(view.rows.length - 1, state.row ? at + step : at))];
  if (next) chooseRow(next.name);
}

// ---- tabs

const PRESSES = {
  uncover, uncoverAll, next: predictNext, newCell, saveDrawing, anyway: takeAnyway, openRecord: () => byId('file').click(), copyResult, savePromises,
};

function listenToTabs() {
  byId('tabs').addEventListener('click', (e) => {
    const tab = e.target.closest('[role=tab]');
    if (tab) openTab(tab.id.slice(4));
  });
  byId('larger').onclick = enlarge;
  byId('tabs').addEventListener('keydown', (e) => {
    const step = { ArrowLeft: -1, ArrowRight: 1 }[e.key];
    if (!step) return;
    e.stopPropagation();
    const ids = tabIds();
    openTab(ids[(ids.indexOf(state.tab) + step + ids.length) % ids.length]);
    byId(`tab-${state.tab}`).focus();
  });
  byId('panel').addEventListener('scroll', panelScrolled, { capture: true, passive: true });
  byId('panel').addEventListener('change', (e) => {
    const [, kind, name] = e.target.dataset.mark?.match(/^(\w+) (.*)$/) ?? [];
    if (kind) mark(kind, name);
    else if (e.target.id === 'picture-from') pictureFrom(e.target.value);
    else changedInReach(e.target);
  });
  byId('panel').addEventListener('click', (e) => {
    const button = e.target.closest('button');
    if (!button || pressedInReach(button)) return;
    Object.keys(PRESSES).find((name) => name in button.dataset && (PRESSES[name](), true));
    if (button.dataset.save) saveProgram(button.dataset.save);
    if (button.dataset.example) openExample(button.dataset.example, 0);
  });
}

function takeAnyway() {
  state.anyway = true;
  showPanel();
}

function pictureFrom(value) {
  picture.from = Math.max(1, Math.round(Number(value)) || 1);
  showPanel();
}

// Whatever shows a cell or a connector by name opens its form.
function listenToPlaces() {
  const pressed = (e) => {
    const at = e.target.closest('[data-place]');
    if (at) openForm(Number(at.dataset.place));
    return Boolean(at);
  };
  document.addEventListener('click', pressed);
  byId('panel').addEventListener('keydown', (e) => {
    if ((e.key === 'Enter' || e.key === ' ') && e.target.matches('g[data-place]') && pressed(e)) e.preventDefault();
  });
}

function enlarge() {
  state.large = !state.large;
  byId('larger').setAttribute('aria-pressed', state.large);
  show({ moved: true });
}

function saveDrawing() {
  const rules = [...document.styleSheets[0].cssRules].map((r) => r.cssText).filter((r) => /^\.wiring[ {]/.test(r));
  const colours = getComputedStyle(document.documentElement);
  download('wiring.svg', drawingFile(rules, (name) => colours.getPropertyValue(name)));
}

function predictNext() {
  state.tab = 'line';
  if (state.cover) select(state.cover.from);
}

// Uncovers the tick that is asked about, or goes on to it.
function answer() {
  if (state.cover && state.selected !== state.cover.from) predictNext();
  else uncover();
}

// ---- keys

const LETTERS = {
  q: () => tick('Q'), f: () => tick('F'), n: manyTicks, u: undo, r: redo, a: answer, m: () => setMark(),
  '+': () => zoom(1), '=': () => zoom(1), '-': () => zoom(-1), 0: zoomToFit, ',': () => jumpTo(-1), '.': () => jumpTo(1),
  ArrowLeft: () => stepTick(-1), ArrowRight: () => stepTick(1), ArrowUp: () => stepRow(-1), ArrowDown: () => stepRow(1),
  Home: () => view.session.ticks.length && select(view.session.ticks[0].index), End: () => view.session.ticks.length && select(view.session.ticks.at(-1).index),
};

function listenToKeys() {
  document.addEventListener('keydown', (e) => {
    const inText = e.target.matches?.('textarea, input:not([type=checkbox]), select');
    if (inText ? keyInText(e) : keyOutside(e)) e.preventDefault();
  });
}

function keyInText(e) {
  if (e.target.id !== 'text') return false;
  if (keyInCompletions(e)) return true;
  if (e.key === 'Escape') e.target.blur();
  else if (e.key === 'Enter' && (e.ctrlKey || e.metaKey)) tick(e.shiftKey ? 'F' : 'Q');
  else if (e.key.toLowerCase() === 'z' && (e.ctrlKey || e.metaKey)) (e.shiftKey ? redo : undo)();
  else return false;
  return true;
}

// In the words, and where a menu is open, Home, End and the arrows up and down belong to the scrolling.
const scrollsItself = (e) => /^(Home|End|ArrowUp|ArrowDown)$/.test(e.key) && (e.target.id === 'panel' || document.querySelector(':popover-open'));

function keyOutside(e) {
  if (e.ctrlKey || e.metaKey || e.altKey || document.querySelector('dialog[open]')) return false;
  const digit = e.code.match(/^Digit(\d)$/)?.[1];
  const index = digit && (e.shiftKey ? Number(digit) + 8 : Number(digit) - 1);
  if (digit && index >= (e.shiftKey ? 8 : 0) && index < (e.shiftKey ? 16 : 8)) toggleBit('levels', index);
  else if (LETTERS[e.key] && !scrollsItself(e)) LETTERS[e.key]();
  else return false;
  return true;
}

// ---- the size of the window

const SMALL = window.matchMedia('(max-width: 900px), (max-height: 500px)');
const [ROW, FINGER_ROW] = [24, 40];

function fitWindow() {
  setRowHeight(SMALL.matches ? FINGER_ROW : ROW);
  measureAgain();
  forgetLineHeight();
}

// ---- start

const jsonOf = (id) => JSON.parse(byId(id).textContent);

async function start() {
  const material = jsonOf('material');
  const runs = makeRuns(await compileModules(jsonOf('wasm')), byId('worker').textContent);
  runs.onProgress(showProgress);
  for (const program of material.programs) if (program.image) program.words = () => (picture.from > 1 ? ['--from', String(picture.from)] : []);
  fitWindow();
  buildMenus(material);
  buildConnectors(material.clocks);
  buildTabs(material.programs, material.steps);
  describeParts(material.parts, material.steps);
  describePapers(material);
  describeReach(material.reach, material.steps);
  startState(runs, show, failed);
  [listenToLines, listenToBench, listenToDiagram, listenToTabs, listenToMenus, listenToPapers, listenToExercises, listenToRack, listenToKeys, listenToForm,
    listenToPlaces, listenToCompletions].forEach((listen) => listen());
  window.addEventListener('beforeprint', fillSheet);
  window.addEventListener('resize', () => {
    fitWindow();
    show({ moved: true });
  });
  window.addEventListener('hashchange', openAddress);
  const linked = location.hash.startsWith('#w=');
  if (!(await openAddress()) && (linked || !openKept())) openExample('first', 0);
  forgetPast();
  showConnectors();
  document.documentElement.dataset.ready = 'yes';
}

start().catch(failed);
