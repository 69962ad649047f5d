// Showing what the state holds: lines with their answers, connectors, the diagram. It reads the state and never changes it.

import { CONNECTORS, FIRST_CONNECTOR, CLOCKS, SIZES, nameOf, sizeWords, splitLines, bitOf } from './session.js';
import { TRIGGER, addressName, linesOf } from './wire.js';
import { state, view, canUndo, wired, tickLookedAt } from './state.js';
import { describe, hintedInForm, showForm, typeName, withoutNumber } from './form.js';
import { showTabs, showPanel } from './panel.js';
import { showDiagram, columnOf, placeColumn, scrollToColumn, whereWords } from './timing.js';
import { checkedCount } from './exercise.js';
import { boxOf, byId, capital, count, escapeText, put, putRows, scrollTo } from './dom.js';

const REFUSALS_WAIT = 700;
const RUNNING_WAIT = 150; // so that a short run in the worker does not make the page flicker

export function show({ typing = false, moved = false, running = false, caret = false, marked = null, formed = false, wrote = -1 }) {
  document.documentElement.classList.toggle('large', state.large);
  if (byId('text').value !== state.text) byId('text').value = state.text;
  showRunning(running);
  if (running) return;
  if (!moved && !marked) {
    showLines();
    showConnectors();
  }
  showForm();
  if (formed) {
    drawAnswers();
    scrollToPart();
    showRefusals();
    if (state.form) byId('form').scrollIntoView({ block: 'nearest' });
  }
  showDiagram();
  showSelection(typing || marked || formed);
  showTabs();
  showPanel(marked);
  clearTimeout(show.later);
  // Half a line is refused too, and half a wiring has hints. The answer is red at once, but the boxes below wait until the typing pauses, so that they do not
  // flicker.
  if (typing) show.later = setTimeout(showRefusals, REFUSALS_WAIT);
  else if (!moved) showRefusals();
  if (caret) putCaret();
  if (wrote >= 0) scrollToLine(wrote);
}

// ---- while a worker runs

function showRunning(running) {
  clearTimeout(showRunning.later);
  const say = () => {
    document.documentElement.classList.toggle('running', running);
    byId('progress').hidden = !running;
  };
  if (running) {
    byId('progress-words').textContent = `running ${splitLines(state.text).lines.length} lines …`;
    byId('progress-bar').value = 0;
    showRunning.later = setTimeout(say, RUNNING_WAIT);
  } else say();
}

export function showProgress(part) {
  byId('progress-bar').value = part;
}

// A new text has its caret at the end; this brings it to the line that is looked at.
function putCaret() {
  const end = view.session.lines.slice(0, state.selected + 1).join('\n').length;
  byId('text').setSelectionRange(end, end);
}

// ---- lines

const COLUMNS = [19, 31]; // of the lines: the longest that is accepted has thirty characters and the caret
const answered = { first: 0, last: 0 }; // which lines have their answers in the page: where there are many, those in sight

function showLines() {
  const { session } = view;
  const longest = session.lines.reduce((most, line) => Math.max(most, line.length + 1), COLUMNS[0]);
  const editor = byId('editor');
  editor.style.setProperty('--columns', Math.min(longest, COLUMNS[1]));
  editor.style.setProperty('--rows', Math.max(session.lines.length + 1, 4));
  byId('text').readOnly = Boolean(state.cover?.exercise);
  put(byId('tally'), tally());
  byId('hint').classList.toggle('bad', session.disagreements.length > 0);
  byId('hint').textContent = [checkedCount(), ...state.notes, lastLineHint(), disagreementHint()].filter(Boolean).join(' ');
  drawAnswers();
}

const LINES_AROUND = 50;

function linesInSight() {
  const { top, height } = boxOf('editor');
  const first = Math.floor(top / lineHeight());
  return { top: first, bottom: first + Math.ceil(height / lineHeight()) };
}

let lineRow = 0;
export const forgetLineHeight = () => { lineRow = 0; };
const lineHeight = () => (lineRow ||= parseFloat(getComputedStyle(byId('editor')).getPropertyValue('--row')));

function drawAnswers() {
  const { top, bottom } = linesInSight();
  answered.first = Math.max(0, top - LINES_AROUND);
  answered.last = Math.min(view.session.entries.length, bottom + LINES_AROUND);
  const entries = view.session.entries.slice(answered.first, answered.last);
  const own = new Set(state.form ? linesOf(wired(), state.form) : []);
  putRows(byId('gutter'), entries.map((e) => `<div class="${e.covered ? '' : e.kind}${own.has(e.index) ? ' own' : ''}">${e.index + 1}</div>`));
  putRows(byId('answers'), entries.map(answerRow));
  for (const id of ['gutter', 'answers']) byId(id).style.paddingTop = `${answered.first * lineHeight()}px`;
}

export function linesScrolled() {
  const { top, bottom } = linesInSight();
  if (top < answered.first || Math.min(bottom, view.session.entries.length) > answered.last) drawAnswers();
}

function answerRow(e) {
  if (e.covered) return `<div class="answer" data-line="${e.index}"><b>?</b> <span>covered</span></div>`;
  if (e.kind === 'remark') return `<div class="answer remark" data-line="${e.index}"><span>remark</span></div>`;
  const gist = e.kind === 'tick' ? `tick ${e.tick.number}${e.hints.length ? `, ${count(e.hints.length, 'hint')}` : ''}` : gistOf(e);
  return `<div class="answer ${e.kind}${e.astray ? ' astray' : ''}" data-line="${e.index}" title="${escapeText(e.words.join('\n'))}"><b>${escapeText(e.answer)}</b> <span>${escapeText(gist)}</span></div>`;
}

// What plexplain says first, without what the answer and the lines above say already: the refusal's number, the cell's type.
function gistOf(e) {
  if (e.astray && !e.refusal) return `goes to ${nameOf(e.pointer)}: the pointer did not move`;
  return withoutNumber(e).split('\n')[0].replace(/^(cell \d+) \([^)]*\):/, '$1:');
}

function tally() {
  const refused = refusedLines().length;
  const text = `${count(view.session.lines.length, 'line')}, ${count(view.session.ticks.length, 'tick')}`;
  return refused ? `${text}, <strong class="bad">${refused} refused</strong>` : text;
}

const refusedLines = () => view.session.entries.filter((e) => e.kind === 'refused' && !e.covered);

const lastLineHint = () => (splitLines(state.text).lastLineOpen ? 'The last line has no line end yet. plrun would drop it; the page ends it.' : '');

const disagreementHint = () => (view.session.disagreements.length
  ? `plrun and plexplain do not agree at line ${view.session.disagreements.slice(0, 5).join(', ')}: do not trust this page, and report it.` : '');

const REFUSALS_LISTED = 200;
const LONGEST = 80; // bytes of a line that may be accepted

const cutLine = (line) => (line.length > LONGEST ? `${line.slice(0, LONGEST)}…` : line);

function showRefusals() {
  const refused = refusedLines();
  const rows = refused.slice(0, REFUSALS_LISTED).map((e) => `<li><button data-line="${e.index}">line ${e.index + 1}</button>
    <code>${escapeText(cutLine(e.line)) || '(empty)'}</code> <b>${escapeText(e.answer)}</b><div class="said">${escapeText(e.words.join('\n'))}</div></li>`);
  const more = refused.length - rows.length;
  put(byId('refusals'), rows.length ? `<ul>${rows.join('')}</ul>${more > 0 ? `<p>and ${more} more, red in the lines above</p>` : ''}` : '');
  put(byId('wiring-hints'), view.hints.filter((hint) => !hintedInForm(hint)).map((hint) => `<p class="said">${escapeText(hint.words)}</p>`).join(''));
}

// ---- connectors

const PUSH_PULL = 2;

const PLUG = '<svg viewBox="0 0 16 16" aria-hidden="true"><path d="M5 1v4M11 1v4M3 5h10v2a5 5 0 0 1-10 0zM8 12v3"/><path class="strike" d="M2 14 14 2"/></svg>';

const jackHtml = (name, i) => `<div class="jack" data-index="${i}" role="group" aria-label="${name}">
  <span class="lamp" id="lamp-${i}"></span><button class="name" data-place="${FIRST_CONNECTOR + i}" aria-label="Form of ${name}">${name}</button>
  <button class="plug" id="plug-${i}" aria-pressed="true" aria-label="${name} attached" title="${name} attached">${PLUG}</button>
  <button class="switch" id="switch-${i}" role="switch" aria-checked="false" aria-label="${name} high in the next tick"><i></i></button>
  <span class="source" id="source-${i}"></span></div>`;

export function buildConnectors(clocks) {
  const jacks = (from) => CONNECTORS.slice(from, from + 8).map((n, i) => jackHtml(n, from + i)).join('');
  const row = (title, from) => `<div class="jacks" role="group" aria-label="${title}">${jacks(from)}</div>`;
  byId('connectors').innerHTML = row('front', 0) + row('backplane', 8);
  byId('clock').innerHTML = Array.from({ length: 10 }, (_, i) => `<option>${i}</option>`).join('');
  byId('trigger').innerHTML = CLOCKS.map((c) => `<option value="${c}">${c}: ${escapeText(clocks[c])}</option>`).join('');
}

export function showConnectors() {
  const exercise = Boolean(state.cover?.exercise);
  document.documentElement.classList.toggle('exercise', exercise);
  byId('clock').value = state.clock;
  byId('trigger').value = wired().parts[TRIGGER];
  byId('idle').hidden = Number(state.clock) === wired().parts[TRIGGER];
  if (document.activeElement !== byId('title')) byId('title').value = state.title;
  if (document.activeElement !== byId('tick-ms')) byId('tick-ms').value = state.tickMs || '';
  byId('predict').checked = state.predicting;
  byId('undo').disabled = !canUndo();
  for (const id of ['quick', 'full', 'many', 'predict', 'trigger']) byId(id).disabled = exercise;
  document.title = state.title ? `${capital(state.title)} – trigger card` : 'Trigger card';
  for (const cells of SIZES) {
    byId(`cells-${cells}`).setAttribute('aria-pressed', state.cells === cells);
    byId(`cells-${cells}`).disabled = exercise || Boolean(state.task);
  }
  byId('size').textContent = `${sizeWords(state.cells)} cells`;
  byId('by-plrun').hidden = state.cells !== 16;
  CONNECTORS.forEach((name, i) => {
    const c = view.card.parts[FIRST_CONNECTOR + i];
    const jack = byId(`switch-${i}`).parentElement;
    jack.classList.toggle('output', c.type !== 0);
    jack.classList.toggle('pushpull', c.type === PUSH_PULL);
    jack.classList.toggle('wired', c.type !== 0 && c.configuration !== 0);
    jack.classList.toggle('loose', !bitOf(state.attached, i));
    jack.title = `${name}: ${describe(c, FIRST_CONNECTOR + i)}.`;
    byId(`switch-${i}`).setAttribute('aria-checked', bitOf(state.levels, i));
    byId(`plug-${i}`).setAttribute('aria-pressed', bitOf(state.attached, i));
    byId(`source-${i}`).textContent = c.type === 0 ? typeName(c, FIRST_CONNECTOR + i) : `←\u2009${c.configuration === 0 ? '0' : addressName(c.configuration)}`;
  });
}

// The lamps show the tick that is looked at: level, and a ring where the card drives high.
function showLamps(t) {
  CONNECTORS.forEach((name, i) => {
    const lamp = byId(`lamp-${i}`);
    const high = t ? bitOf(t.levels, i) : false;
    const driven = t ? bitOf(t.driven, i) : false;
    lamp.className = `lamp${high ? ' high' : ''}${driven ? ' driven' : ''}`;
    lamp.title = t ? `${name} is ${high ? 'high' : 'low'} in tick ${t.number}${driven ? ', driven high' : ''}` : 'no tick yet';
  });
}

// ---- what is looked at

function showSelection(typing) {
  const { session, rows } = view;
  const entry = session.entries[state.selected];
  const column = columnOf(state.selected);
  byId('where').textContent = whereWords();
  const current = byId('current');
  current.hidden = !entry;
  current.style.setProperty('--line', state.selected);
  const t = tickLookedAt();
  showLamps(t);
  byId('labels').querySelectorAll('.label').forEach((label, i) => label.classList.toggle('high', Boolean(t && rows[i].level(t))));
  describeSlider(column, t);
  const nearest = column >= 0 ? column : session.ticks.findLastIndex((e) => e.index <= state.selected);
  if (nearest >= 0) scrollToColumn(nearest);
  placeColumn('chosen', column);
  if (!typing) scrollToLine();
}

function describeSlider(column, t) {
  const waves = byId('waves');
  waves.setAttribute('aria-valuemax', Math.max(1, view.session.ticks.length));
  waves.setAttribute('aria-valuenow', Math.max(1, column + 1));
  const high = t ? view.rows.filter((r) => r.level(t)).map((r) => r.name).join(', ') || 'none' : '';
  waves.setAttribute('aria-valuetext', t ? `tick ${t.number}, ${t.full ? 'full' : 'quick'}; high: ${high}` : 'no tick yet');
}

// The lines of the part whose form was opened.
function scrollToPart() {
  const own = state.form ? linesOf(wired(), state.form) : [];
  if (own.length) scrollToLine(own.at(-1));
}

function scrollToLine(line = state.selected) {
  const box = boxOf('editor');
  const height = lineHeight();
  const top = line * height;
  if (top < box.top) scrollTo('editor', { top: top - height });
  else if (top + 2 * height > box.top + box.height) scrollTo('editor', { top: top + 3 * height - box.height });
  linesScrolled();
}
