// What the page holds: the lines, the switches of the next tick, what is looked at, what is covered; and all that changes it.
//
// Everything that is said about the card comes from a program's output. A change of the text runs the programs anew, from a fresh card, and so the page
// never holds a card of its own that could differ from theirs.

import { splitLines, asInput, isTick, placesOf, tickInput, tickLine } from './session.js';
import { Stopped, when } from './runs.js';
import { rowsOf } from './diagram.js';
import { coverFrom, unmarked, withMark, judged } from './predict.js';
import { TICK_MS, hashOf } from './link.js';
import { keep, kept } from './keep.js';
import { wiringBefore, rewired, retriggered, restated } from './wire.js';
import { againstWords, focusForm } from './form.js';
import { capital, notice } from './dom.js';

const ALL_ATTACHED = 0xffff;
const TYPING_PAUSE = 700;
const LAST = Infinity;

export const state = {
  // what undo takes back: the lines, the cells of the card, the switches, the example that was opened, what had to be repaired in a file, the title, the
  // length of a tick, the questions about the wiring
  text: '', cells: 16, levels: 0, attached: ALL_ATTACHED, clock: '0', about: null, notes: [], title: '', tickMs: TICK_MS, questions: [],
  task: null, brief: '', // an exercise: ticks with their answers, for which a wiring is to be found; its text
  exercise: null, // the line from which an exercise was covered, while its lines are as they were
  selected: -1, // the line that is looked at
  mark: -1, // the tick line of the second mark
  tab: 'line', allRows: false, zoom: null, row: null, // zoom: pixels of a tick, where it is chosen; row: whose changes are jumped to
  form: null, formSaid: '', // the cell or connector whose form is open, and why its last choice was not written
  large: false, // whether the words take the room of the timing diagram
  anyway: false, // what programs answer is wanted though lines were refused
  predicting: false, // new ticks are covered, until what they do has been predicted
  cover: null, // the covered lines, and what is predicted of the first tick among them
  score: [], // of each tick that was predicted, what was as predicted
};

// What the programs said of the lines; `running` while a worker is still at newer lines. `at` is the card at the line that is looked at.
export const view = { session: null, card: null, hints: [], at: null, rows: [], running: false };

const past = [];
const undone = [];
const cards = new Map(); // by line and form, since the last run
let runs = null;
let changed = () => {}; // what shows the page
let reportFailure = () => {};
let lastTyped = 0;
let waitingRun = null; // lines that came while a worker was busy: which of them to look at, and how to show it

export function startState(itsRuns, show, fail) {
  runs = itsRuns;
  changed = show;
  reportFailure = fail;
  takeRun(runs.ask(state.cells, 'whole', []), -1);
}

export const programsOfSize = (cells) => runs.programs[cells];
export const programs = () => programsOfSize(state.cells);
export const askStream = (name, input, onText) => runs.stream(state.cells, name, input, onText);
export const stopStream = () => runs.stopStream();
export const has = (name) => name in programs();
export const canUndo = () => past.length > 0;
export const forgetPast = () => { past.length = 0; };

const UNDOABLE = ['text', 'cells', 'levels', 'attached', 'clock', 'about', 'notes', 'title', 'tickMs', 'questions', 'task', 'brief'];
const snapshot = () => ({ ...Object.fromEntries(UNDOABLE.map((k) => [k, state[k]])), selected: state.selected });

// A run of keystrokes is one step of undo.
function remember(typing) {
  const now = Date.now();
  if (!typing || now - lastTyped > TYPING_PAUSE) past.push(snapshot());
  lastTyped = typing ? now : 0;
}

// Everything that changes lines or switches goes through here. A switch that is set does not uncover a tick.
export function change(patch, { typing = false, caret = false, wrote = -1, select = state.selected, cover = null, score = [], opened = false } = {}) {
  remember(typing);
  undone.length = 0;
  work.touched = !opened;
  if (!opened) notice('');
  Object.assign(state, patch, { formSaid: '' });
  if (state.form && !placesOf(state.cells).includes(state.form)) state.form = null;
  if (!('text' in patch) && !('cells' in patch)) {
    keepInAddress();
    return changed({ typing });
  }
  Object.assign(state, { cover, score, exercise: cover?.exercise ? cover.first : null, anyway: false });
  return rerun(select, { typing, caret, wrote });
}

export const undo = () => goBack(past, undone);
export const redo = () => goBack(undone, past);

function goBack(from, to) {
  const target = from.pop();
  if (!target) return;
  notice('');
  to.push(snapshot());
  const { selected, ...rest } = target;
  work.touched = true;
  Object.assign(state, coverBack(rest.text), rest, { formSaid: '' });
  rerun(selected, { caret: true });
}

// Where undo or redo only takes ticks or gives them, covered ones stay covered. An exercise ends by it.
function coverBack(text) {
  const onlyEnds = text.startsWith(state.text) || state.text.startsWith(text);
  if (!onlyEnds || state.cover?.exercise) return { cover: null, score: [] };
  const [now, then] = [state.text, text].map((t) => splitLines(t).lines.length);
  return { cover: state.cover ?? (state.predicting && then > now ? coverFrom(now, false) : null), score: state.score.filter((t) => t.index < then) };
}

// ---- runs

// One run at a time: while a worker is busy the newest lines wait, and what it gives for older ones is not shown.
function rerun(select, how) {
  waitingRun = [select, how];
  if (view.running) return changed({ running: true });
  const answer = runs.ask(state.cells, 'whole', splitLines(state.text).lines);
  waitingRun = null;
  view.running = answer instanceof Promise;
  if (view.running) changed({ running: true });
  return when(answer, (run) => {
    view.running = false;
    if (waitingRun) rerun(...waitingRun);
    else {
      takeRun(run, select);
      changed(how);
    }
  })?.catch?.((error) => {
    view.running = false;
    if (!(error instanceof Stopped)) reportFailure(error);
  });
}

// A run that takes too long is given up, and the lines are as they were before it.
export function stopRun() {
  if (!view.running) return;
  runs.stop();
  view.running = false;
  waitingRun = null;
  const target = past.pop();
  if (target) {
    const { selected, ...rest } = target;
    Object.assign(state, rest);
    state.selected = Math.min(selected, view.session.lines.length - 1);
  }
  changed({});
  notice('Stopped: the lines are as they were.');
}

function takeRun({ session, hints }, select) {
  Object.assign(view, { session, hints });
  cards.clear();
  view.card = cardAt(session.lines.length - 1);
  state.selected = Math.min(select, session.lines.length - 1);
  if (!session.entries[state.mark]?.tick) state.mark = -1;
  placeCover();
  keepInAddress();
}

export function select(index) {
  state.selected = Math.max(-1, Math.min(index, view.session.entries.length - 1));
  lookAt();
  keepInAddress();
  changed({ moved: true });
}

// The card behind the lines before `end`, by their rows; with the states that its ticks gave, or as it was wired.
function cardBefore(end, withTicks) {
  const key = `${end} ${withTicks}`;
  if (!cards.has(key)) cards.set(key, wiringBefore(programs(), view.session.lines, view.session.entries, end, withTicks));
  return cards.get(key);
}

export const cardAt = (index) => cardBefore(index + 1, true);

// Where a line was refused, the programs that answer about a wiring answer only if that is asked for.
export const outputFor = ({ name, of, words, anyway }, asked = state.anyway) => runs.ask(state.cells, 'output', view.session.lines, name, of,
  [...(words?.() ?? []), ...(anyway && asked ? ['--anyway'] : [])]);

export function outputsFor(table) {
  const outputs = table.map((program) => outputFor(program));
  return outputs.some((o) => o instanceof Promise) ? Promise.all(outputs) : outputs;
}

// Labels go by the card at the line that is looked at, or at the last line that is not covered.
function lookAt() {
  view.at = cardAt(Math.min(state.selected, (state.cover?.from ?? Infinity) - 1));
  makeRows();
}

export function makeRows() {
  view.rows = rowsOf(view.session, view.card, view.at, state.allRows);
}

// ---- lines and ticks

const ended = (text) => (text === '' || text.endsWith('\n') ? text : text + '\n');

export function tick(kind, count = 1) {
  if (state.cover?.exercise) return;
  const text = ended(state.text) + asInput(Array(count).fill(tickLine(state, kind)));
  const cover = state.predicting ? state.cover ?? coverFrom(splitLines(state.text).lines.length, false) : null;
  if (cover) state.tab = 'line';
  change({ text }, { select: cover?.from ?? LAST, cover, score: state.score });
}

export const toggleBit = (key, index) => change({ [key]: state[key] ^ (1 << index) });

// A preset goes below the line that is looked at.
export function addPreset(number) {
  const { lines } = splitLines(state.text);
  const at = state.selected + 1;
  lines.splice(at, 0, `36CCA X=${number}`);
  change({ text: asInput(lines) }, { select: at });
}

// The switches are set as in the last tick line, so that the next tick goes on from there.
export function openText(text, { select: at = LAST, coveredFrom = null, ...given } = {}) {
  const last = splitLines(text).lines.findLast((line) => /^T \d [0-9a-f]{4} [0-9a-f]{4} [FQ]$/.test(line));
  const { clock, sample, attached } = last ? tickInput(last) : { clock: '0', sample: 0, attached: ALL_ATTACHED };
  const cover = coveredFrom === null ? null : coverFrom(coveredFrom, true);
  const fresh = { about: null, notes: [], task: null, brief: '', title: given.about ? capital(given.about.title) : '', tickMs: TICK_MS, questions: [] };
  const { task, about } = { ...fresh, ...given };
  const exercise = task || cover;
  if (task || !['drawing', 'reach'].includes(state.tab)) state.tab = task || (exercise && given.brief) ? 'task' : about ? 'about' : 'line';
  if (given.questions?.length && !exercise) state.tab = 'reach';
  Object.assign(state, { mark: -1, zoom: null });
  // A wiring that is to be found is written above the ticks.
  change({ text, ...fresh, ...given, levels: sample, attached, clock }, { select: cover ? coveredFrom : task ? -1 : at, cover, caret: Boolean(task), opened: true });
  if (cover) goOnWithExercise();
}

// The last tick that ran, at the line that is looked at or before it.
export function tickLookedAt() {
  return view.session.ticks.findLast((e) => e.index <= state.selected && e.kind === 'tick' && !e.covered)?.tick ?? null;
}

// The lines in front of the first tick, as programs get them: what is asked of a wiring is asked of these. An empty line would end them, and does nothing.
export function wiringLines() {
  return wiringEntries().map((e) => e.line);
}

function wiringEntries() {
  const first = view.session.ticks[0]?.index ?? view.session.lines.length;
  return view.session.entries.slice(0, first).filter((e) => e.kind !== 'remark' && e.line !== '');
}

// The number in the editor of the n-th of these.
export const editorLineOf = (n) => (wiringEntries()[n - 1]?.index ?? n - 1) + 1;

// Ticks behind the wiring, in place of those that are there.
export function putTicks(ticks) {
  const first = view.session.ticks[0]?.index ?? view.session.lines.length;
  const gone = view.session.lines.slice(first).filter(isTick).length;
  change({ text: asInput([...view.session.lines.slice(0, first), ...ticks]) }, { select: LAST });
  notice(gone ? `${ticks.length} ticks stand behind the wiring now, in place of ${gone}. Undo brings those back.` : '');
}

// ---- the wiring that a form shows

// The wiring that the tick looked at worked with: all lines in front of that tick, or of the next one.
function wiringEnd() {
  const next = view.session.ticks.find((e) => e.index >= Math.max(0, state.selected));
  return Math.min(next?.index ?? view.session.lines.length, state.cover?.from ?? Infinity);
}

export const wired = () => cardBefore(wiringEnd(), false);
wired.fresh = () => cardBefore(0, false);

// The states in front of the tick that is looked at, ticks and all.
export const wiredStates = () => cardBefore(wiringEnd(), true).states;

export function openForm(place) {
  const before = state.form;
  Object.assign(state, { form: place, formSaid: '' });
  changed({ moved: true, formed: true });
  if (!before || !place) focusForm(place ?? before);
}

const mayRewire = () => !view.running && !state.cover?.exercise;

// Writes a part as wanted into the lines; where that does not go, it says so at the form. The tick that is looked at stays the same one.
export function rewire(place, wanted, initial) {
  if (mayRewire()) writeFound(rewired(programs(), view.session.lines, wiringEnd(), place, wanted, initial), sayAtForm);
}

export function setState(place, value) {
  if (mayRewire()) writeFound(restated(programs(), view.session.lines, wiringEnd(), place, value), sayAtForm);
}

// The ticks that are made from now on are of that clock too.
export function setTrigger(clock) {
  if (mayRewire()) writeFound(retriggered(programs(), view.session.lines, wiringEnd(), clock), notice, { clock: String(clock) });
}

function writeFound(found, say, patch = {}) {
  const end = wiringEnd();
  if (found.against) return say(againstWords(found.against));
  if (found.changed < 0) return say('');
  const atTick = state.selected >= 0 && isTick(view.session.lines[state.selected] ?? '');
  change({ text: asInput(found.lines), ...patch }, { select: atTick ? state.selected + found.end - end : found.changed, wrote: found.changed });
  return say(found.spoilt?.length ? `Written; but line ${found.spoilt.map((i) => i + 1).join(', ')}, behind a tick, is refused now.` : '');
}

function sayAtForm(words) {
  if (words === state.formSaid) return;
  state.formSaid = words;
  changed({ moved: true });
}

// ---- covered ticks

function coverEntries() {
  const from = state.cover?.from ?? Infinity;
  for (const entry of view.session.entries) entry.covered = entry.index >= from;
}

// The cover begins at the first tick that ran at or behind its line: what stands before that is shown. Where there is none, nothing is covered.
function placeCover() {
  const ran = view.session.ticks.filter((e) => e.kind === 'tick');
  const next = state.cover && ran.find((e) => e.index >= state.cover.from);
  state.cover = next ? { ...state.cover, from: next.index } : null;
  coverEntries();
  lookAt();
  if (next && !state.cover.high) state.cover = unmarked(state.cover, view.rows, ran.findLast((e) => e.index < next.index)?.tick);
}

export function mark(kind, name) {
  if (!state.cover?.high) return;
  state.cover = withMark(state.cover, kind, name);
  changed({ marked: `${kind} ${name}` });
}

// Uncovers the tick that is asked about, and counts what was predicted of it. The next one is covered still.
export function uncover() {
  const { cover } = state;
  if (!cover?.high) return;
  const entry = view.session.entries[cover.from];
  state.score = [...state.score, { index: entry.index, ...judged(cover, view.rows, entry.tick) }];
  state.cover = { ...cover, from: entry.index + 1, high: null };
  state.selected = entry.index;
  placeCover();
  keepExercise();
  changed({});
}

// An exercise that was begun goes on where it was.
const exerciseKey = () => `exercise ${state.exercise} ${state.text}`;

function keepExercise() {
  if (state.exercise !== null) keep(exerciseKey(), { from: state.cover?.from ?? null, score: state.score });
}

function goOnWithExercise() {
  const found = kept(exerciseKey());
  if (!found?.score?.length) return;
  state.score = found.score;
  state.cover = found.from === null ? null : { ...state.cover, from: found.from, high: null };
  state.selected = found.from ?? view.session.lines.length - 1;
  placeCover();
  changed({});
}

// Shows all that is covered. It is not counted.
export function uncoverAll() {
  state.cover = null;
  placeCover();
  keepInAddress();
  changed({});
}

export function setPredicting(on) {
  state.predicting = on;
  if (on) state.score = [];
  else if (state.cover) uncoverAll();
}

// ---- the address, and what the browser keeps

const work = { timer: 0, touched: false };

function keepInAddress() {
  clearTimeout(work.timer);
  work.timer = setTimeout(writeAddress, 300);
}

const KEPT = ['text', 'cells', 'title', 'tickMs', 'questions', 'task', 'brief'];

// Only what somebody has worked on: what was only opened and looked at does not take the place of it. An exercise with covered ticks is kept by itself.
export function keepWork() {
  if (work.touched && state.exercise === null) keep('work', Object.fromEntries(KEPT.map((k) => [k, state[k]])));
}

export function linkNow() {
  const looksAt = !state.cover && state.selected < view.session.lines.length - 1 ? state.selected : null;
  return hashOf({ ...state, looksAt, coveredFrom: state.exercise });
}

export async function writeAddress() {
  clearTimeout(work.timer);
  keepWork();
  window.history.replaceState(null, '', await linkNow());
}
