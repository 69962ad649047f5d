// Exercises behind a link. One covers ticks, and who opens it predicts them. The other hands out ticks with their answers and no wiring: who opens it writes
// a wiring above the ticks, and plcheck compares. Each has a text of its own, and gives a result to hand in.

import { decoded } from './programs.js';
import { asInput, entriesOf, isRemark, withoutRemarks } from './session.js';
import { foundWords, totals } from './predict.js';
import { hashOf } from './link.js';
import { keep, kept } from './keep.js';
import { state, view, programs, has, openText } from './state.js';
import { byId, capital, copied, count, escapeText } from './dom.js';

const ranTicks = () => view.session.ticks.filter((e) => e.kind === 'tick');

const handedOut = () => ({ cells: state.cells, brief: byId('exercise-text').value.trim(), title: state.title, tickMs: state.tickMs });

// ---- ticks to predict

function coveredFrom() {
  const ran = ranTicks();
  const number = Math.max(1, Math.min(ran.length, Math.round(Number(byId('exercise-from').value)) || 1));
  return ran[number - 1]?.index ?? null;
}

const covered = () => ({ text: asInput(view.session.lines), coveredFrom: coveredFrom(), ...handedOut() });

// ---- a wiring to find

const firstTick = () => view.session.ticks[0]?.index ?? view.session.lines.length;

// The lines from the first tick on, as the manual writes them: with the answers that plrun gave; or, where any cells may be used, the ticks alone and the
// levels of the connectors behind each.
function taskOf(entries, anyCells) {
  const asked = entries.slice(firstTick()).filter((e) => e.kind !== 'remark');
  const whole = (e) => [`> ${e.line}`, e.answer];
  const levels = (e) => [e.line, ...(e.kind === 'tick' ? ['> 36RDADC X?', `:A ${e.tick.levels & 0xff}`, '> 36RDADC Y?', `:A ${e.tick.levels >> 8}`] : [])];
  return { text: asInput(asked.map((e) => e.line)), task: asInput(asked.flatMap(anyCells ? levels : whole)) };
}

const unwired = () => ({ ...taskOf(view.session.entries, byId('task-any').checked), ...handedOut() });

// The rows of the task: the lines that it enters, each with the answer that must come where there is one.
function enteredIn(task) {
  const rows = [];
  task.split('\n').forEach((text, at) => {
    const row = text.replace(/(^|\s+)#.*$/, '');
    if (row.startsWith('> ')) rows.push({ at, line: row.slice(2), wanted: null });
    else if (row && rows.length && rows.at(-1).wanted === null && rows.at(-1).asked !== false) rows.at(-1).wanted = row;
    else if (row) rows.push({ at, line: row, wanted: null, asked: false });
  });
  return rows;
}

// plcheck counts the lines that it gets: the wiring, and the task with its answers. This gives the line of the editor for each.
function editorLines(wiring) {
  const shown = view.session.lines.slice(wiring.length);
  let next = 0;
  const rows = enteredIn(state.task).map((r) => {
    while (isRemark(shown[next] ?? '')) next += 1;
    if (shown[next] === r.line) next += 1;
    return { ...r, number: wiring.length + next };
  });
  return (n) => (n <= wiring.length ? n : rows.findLast((r) => r.at < n - wiring.length)?.number ?? n);
}

// What plcheck says of the lines above the first tick, and the ticks of the exercise behind them.
function checkedWords() {
  const wiring = view.session.lines.slice(0, firstTick());
  const numberOfLine = editorLines(wiring);
  return decoded(programs().plcheck(asInput(wiring) + state.task).output).trimEnd().replace(/^Line (\d+)/gm, (_, n) => `Line ${numberOfLine(Number(n))}`);
}

// How many answers agree: its last line.
export const checkedCount = () => (state.task ? `Exercise: ${checkedWords().split('\n').at(-1)}.` : '');

// Each answer that must come beside the one that came.
function comparedLines() {
  const wiring = withoutRemarks(view.session.lines.slice(0, firstTick()));
  const rows = enteredIn(state.task);
  const came = entriesOf(programs(), [...wiring, ...rows.map((r) => r.line)]).slice(wiring.length);
  const tickAt = (i) => came.slice(0, i + 1).findLast((e) => e.tick?.number)?.tick.number ?? 0;
  return rows.map((r, i) => ({ ...r, came: came[i].answer, tick: tickAt(i) })).filter((r) => r.wanted !== null);
}

// ---- the tab

export const isExercise = () => Boolean(state.task) || state.exercise !== null;

const textHtml = (text) => text.split(/\n\s*\n/).filter(Boolean).map((p) => `<p>${escapeText(p).replace(/\n/g, '<br>')}</p>`).join('');

const briefHtml = () => `<div class="prose">${state.brief ? textHtml(state.brief) : state.about?.html ?? ''}</div>`;

const resultHtml = () => `<p class="tools hand-in"><label>Name <input id="student" value="${escapeText(kept('name') ?? '')}" autocomplete="name"></label>
  <button data-copy-result>Copy my result</button></p><textarea id="result" readonly hidden rows="8" aria-label="My result"></textarea>`;

export function taskHtml() {
  const title = `<h3>${state.task ? 'Find the wiring' : 'Predict the ticks'}${state.title ? `: ${escapeText(state.title)}` : ''}</h3>`;
  if (!state.task) {
    const next = state.cover ? '<button class="main" data-next>Predict</button>' : '';
    return `${title}${briefHtml()}<p class="tools">${next} <span class="quiet">${scoreWords()}</span></p>${resultHtml()}`;
  }
  return `${title}${briefHtml()}
    <p class="quiet">Write it above the first tick. plcheck gives the card your lines above the first tick, then the ticks of the exercise, and compares.</p>
    <pre class="plcheck">${escapeText(checkedWords())}</pre>${resultHtml()}
    <details><summary>The ticks of the exercise, with the answers that must come</summary><pre>${escapeText(state.task)}</pre></details>`;
}

// ---- the result

function scoreWords() {
  const { ticks, perfect, right, asked } = totals(state.score);
  return ticks ? `${perfect} of ${count(ticks, 'tick')} without a miss, ${right} of ${asked} marks right` : 'Nothing is predicted yet.';
}

const predictedLines = () => state.score.map((t) => `tick ${t.number}: ${t.asked - t.missed.length} of ${t.asked}${t.missed.length ? `; not as predicted: ${t.missed.map(foundWords).join(', ')}` : ''}`);

const answeredLines = () => comparedLines().map((r) => `${r.tick ? `tick ${r.tick}: ` : ''}${r.line}: ${r.came === r.wanted ? `${r.came}, as it must be` : `expected ${r.wanted}, came ${r.came}`}`);

// What is handed in: the name, the score, tick by tick, and the lines.
export function resultText() {
  const lines = state.task ? view.session.lines.slice(0, firstTick()) : view.session.lines;
  const head = [`Exercise: ${state.title ? capital(state.title) : state.task ? 'find the wiring' : 'predict the ticks'}`, `Name: ${kept('name') ?? ''}`,
    `Score: ${state.task ? checkedWords().split('\n').at(-1) : scoreWords()}`];
  return [...head, '', ...(state.task ? answeredLines() : predictedLines()), '', 'Lines:', ...lines, ''].join('\n');
}

export async function copyResult() {
  keep('name', byId('student').value.trim());
  byId('result').value = resultText();
  byId('result').hidden = false;
  if (!(await copied(byId('result').value, 'Result'))) byId('result').select();
}

// ---- the menu

async function handOut(exercise) {
  const address = location.href.replace(/#.*/, '') + await hashOf(exercise);
  byId('exercise-link').value = address;
  byId('exercise-link').hidden = false;
  if (!(await copied(address, 'Exercise link'))) byId('exercise-link').select();
}

function tryHere({ text, ...exercise }) {
  byId('exercise').hidePopover();
  openText(text, exercise);
}

function showMenu() {
  const ran = ranTicks();
  const looked = ran.slice(0, -1).find((e) => e.index === state.selected);
  byId('exercise-from').value = looked?.tick.number ?? 1;
  byId('exercise-from').max = ran.length;
  byId('exercise-none').hidden = ran.length > 0;
  byId('exercise-file').hidden = location.protocol !== 'file:';
  byId('exercise-link').hidden = true;
  for (const button of byId('exercise').querySelectorAll('.tools button')) button.disabled = ran.length === 0;
}

export function listenToExercises() {
  byId('task').hidden = !has('plcheck');
  byId('exercise').addEventListener('beforetoggle', showMenu);
  byId('exercise-copy').onclick = () => handOut(covered());
  byId('exercise-try').onclick = () => tryHere(covered());
  byId('task-copy').onclick = () => handOut(unwired());
  byId('task-try').onclick = () => tryHere(unwired());
  document.addEventListener('change', (e) => e.target.id === 'student' && keep('name', e.target.value.trim()));
}
