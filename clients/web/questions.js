// The tab Never? Always?: questions about the wiring by name, asked of plreach in a worker, with its answers. The questions are kept with the wiring.

import { isCell, nameOf, runSession } from './session.js';
import { rowsOf, drawWaves, widthToFit, widthOf, HEAD_HEIGHT, rowHeight } from './diagram.js';
import { KINDS_ASKED, questionIn, questionText, reachInput, readAnswers, tickCount, ticksOf, verdictIn } from './reach.js';
import { FIXED_BASE, placesIn, wiringBefore } from './wire.js';
import { Stopped } from './runs.js';
import { option, readsOf, whatName } from './form.js';
import { state, has, programs, wired, wiringLines, editorLineOf, putTicks, change, askStream, stopStream } from './state.js';
import { byId, count, escapeText, failed, msWords, put } from './dom.js';

const ASK_WAIT = 400; // ms after the last change
const MOST_DRAWN = 400; // ticks of a witness that are drawn
const MOST_PUT = 100000; // and that are put into the lines
const OFFERED = 6;

// What was asked last, and what plreach has written of it so far.
const reach = { key: '', questions: [], text: '', errors: '', done: true, stopped: false, started: 0, took: 0, timer: 0, clock: 0, about: '', drives: '' };

// What the manual says of questions, and of how outputs are driven.
export function describeReach(about, [drives]) {
  Object.assign(reach, { about, drives });
}

// ---- asking

const inputNow = () => reachInput(wiringLines(), state.questions);
const keyNow = () => `${state.cells} cells\n${inputNow()}`; // what is asked, and of which card
const hasQuestions = () => has('plreach') && state.questions.length > 0;

// Asks anew where the wiring or the questions are others than those that were asked; but not in the middle of typing.
function askSoon() {
  clearTimeout(reach.timer);
  if (reach.key === keyNow()) return;
  const wait = reach.key ? ASK_WAIT : 0;
  if (!reach.done) giveUp();
  if (hasQuestions()) reach.timer = setTimeout(ask, wait);
}

// What was asked is out of date.
function giveUp() {
  Object.assign(reach, { key: '', done: true });
  clearInterval(reach.clock);
  stopStream();
}

async function ask() {
  const key = keyNow();
  Object.assign(reach, { key, questions: state.questions, text: '', errors: '', done: false, stopped: false, started: Date.now() });
  clearInterval(reach.clock);
  reach.clock = setInterval(showAsking, 200);
  try {
    const { text, errors } = await askStream('plreach', inputNow(), (more) => {
      if (reach.key === key) reach.text += more;
      showAnswers();
    });
    if (reach.key !== key) return;
    Object.assign(reach, { text, errors, done: true });
  } catch (error) {
    if (!(error instanceof Stopped)) failed(error);
    if (reach.key !== key) return;
    Object.assign(reach, { done: true, stopped: error instanceof Stopped });
  }
  reach.took = Date.now() - reach.started;
  clearInterval(reach.clock);
  showAnswers();
  showAsking();
}

export function askAgain() {
  reach.key = '';
  askSoon();
}

// What is known of the questions as they are: for the handout.
export const answersNow = () => (reach.done && reach.key === keyNow() ? readAnswers(reach.text, reach.questions) : null);

// ---- the tab

export const reachHtml = () => `<div id="reach-form" class="ask"></div><div id="reach-offers" class="tools"></div><div id="reach-state" class="tools" role="status"></div>
  <div id="reach-list" aria-live="polite"></div><div id="reach-about" class="prose"></div>
  <details id="reach-lines"><summary>the questions as text, one a line</summary><textarea id="reach-text" rows="5" spellcheck="false" aria-label="Questions, one a line"></textarea></details>
  <details><summary>what can be asked, and how far an answer goes</summary><div class="prose">${reach.about}</div></details>`;

// Fills the tab, and touches only what is another than it was.
export function updateReach() {
  if (!byId('reach-form')) return false;
  if (put(byId('reach-form'), formHtmlOf(asking))) byId('reach-form').querySelector(`[data-ask="${asking.focus}"]`)?.focus();
  put(byId('reach-offers'), offersHtml());
  put(byId('reach-about'), state.about?.questions ? state.about.html : '');
  if (document.activeElement !== byId('reach-text')) byId('reach-text').value = state.questions.join('\n');
  askSoon();
  showAnswers();
  showAsking();
  return true;
}

function showAsking() {
  const box = byId('reach-state');
  if (!box) return;
  const seconds = (ms) => `${(ms / 1000).toFixed(1)} s`;
  const { answers, summary } = readAnswers(reach.text, reach.questions);
  const lines = wiringLines().length;
  if (!state.questions.length) put(box, '');
  else if (reach.key !== keyNow()) put(box, '<progress></progress> <span class="quiet">is asked soon</span>');
  else if (!reach.done) {
    put(box, '<progress></progress> <span id="reach-at"></span> <button data-stop-asking>Stop</button>'); // the button stays while it is pressed
    byId('reach-at').textContent = `plreach is at question ${Math.max(1, answers.length)} of ${reach.questions.length}, ${seconds(Date.now() - reach.started)}`;
  } else if (reach.stopped) put(box, `<span class="bad">Stopped after ${seconds(reach.took)}.</span> <button data-ask-again>Ask again</button>`);
  else put(box, `<span class="quiet">${summary ? `<b>${escapeText(summary)}.</b> ` : ''}Asked of the ${count(lines, 'line')} in front of the first tick, in ${seconds(reach.took)}.</span>
      <button data-save-promises>Save as promises.txt</button>`);
}

function showAnswers() {
  const box = byId('reach-list');
  if (!box) return;
  const current = reach.key === keyNow();
  const { refused, answers } = readAnswers(reach.text, reach.questions);
  const said = [...refused, ...reach.errors.split('\n')].filter(Boolean).map((text) => text.replace(/^line (\d+)/, (_, n) => `line ${editorLineOf(Number(n))}`));
  const complaint = current && said.length ? `<p class="bad said">${said.map(escapeText).join('<br>')}</p>` : '';
  put(box, complaint + (current ? conclusions(answers).join('') : '') + state.questions.map((q, i) => answerHtml(q, i, current ? answers[i] : null)).join('')
    || '<p class="quiet">Nothing is asked yet. A question holds for every run of ticks, of any length, with every sample that the lines can bring. <button data-example="busy">The first example: the busy line</button></p>');
}

const VERDICTS = { kept: '✓', broken: '✗', open: '?', told: '', bad: '!', asked: '…' };

function answerHtml(question, index, answer) {
  const verdict = answer ? verdictIn(answer) : 'asked';
  const tools = `<span class="own"><button data-change-question="${index}" ${questionIn(question) ? '' : 'hidden'}>Change</button> <button data-drop-question="${index}"
    aria-label="Take away: ${escapeText(question)}">Take away</button></span>`;
  const [said, looked] = answer?.said.split(/; (?=\d+ states?, )/).map(escapeText) ?? [''];
  const notes = answer?.notes.map((n) => `<p class="quiet">${escapeText(n)}</p>`).join('') ?? '';
  return `<section class="answered ${verdict}"><p><b class="verdict-mark" aria-hidden="true">${VERDICTS[verdict]}</b> <code>${escapeText(question)}</code>: <strong>${said || (answer || !reach.done ? '…' : 'no answer')}</strong> ${looked ? `<small class="quiet">${looked}</small>` : ''} ${tools}</p>${
    notes}${answer?.ticks.length ? witnessHtml(answer, index) : ''}</section>`;
}

// ---- the ticks that show it

function witnessHtml(answer, index) {
  const ticks = tickCount(answer);
  const time = state.tickMs ? `, ${msWords(ticks * state.tickMs)}` : '';
  const button = ticks <= MOST_PUT ? `<button data-put-ticks="${index}">Put ${ticks === 1 ? 'this tick' : `these ${ticks} ticks`} behind the wiring</button>`
    : `<span class="quiet">${ticks} ticks are too many for the lines.</span>`;
  const rows = answer.ticks.map((t) => `${t.line}${t.times > 1 ? `   ${t.times} times` : ''}`);
  return `<div class="witness"><p class="tools">${button} <span class="quiet">${count(ticks, 'tick')}${time}; the last shows it.</span></p>
    ${ticks <= MOST_DRAWN ? witnessPicture(answer) : ''}<details><summary>as lines</summary><pre>${escapeText(rows.join('\n'))}</pre></details></div>`;
}

const pictures = new Map(); // by wiring and ticks

function witnessPicture(answer) {
  const lines = [...wiringLines(), ...ticksOf(answer)];
  const key = `${rowHeight()} ${lines.join('\n')}`;
  if (!pictures.has(key)) {
    if (pictures.size > 40) pictures.clear();
    pictures.set(key, pictureOf(lines));
  }
  return pictures.get(key);
}

function pictureOf(lines) {
  const session = runSession(programs(), lines);
  const card = wiringBefore(programs(), lines, session.entries, lines.length);
  const rows = rowsOf(session, card, card, false);
  const ticks = session.ticks.length;
  const column = Math.max(3, Math.min(26, widthToFit(ticks, 620)));
  const { heads, body, height } = drawWaves(session, rows, column, 0, ticks, state.tickMs);
  const width = widthOf(ticks, column);
  const labels = rows.map((r) => `<div style="height:${rowHeight()}px">${escapeText(r.name)}</div>`).join('');
  return `<div class="witness-picture"><div class="names" style="padding-top:${HEAD_HEIGHT}px">${labels}</div><div class="plot" role="img" aria-label="The ticks that show it, drawn">
    <svg width="${width}" height="${HEAD_HEIGHT}">${heads}</svg><svg width="${width}" height="${height}">${body}<rect class="chosen" x="${(ticks - 1) * column}" y="0" width="${column}"
    height="${height}"/></svg></div></div>`;
}

// ---- the form

const fresh = (what = '') => ({ what, how: 'high' });
const asking = { kind: 'never', from: [fresh()], to: [fresh()], within: 1, index: -1, focus: '' };

const driven = (parts) => placesIn(parts).filter((p) => !isCell(p) && parts[p].type !== 0 && parts[p].configuration !== 0);
const brought = (parts) => placesIn(parts).filter((p) => !isCell(p) && parts[p].type !== 2 && placesIn(parts).some((q) => readsOf(parts[q], q).some((a) => a % FIXED_BASE === p)));
const wiredCells = (parts) => placesIn(parts).filter((p) => isCell(p) && parts[p].type !== 0);

// What may be asked of: what the wiring uses first, then the rest.
function namesHtml(chosen, onlyLines) {
  const { parts } = wired();
  const group = (label, places, name = nameOf, words = (p) => whatName(p, parts)) => (places.length
    ? `<optgroup label="${label}">${places.map((p) => option(name(p), words(p), name(p) === chosen)).join('')}</optgroup>` : '');
  const lines = placesIn(parts).filter((p) => !isCell(p));
  const used = [...brought(parts), ...driven(parts)];
  const drive = (p) => `drive ${nameOf(p)}`;
  return (chosen ? '' : option('', 'choose …', true)) + group('lines in use', lines.filter((p) => used.includes(p)))
    + (onlyLines ? '' : group('cells', wiredCells(parts)) + group('what the card drives', driven(parts), drive, drive))
    + group('other lines', lines.filter((p) => !used.includes(p)))
    + (onlyLines ? '' : group('other cells', placesIn(parts).filter((p) => isCell(p) && parts[p].type === 0)));
}

function howsFor(kind, what) {
  return kind === 'together' || kind === 'given' || what.startsWith('drive') ? ['high', 'low'] : ['high', 'low', 'rises', 'falls'];
}

function literalHtml(side, index, { what, how }, kind, last) {
  const key = `${side} ${index}`;
  const hows = howsFor(kind, what).map((h) => option(h, h, h === how)).join('');
  return `${index ? '<span class="and">and</span>' : ''}<span class="literal"><select data-ask="what ${key}" aria-label="what">${namesHtml(what, kind === 'together' || kind === 'given')}</select>
    <select data-ask="how ${key}" aria-label="how">${hows}</select>${index ? `<button type="button" data-ask="less ${key}" aria-label="one name less">−</button>` : ''}</span>${
    last && kind !== 'given' ? `<button type="button" data-ask="more ${side}" aria-label="one name more">and …</button>` : ''}`;
}

const literalsHtml = (side, literals, kind) => literals.map((l, i) => literalHtml(side, i, l, kind, i === literals.length - 1)).join(' ');

function formHtmlOf({ kind, from, to, within, index }) {
  const kinds = Object.entries(KINDS_ASKED).filter(([k]) => k !== 'rests' || reach.about.includes('rests within')).map(([k, words]) => option(k, words, k === kind)).join('');
  const ms = state.tickMs && within ? ` = ${msWords(within * state.tickMs)}` : '';
  const number = `<input type="number" data-ask="within" min="0" max="98" value="${within}" aria-label="ticks"> <span class="and">ticks${ms}</span>`;
  const rest = {
    dead: () => '', rests: () => number,
    after: () => `${literalsHtml('from', from, kind)} <span class="and">then</span> ${literalsHtml('to', to, kind)} <span class="and">within</span> ${number}`,
  }[kind]?.() ?? literalsHtml('from', from, kind);
  const ready = ['dead', 'rests'].includes(kind) || [...from, ...(kind === 'after' ? to : [])].every((l) => l.what);
  return `<select data-ask="kind" aria-label="What is asked">${kinds}</select> ${rest} <button type="button" class="main" data-ask="ask" ${ready ? '' : 'disabled'}>${index < 0 ? 'Ask' : 'Change it'}</button>
    ${index < 0 ? '' : '<button type="button" data-ask="leave">Leave it</button>'}${ready ? `<code class="quiet">${escapeText(questionText(asking))}</code>` : ''}`;
}

// Questions at a press: whether an output can be high together with a line that comes in, and, where
// a cell drives the output, whether that cell can: the output shows it one tick later.
const meets = (line, out, cell) => [`never ${line} and ${out}`, ...(cell ? [`never ${line} and ${cell}`] : [])];

const sourceCell = ({ configuration }) => (configuration > 0 && isCell(configuration) ? nameOf(configuration) : '');

function pairsOf(parts) {
  return driven(parts).flatMap((out) => brought(parts).filter((line) => line !== out)
    .map((line) => [nameOf(line), nameOf(out), sourceCell(parts[out])]));
}

function offersHtml() {
  const offers = pairsOf(wired().parts).map(([line, out, cell]) => [`Can ${out} be high while ${line} is, and for how long?`, meets(line, out, cell)]);
  const open = [...offers, ['What never moves?', ['dead']]].filter(([, questions]) => questions.some((q) => !state.questions.includes(q))).slice(0, OFFERED);
  return open.map(([words, questions]) => `<button data-offer="${escapeText(questions.join('\n'))}">${escapeText(words)}</button>`).join(' ');
}

// Where they meet, and the cell that drives the output never meets the line: the output shows the cell one tick later, so
// it is low in the tick after each tick in which the line is high.
function conclusions(answers) {
  const verdict = (q) => answers.filter((a) => a.question === q).map(verdictIn)[0];
  return pairsOf(wired().parts).filter(([line, out, cell]) => {
    const [together, atCell] = meets(line, out, cell);
    return verdict(together) === 'broken' && atCell && verdict(atCell) === 'kept';
  }).map(([line, out]) => `<p class="concluded">So ${out} can meet ${line} only in the tick in which ${line} rises, and no wiring can do better. ${
    escapeText(reach.drives)}</p>`);
}

function chosenInForm(element) {
  const [what, side, index] = element.dataset.ask.split(' ');
  const literals = asking[side];
  asking.focus = element.dataset.ask;
  if (what === 'kind') asking.kind = element.value;
  if (what === 'what') literals[index] = { ...literals[index], what: element.value };
  if (what === 'how') literals[index] = { ...literals[index], how: element.value };
  if (what === 'within') asking.within = Math.max(0, Math.min(98, Math.round(Number(element.value)) || 0));
  if (what === 'more') literals.push(fresh());
  if (what === 'less') literals.splice(index, 1);
  if (what === 'leave') Object.assign(asking, { index: -1 });
  for (const l of [...asking.from, ...asking.to]) if (!howsFor(asking.kind, l.what).includes(l.how)) l.how = 'high';
  if (what === 'ask') return addQuestion(questionText(asking));
  return updateReach();
}

// What is given stands above what is asked, since it holds for the questions below it.
function addQuestion(question) {
  const at = asking.index;
  const questions = state.questions.filter((q) => q !== question || state.questions[at] === q);
  if (at >= 0) questions[at] = question;
  else if (question.startsWith('given')) questions.splice(questions.findLastIndex((q) => q.startsWith('given')) + 1, 0, question);
  else questions.push(question);
  Object.assign(asking, { from: [fresh()], to: [fresh()], index: -1 });
  change({ questions });
}

function changeQuestion(index) {
  const found = questionIn(state.questions[index]);
  Object.assign(asking, found, { to: found.to.length ? found.to : [fresh()], from: found.from.length ? found.from : [fresh()], index, focus: 'kind' });
  updateReach();
}

const answerAt = (index) => readAnswers(reach.text, reach.questions).answers[index];

export const promisesText = inputNow;

export const questionsIn = (text) => text.split(/\r?\n/).map((q) => q.trim()).filter(Boolean);

// Presses inside the tab; whether it was one of these.
export function pressedInReach({ dataset }) {
  if ('stopAsking' in dataset) stopStream();
  else if ('askAgain' in dataset) askAgain();
  else if ('offer' in dataset) change({ questions: [...state.questions, ...dataset.offer.split('\n').filter((q) => !state.questions.includes(q))] });
  else if ('changeQuestion' in dataset) changeQuestion(Number(dataset.changeQuestion));
  else if ('dropQuestion' in dataset) change({ questions: state.questions.filter((_, i) => i !== Number(dataset.dropQuestion)) });
  else if ('putTicks' in dataset) putTicks(ticksOf(answerAt(Number(dataset.putTicks))));
  else if (dataset.ask) chosenInForm({ dataset });
  else return false;
  return true;
}

export function changedInReach(element) {
  if (element.id === 'reach-text') change({ questions: questionsIn(element.value) });
  else if (element.dataset.ask) chosenInForm(element);
  else return false;
  return true;
}
