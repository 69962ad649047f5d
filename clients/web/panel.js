// The tabs: what plexplain says of the line that is looked at, the card at that line, what each program makes of all lines, and predictions.

import { decoded } from './programs.js';
import { CONNECTORS, truthTable, bitOf, editorNumbers, isCell, nameOf, withEditorNumbers } from './session.js';
import { foundWords, totals } from './predict.js';
import { recordHtml } from './record.js';
import { isExercise, taskHtml } from './exercise.js';
import { drawingHtml, updateDrawing } from './drawing.js';
import { reachHtml, updateReach } from './questions.js';
import { tablesHtml } from './manual.js';
import { FIXED_BASE, placesIn } from './wire.js';
import { catalogue, describe, readsOf, typeName } from './form.js';
import { when } from './runs.js';
import { state, view, programs, has, cardAt, outputsFor } from './state.js';
import { byId, capital, count, escapeText, failed, msWords, put } from './dom.js';

const panel = { steps: [], tabs: [], asked: 0, shown: null, scrolled: null };

// ---- which tabs

// `covers` says whether the tab would give covered ticks away.
export function buildTabs(table, steps) {
  const ofPrograms = [...new Set(table.map((p) => p.tab).filter(Boolean))].map((title) => {
    const its = table.filter((p) => p.tab === title);
    return { id: its[0].name, title, html: () => (its[0].record ? recordHtml(its) : programsHtml(its)), covers: () => its.some((p) => p.tellsTicks) };
  });
  panel.steps = steps;
  panel.tabs = [
    { id: 'line', title: 'This line', html: lineHtml },
    { id: 'drawing', title: 'Drawing', html: drawingHtml, update: updateDrawing },
    { id: 'reach', title: 'Never? Always?', html: reachHtml, update: updateReach, needs: () => has('plreach'), covers: () => true },
    { id: 'tables', title: 'Tables', html: tablesHtml, update: () => true },
    { id: 'card', title: 'Card', html: cardHtml, covers: () => state.selected >= state.cover.from },
    ...ofPrograms,
    { id: 'task', title: 'Exercise', html: taskHtml, needs: isExercise },
    { id: 'score', title: 'Predictions', html: scoreHtml, needs: () => state.score.length },
    { id: 'about', title: 'About', html: aboutHtml, needs: () => state.about && !state.task && !state.brief },
  ];
  byId('tabs').innerHTML = panel.tabs.map((t) => `<button role="tab" id="tab-${t.id}" aria-controls="panel">${t.title}</button>`).join('');
}

export const tabIds = () => tabsNow().map((t) => t.id);

const tabsNow = () => panel.tabs.filter((t) => !t.needs || t.needs());

export function showTabs() {
  const now = tabIds();
  const chosen = now.includes(state.tab) ? state.tab : 'line';
  for (const { id } of panel.tabs) {
    const button = byId(`tab-${id}`);
    button.hidden = !now.includes(id);
    button.setAttribute('aria-selected', id === chosen);
    button.tabIndex = id === chosen ? 0 : -1;
  }
  byId('panel').setAttribute('aria-labelledby', `tab-${chosen}`);
}

// What a worker has yet to give is shown when it comes, unless something else is looked at by then. A tab that can brings itself up to date.
export function showPanel(marked = null) {
  const tab = tabsNow().find((t) => t.id === state.tab) ?? panel.tabs[0];
  const covered = state.cover && tab.covers?.();
  if (!covered && panel.shown === tab.id && tab.update?.()) return;
  const asked = ++panel.asked;
  panel.shown = covered ? null : tab.id;
  const html = covered ? '<p class="quiet">Covered until the ticks are uncovered.</p>' : tab.html();
  if (html instanceof Promise) put(byId('panel'), '<p class="quiet">Running …</p>');
  when(html, (found) => {
    if (asked !== panel.asked) return;
    putPanel(found);
    if (!covered) tab.update?.();
  })?.catch?.(failed);
  if (marked) byId('panel').querySelector(`[data-mark="${marked}"]`)?.focus();
}

// A box of the drawing that had the focus has it still, and its list stays open.
function putPanel(html) {
  const place = document.activeElement?.closest?.('#panel [data-place]')?.dataset.place;
  const listed = state.tab === 'drawing' && byId('panel').querySelector('.canvas ~ details')?.open;
  const { scrolled } = panel;
  put(byId('panel'), html);
  if (listed) byId('panel').querySelector('.canvas ~ details')?.setAttribute('open', '');
  if (place) byId('panel').querySelector(`[data-place="${place}"]`)?.focus({ preventScroll: true });
  if (scrolled && state.tab === 'drawing') byId('panel').querySelector('.canvas')?.scrollTo(...scrolled);
}

// How far the drawing is scrolled, so that it still is when it is drawn anew.
export function panelScrolled({ target }) {
  if (target.matches?.('.canvas')) panel.scrolled = target.scrollLeft || target.scrollTop ? [target.scrollLeft, target.scrollTop] : null;
}

export function openTab(id) {
  state.tab = id;
  showTabs();
  showPanel();
  byId('panel').scrollTop = 0;
  byId(`tab-${id}`).scrollIntoView({ block: 'nearest', inline: 'nearest' });
}

// ---- the line that is looked at

// Who a sentence is about stands out: a cell, a connector, or what the words in front of a colon name.
const withSubject = (text) => escapeText(text).replace(/^(?:cell \d+|(?:BNC|TTL)\d|[A-Z][a-z ]+(?=:))/, '<b>$&</b>');
const said = (texts) => texts.map((t) => `<p class="said">${withSubject(t)}</p>`).join('');

function lineHtml() {
  const entry = view.session.entries[state.selected];
  if (!entry) return '<p class="quiet">Press <em>New cell</em> or a connector’s name and choose, type lines, or take an example. The tables say what each line, cell and address means. Then give the card a tick.</p>';
  if (entry.covered) return predictionHtml(entry);
  if (entry.kind === 'remark') return `<h3>Line ${entry.index + 1} <code>${escapeText(entry.line)}</code></h3><p class="quiet">A remark: it is kept, and no program gets it.</p>`;
  const head = `<h3>${headingOf(entry)}</h3>`;
  if (entry.kind === 'tick') return head + verdictHtml(entry) + stepsHtml(entry);
  const { pointer, parts } = cardAt(entry.index);
  const words = `${head}<div class="said ${entry.kind}">${escapeText(entry.words.join('\n'))}</div>`;
  // a line at a lookup shows at once what its code does
  return `${words}<div class="card">${lookupHtml(pointer, parts[pointer])}</div>${entry.kind === 'idle' ? '' : pointerHtml(pointer, parts[pointer])}`;
}

function headingOf(entry) {
  const { number, full } = entry.tick ?? {};
  const time = state.tickMs ? `, ${msWords((number - 1) * state.tickMs)}` : '';
  const what = entry.kind === 'tick' ? `Tick ${number}, ${full ? 'full' : 'quick'}<small>${time}</small>` : `Line ${entry.index + 1}`;
  return `${what} <code>${escapeText(entry.line)}</code> <code class="${entry.kind}">${escapeText(entry.answer)}</code>`;
}

const pointerHtml = (place, part) => `<p class="quiet">Pointer after this line: ${nameOf(place)}${isCell(place) ? ` (${typeName(part, place)})` : `, ${describe(part, place)}`}</p>`;

// The manual's three steps, and under each what plexplain says of it. So it is seen that not everything changes together. plexplain begins with what is
// driven and which cells are high, and ends with the hints.
function stepsHtml({ words, hints }) {
  const [driven, high, ...rest] = words.slice(0, words.length - hints.length);
  const isOfLine = (text) => CONNECTORS.some((name) => text.startsWith(`${name} `));
  const step = (rule, texts) => `<li><p class="step">${escapeText(rule.replace('cell 16', `cell ${state.cells}`))}</p><div>${said(texts)}</div></li>`;
  const [first, second, third] = panel.steps;
  const steps = [step(first, [driven]), step(second, rest.filter(isOfLine)), step(third, [...rest.filter((t) => !isOfLine(t)), high])];
  return `<ol class="steps">${steps.join('')}</ol>${hints.map((h) => `<p class="said hinted">${escapeText(h.words)}</p>`).join('')}`;
}

// ---- predictions

function predictionHtml(entry) {
  if (entry.index !== state.cover.from) return `<p class="quiet">Covered. <button data-next>Predict the first covered tick</button></p>`;
  const box = (kind, r) => `<label><input type="checkbox" data-mark="${kind} ${r.name}" ${state.cover[kind][r.name] ? 'checked' : ''}> ${kind}</label>`;
  const row = (r) => `<div role="group" aria-label="${r.name}"><b>${r.name}</b> ${box('high', r)} ${r.woken ? box('wakes', r) : ''}</div>`;
  return `<h3>What will tick ${entry.tick.number} do? <code>${escapeText(entry.line)}</code></h3>
    <p class="quiet">Mark what will be high behind it, here or in the picture, and which cells wake (in the picture with Shift).
    Levels start as in the tick before.</p>
    <div class="marks">${view.rows.map(row).join('')}</div>
    <p class="tools"><button class="main" data-uncover>Uncover</button> <button data-uncover-all>Show all, count no more</button> ${totalHtml()}</p>`;
}

function verdictHtml(entry) {
  const verdict = state.score.find((t) => t.index === entry.index);
  if (!verdict) return '';
  const { asked, missed } = verdict;
  const text = missed.length ? `${asked - missed.length} of ${asked} as predicted. Not as predicted: ${missed.map(foundWords).join(', ')}.`
    : `All ${asked} as predicted.`;
  const next = state.cover ? `<button class="main" data-next>Predict tick ${view.session.entries[state.cover.from].tick.number}</button>` : '';
  return `<div class="tools"><p class="verdict${missed.length ? ' missed' : ''}">${text}</p>${next} ${totalHtml()}</div>`;
}

function totalHtml() {
  const { ticks, perfect, right, asked } = totals(state.score);
  return ticks ? `<span class="quiet total">So far ${perfect} of ${count(ticks, 'tick')} without a miss, ${right} of ${asked} marks right.</span>` : '';
}

function scoreHtml() {
  const { ticks, perfect, right, asked } = totals(state.score);
  const rows = state.score.map((t) => `<tr><th scope="row">tick ${t.number}</th><td>${t.asked - t.missed.length} of ${t.asked}</td><td>${
    escapeText(t.missed.map(foundWords).join(', '))}</td></tr>`);
  return `<h3>${perfect} of ${count(ticks, 'tick')} without a miss, ${right} of ${asked} marks right</h3>
    <table class="card"><thead><tr><th>tick</th><th>as predicted</th><th>not as predicted</th></tr></thead><tbody>${rows.join('')}</tbody></table>`;
}

// ---- the card

function cardHtml() {
  const { parts, states } = cardAt(state.selected);
  const read = new Set(placesIn(parts).flatMap((p) => readsOf(parts[p], p)).map((a) => a % FIXED_BASE));
  const rows = placesIn(parts).filter((p) => read.has(p) || (parts[p].configuration && parts[p].type === 0 && isCell(p)) || (parts[p].type !== 0 && (isCell(p) || parts[p].configuration)));
  if (!rows.length) return '<p class="quiet">Nothing is wired yet.</p>';
  return `<h3>Card of ${state.cells} cells after line ${state.selected + 1}</h3><table class="card"><tbody>${rows.map((p) => partHtml(p, parts[p], states[p])).join('')}</tbody></table>`;
}

function partHtml(place, part, value) {
  const { state: its } = isCell(place) ? catalogue().types[part.type] : { state: null };
  const words = isCell(place) || part.type ? describe(part, place).replace(/^[\w-]+ (?=from )/, '') : '';
  return `<tr><th scope="row"><button data-place="${place}" aria-label="Form of ${nameOf(place)}">${nameOf(place)}</button></th><td>${escapeText(typeName(part, place))}</td>
    <td>${escapeText(words)}${its ? `; its ${its.name} is ${its.most === 1 ? ['low', 'high'][value] : value}` : ''}${lookupHtml(place, part)}</td></tr>`;
}

// A lookup code is easily copied wrong: every combination is tried on the card, and shown.
function lookupHtml(place, c) {
  if (!isCell(place) || catalogue().types[c.type].configuration?.name !== 'code') return '';
  const { slots, rows: tried } = truthTable(programs(), c);
  const line = (name, cell) => `<tr><th scope="row">${name}</th>${tried.map((r) => `<td class="${r.high ? 'high' : ''}">${cell(r)}</td>`).join('')}</tr>`;
  return `<table class="truth"><caption>code ${c.configuration}, tried on the card in every combination</caption><tbody>${line('p', (r) => r.p)}${
    slots.map((s, i) => line(s, (r) => (bitOf(r.p, i) ? 1 : 0))).join('')}${line('output', (r) => `<b>${r.high ? 1 : 0}</b>`)}</tbody></table>`;
}

// ---- what programs make of all lines

const SHOWN = 200000; // characters of a program's output; the file has all

function programsHtml(table) {
  const shown = table.filter((p) => !p.onlySaved);
  const first = table.some((p) => p.image) ? fromHtml() : '';
  return when(outputsFor(shown), (found) => `<p class="tools">${first}${table.map(saveHtml).join(' ')}</p>${shown.map((p, i) => outputHtml(p, found[i])).join('')}`);
}

// The first tick of the picture, as pldraw's word --from has it.
export const picture = { from: 1 };
const fromHtml = () => `<label>from tick <input id="picture-from" type="number" min="1" value="${picture.from}"></label> `;

const saveHtml = (p) => `<span><button data-save="${p.name}">Save as ${p.file}</button>
  <span class="quiet">what ${p.name} ${p.does} for these lines</span></span>`;

// What a program says on its error output, by the numbers of the editor; and where it gives no answer since a line was refused, a way to have it.
export function complaintHtml(p, { output, errors }) {
  if (!errors) return '';
  const numberOf = editorNumbers(view.session.lines);
  const text = errors.trim().replace(/^line (\d+)/gm, (_, n) => `line ${numberOf(Number(n))}`);
  const anyway = p.anyway && !output.length && !state.anyway ? '<p class="tools"><button data-anyway>Take the wiring all the same</button></p>' : '';
  return `${anyway}<p class="bad said">${escapeText(`${p.title ? `${p.title}, ` : ''}${p.name}: ${text}`)}</p>`;
}

function outputHtml(p, found) {
  const { output } = found;
  const complaint = complaintHtml(p, found);
  if (p.image) return complaint + (output.length ? imageHtml(output) : '');
  const written = decoded(output.subarray(0, SHOWN));
  const text = p.numbersLines ? withEditorNumbers(written, view.session.lines) : written;
  return `${complaint}<pre class="${p.name}">${escapeText(text)}</pre>${output.length > SHOWN ? '<p class="quiet">… The saved file has all of it.</p>' : ''}`;
}

// As an image, so that the styles inside the picture stay inside.
export const imageHtml = (output) => `<img class="picture" alt="Timing diagram of these lines, drawn by pldraw"
  src="data:image/svg+xml,${encodeURIComponent(decoded(output))}">`;

function aboutHtml() {
  return `<h3>${escapeText(capital(state.about.title))}</h3><div class="prose">${state.about.html}</div>`;
}
