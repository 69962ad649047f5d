// The form of a cell or a connector. It shows what the card reads behind the lines, by name, and a choice in it becomes lines: see wire.js.
//
// Names of types and slots are plexplain's, sentences the manual's. An address is a base, which says what is read, and how it is read: 0, 64, 128
// or 192 more.

import { FIRST_CONNECTOR, truthTable, runSession, isRemark, isTick, isCell, nameOf, sizeWords, bitOf } from './session.js';
import { TRIGGER, addressName, catalogueOf, placesIn, FIXED_BASE } from './wire.js';
import { state, view, programs, wired, wiredStates, rewire, setState, openForm, toggleBit, change } from './state.js';
import { byId, escapeText, forgetRow, notice, put, putRows } from './dom.js';

const HOWS = [[0, 'high'], [64, 'low'], [128, 'rises'], [192, 'falls']];
const EVERY_TICK = 192;

const form = { kinds: [], connectors: [], drives: '', byPointer: false };

export function describeParts({ kinds, connectors }, steps) {
  Object.assign(form, { kinds, connectors, drives: steps[0] });
}

export const connectorTypes = () => form.connectors;

export const catalogue = () => catalogueOf(programs());

// ---- a part, as the form and the drawing speak of it

const isFree = (part, place, parts) => part.type === 0 && part.configuration === 0 && !placesIn(parts).some((p) => readsOf(parts[p], p).some((a) => a % FIXED_BASE === place));

// The addresses that a part reads.
export const readsOf = (part, place) => (isCell(place) ? Object.values(part.slots) : part.type === 0 ? [] : [part.configuration]);

export const typeName = (part, place) => (isCell(place) ? catalogue().types[part.type].name : form.connectors[part.type].name);

const freeCell = (parts) => placesIn(parts).find((p) => isCell(p) && isFree(parts[p], p, parts)) ?? null;

// "TTL0 rises", "cell 3 is low", "in every tick"
export function addressWords(address, edge) {
  const base = address % FIXED_BASE;
  if (base) return `${nameOf(base)} ${HOWS.find(([more]) => more === address - base)[1]}`;
  return fixedWords(address, edge);
}

// "duration 2; X (trigger) 169, rise of TTL0; Y (clock) 192, always high", or "push-pull from 1, cell 1".
export function describe(part, place) {
  const numbered = (address) => `${address}, ${addressName(address)}`;
  if (!isCell(place)) return `${typeName(part, place)}${part.type ? ` from ${numbered(part.configuration)}` : ''}`;
  const { configuration, slots } = catalogue().types[part.type];
  const reads = Object.entries(slots).map(([s, { name }]) => `${s}${name && ` (${name})`} ${numbered(part.slots[s])}`);
  return [...(configuration ? [`${configuration.name} ${part.configuration}`] : []), ...reads].join('; ');
}

// The count that a timer or a counter has behind a tick, where the rules name it there.
export function countOf(tick, cell) {
  const found = tick.named[cell];
  return found && catalogue().types[found.type].state?.name === 'count' ? found.count : null;
}

const FIXED = { level: { 0: 'always low', 64: 'always high', 128: 'never', 192: 'in every tick' }, edge: { 128: 'never', 192: 'in every tick' } };
export const fixedWords = (address, edge) => FIXED[edge ? 'edge' : 'level'][address];

// ---- choices

export const option = (value, text, chosen) => `<option value="${value}"${chosen ? ' selected' : ''}>${escapeText(text)}</option>`;
const group = (label, options) => (options.length ? `<optgroup label="${label}">${options.join('')}</optgroup>` : '');
const choice = (key, label, options) => `<select data-form="${key}" aria-label="${escapeText(label)}">${options}</select>`;

const [isFront, isBack] = [(p) => p >= 33 && p <= 40, (p) => p > 40];

// What an address reads: one of the fixed levels, a cell, a connector.
function whatOptions(address, edge, parts) {
  const base = address % FIXED_BASE;
  const fixed = (addresses) => addresses.map((a) => option(a, fixedWords(a, edge), a === address));
  const ofPlaces = (chosen) => placesIn(parts).filter(chosen).map((p) => option(`base ${p}`, whatName(p, parts), p === base));
  const used = (p) => !isFree(parts[p], p, parts);
  return fixed(edge ? [128, 192] : [0, 64]).join('')
    + group('cells', ofPlaces((p) => isCell(p) && used(p))) + group('front', ofPlaces(isFront)) + group('backplane', ofPlaces(isBack))
    + group('free cells', ofPlaces((p) => isCell(p) && !used(p))) + (edge ? '' : group('the same as edges', fixed([128, 192])));
}

export function whatName(place, parts) {
  if (isCell(place)) return isFree(parts[place], place, parts) ? nameOf(place) : `${nameOf(place)}, ${typeName(parts[place], place)}`;
  return parts[place].type === 0 ? `${nameOf(place)}, input` : `${nameOf(place)}, driven by the card`;
}

const howOptions = (address, edge) => HOWS.filter(([more]) => !edge || more >= 128).map(([more, name]) => option(more, name, address - address % FIXED_BASE === more)).join('');

// The two choices of an address.
function addressHtml(key, label, address, edge, parts) {
  const base = address % FIXED_BASE;
  return `${choice(`what ${key}`, `${label}: what`, whatOptions(address, edge, parts))}
    ${base ? choice(`how ${key}`, `${label}: how`, howOptions(address, edge)) : '<span></span>'}
    <span class="number" title="address ${address}, ${catalogue().addresses[address]}">${address}</span>`;
}

// ---- the form

function placeOptions(place, parts) {
  const options = (chosen) => placesIn(parts).filter(chosen).map((p) => option(p, isCell(p) ? `${nameOf(p)}: ${isFree(parts[p], p, parts) ? 'free' : typeName(parts[p], p)}`
    : `${nameOf(p)}: ${connectorWords(parts[p])}`, p === place));
  return group('cells', options(isCell)) + group('front', options(isFront)) + group('backplane', options(isBack));
}

const connectorWords = (part) => (part.type === 0 ? 'input' : part.configuration === 0 ? 'off' : `from ${addressWords(part.configuration, false)}`);

function typeOptions(part, free) {
  const { types } = catalogue();
  const groups = [...new Set(form.kinds.map((k) => k.kind))].filter((g) => !free || g !== types[0].name);
  return (free ? option(0, 'free: choose its type', true) : '') + groups.map((g) => group(g, form.kinds.filter((k) => k.kind === g && types[k.type]).map((k) => option(k.type, types[k.type].name, k.type === part.type)))).join('');
}

const row = (label, html, help = '') => `<div class="form-row"><div class="field"><span class="label-of">${label}</span>${html}</div>${help}</div>`;

function cellForm(place, part, parts) {
  const { configuration, slots, state: kept } = catalogue().types[part.type];
  const free = isFree(part, place, parts);
  const help = free ? '' : `<p class="does">${escapeText(form.kinds.find((k) => k.type === part.type)?.text ?? '')}</p>`;
  const its = Object.entries(slots).map(([s, { name, edge }]) => row(slotLabel(s, name), addressHtml(s, `${s} ${name}`, part.slots[s], edge, parts)));
  return [row('type', choice('type', 'Type of the cell', typeOptions(part, free)), help), configuration && configurationHtml(part, configuration, slots, free), ...its,
    configuration?.name === 'code' && tableHtml(part), kept && stateHtml(place, kept)];
}

// What the cell keeps, as it is in front of the tick that is looked at.
function stateHtml(place, { name, most }) {
  const value = wiredStates()[place];
  const what = most === 1 ? choice('state', `its ${name}`, [0, 1].map((v) => option(v, v ? 'high' : 'low', v === value)).join(''))
    : `<input type="number" data-form="state" min="0" max="${most}" value="${value}" aria-label="its ${name}"><span class="unit">0 to ${most}</span>`;
  return row(`${name} <i>now</i>`, what);
}

const slotLabel = (slot, name) => `${escapeText(name || 'input')} <i>${slot}</i>`;

function configurationHtml(part, { name, most }, slots, free) {
  if (most === 1) return row(free ? 'or always' : name, choice('configuration', name, [0, 1].map((v) => option(v, v ? 'high' : 'low', v === part.configuration)).join('')));
  const input = `<input type="number" data-form="configuration" min="0" max="${most}" value="${part.configuration}" aria-label="${name}">`;
  if (name !== 'duration') return row(name, `${input}<span class="unit">0 to ${most}</span>`);
  const clock = Object.keys(slots).find((s) => slots[s].name === 'clock');
  const range = `0 to ${most}`;
  if (part.slots[clock] !== EVERY_TICK) return row(name, `${input}<span class="unit">edges of its clock</span>`, `<p class="does">${range}</p>`);
  const ms = state.tickMs ? Math.round(part.configuration * state.tickMs * 1e6) / 1e6 : '';
  return row(name, `${input}<span class="unit">ticks =
    <input type="number" data-form="ms" min="0" step="any" value="${ms}" aria-label="duration in ms"> ms</span>`,
  `<p class="does">${range}; 1 tick = <input type="number" data-form="tickMs" min="0" step="any" value="${state.tickMs}" aria-label="ms of a tick"> ms</p>`);
}

// The table of a lookup, each combination tried on a card. An output that is pressed makes another code.
function tableHtml(part) {
  const { slots, rows } = truthTable(programs(), part);
  const line = (name, cell) => `<tr><th scope="row">${name}</th>${rows.map((r) => `<td>${cell(r)}</td>`).join('')}</tr>`;
  const button = (r) => `<button type="button" data-form="row ${r.p}" aria-pressed="${r.high}" aria-label="${combination(part, slots, r.p)}: ${r.high ? 'high' : 'low'}">${r.high ? 1 : 0}</button>`;
  return `<table class="press"><caption>its table: press an output to turn it over</caption><tbody>${
    slots.map((s, i) => line(escapeText(addressWords(part.slots[s], false).replace(/ high$/, '').replace(/^(.*) low$/, (all, name) => (name === 'always' ? all : `not ${name}`))), (r) => (bitOf(r.p, i) ? 1 : '·'))).join('')}${line('output', button)}</tbody></table>`;
}

const combination = (part, slots, p) => slots.map((s, i) => `${addressWords(part.slots[s], false)} ${bitOf(p, i) ? 'yes' : 'no'}`).join(', ');

function connectorForm(place, part, parts) {
  const types = form.connectors.map((c) => option(c.type, c.name, c.type === part.type)).join('');
  const { level } = form.connectors[part.type];
  const source = part.type === 0 ? '' : row('source', addressHtml('source', 'source', part.configuration, false, parts), `<p class="does">${escapeText(form.drives)}</p>`);
  const attached = bitOf(state.attached, place - FIRST_CONNECTOR);
  return [row('type', choice('type', 'Type of the connector', types), `<p class="does">Its level: ${escapeText(level)}.</p>`), source,
    row('next tick', `<label class="attached"><input type="checkbox" data-form="attached" ${attached ? 'checked' : ''}> something is attached</label>`)];
}

const hintsOf = (place) => view.hints.filter((h) => h.cell === place || h.connector === nameOf(place));

// The frame of the form, and its rows.
function formHtml() {
  const { parts } = wired();
  const place = state.form;
  const rows = isCell(place) ? cellForm(place, parts[place], parts) : connectorForm(place, parts[place], parts);
  const said = state.formSaid ? `<p class="bad said" role="alert">${escapeText(state.formSaid)}</p>` : '';
  const hints = hintsOf(place).map((h) => `<p class="hinted said">${escapeText(h.words)}</p>`).join('');
  const frame = `<div class="form-head">${choice('place', 'Cell or connector', placeOptions(place, parts))}<span class="grow"></span>
    <button type="button" data-form="remove" title="takes its lines away">Clear</button> <button type="button" data-form="close" aria-label="Close the form">Close</button></div>
    <fieldset ${state.cover?.exercise ? 'disabled' : ''}></fieldset>${said}${hints}`;
  return { frame, rows: rows.filter(Boolean) };
}

// Drawn anew only where it is another: a choice that is open stays open. What has the focus keeps it; but a choice that was made with the pointer lets it go,
// since letters are ticks and undo then, and in a choice they would choose.
export function showForm() {
  const box = byId('form');
  box.hidden = !state.form;
  if (!state.form) return;
  const active = document.activeElement?.closest?.('#form [data-form]');
  const { frame, rows } = formHtml();
  put(box, frame);
  putRows(box.querySelector('fieldset'), rows);
  if (!active || active.isConnected || (form.byPointer && active.matches('select'))) return;
  (box.querySelector(`[data-form="${active.dataset.form}"]`) ?? box.querySelector('[data-form=place]'))?.focus();
}

// Opened by a key, it takes the focus; closed, it gives it back to what shows the same part.
export function focusForm(place) {
  if (form.byPointer) return;
  if (state.form) byId('form').querySelector('[data-form=place]').focus({ preventScroll: true });
  else document.querySelector(`#panel [data-place="${place}"], #connectors [data-place="${place}"], #labels [data-place="${place}"]`)?.focus();
}

export const hintedInForm = (hint) => Boolean(state.form) && hintsOf(state.form).includes(hint);

// ---- what a choice means

const initialOf = (place, type) => {
  if (!isCell(place)) return { type, configuration: 0, slots: {} };
  const { configuration, slots } = catalogue().types[type];
  return { type, configuration: configuration ? 0 : null, slots: Object.fromEntries(Object.entries(slots).map(([s, x]) => [s, x.initial])) };
};

// A slot keeps its address where both types have it, as edge slot or not; a duration or a code where both have one. A new timer counts ticks.
function retyped(place, part, type) {
  if (!isCell(place)) return { ...part, type };
  const [from, to] = [part.type, type].map((t) => catalogue().types[t]);
  const wanted = initialOf(place, type);
  for (const s of Object.keys(to.slots)) if (from.slots[s] && from.slots[s].edge === to.slots[s].edge) wanted.slots[s] = part.slots[s];
  if (to.configuration && from.configuration?.name === to.configuration.name && part.configuration <= to.configuration.most) wanted.configuration = part.configuration;
  const clock = Object.keys(to.slots).find((s) => to.slots[s].name === 'clock');
  if (to.configuration?.name === 'duration' && wanted.slots[clock] === to.slots[clock].initial) wanted.slots[clock] = EVERY_TICK;
  return wanted;
}

// "base 41" with what was chosen before: an edge stays that edge; a level slot starts with high, an edge slot with a rise.
function addressChosen(value, address, edge) {
  if (!value.startsWith('base ')) return Number(value);
  const how = address % FIXED_BASE ? address - address % FIXED_BASE : edge ? 128 : 0;
  return Number(value.slice(5)) + how;
}

const withAddress = (part, key, address) => (key === 'source' ? { ...part, configuration: address } : { ...part, slots: { ...part.slots, [key]: address } });

function wantedBy(what, key, value, place, part) {
  const address = key === 'source' ? part.configuration : part.slots[key];
  const edge = key !== 'source' && key !== undefined && catalogue().types[part.type].slots[key]?.edge;
  if (what === 'type') return retyped(place, part, Number(value));
  if (what === 'configuration') return { ...part, configuration: Number(value) };
  if (what === 'ms') return { ...part, configuration: Math.round(Number(value) / state.tickMs) };
  if (what === 'row') return { ...part, configuration: part.configuration ^ 2 ** Number(key) };
  if (what === 'what') return withAddress(part, key, addressChosen(value, address, edge));
  return withAddress(part, key, address % FIXED_BASE + Number(value));
}

function chosen(element) {
  const [what, key] = element.dataset.form.split(' ');
  if (what === 'place') return openForm(Number(element.value));
  if (what === 'tickMs') return change({ tickMs: Number(element.value) || 0 });
  if (what === 'attached') return toggleBit('attached', state.form - FIRST_CONNECTOR);
  if (what === 'state') return setState(state.form, Number(element.value));
  return write(wantedBy(what, key, element.value, state.form, wired().parts[state.form]));
}

const write = (wanted) => rewire(state.form, wanted, initialOf(state.form, wanted.type));

const handed = (line) => !isTick(line) && !isRemark(line);

// What plexplain says of a line, without the refusal's number, which the answer has, and without its first sentence where that says where the line goes.
export function withoutNumber({ refusal, astray, words }) {
  const text = words.slice(astray ? 1 : 0).join('\n');
  return text.startsWith(`${refusal}: `) ? text.slice(`${refusal}: `.length) : text;
}

// What plexplain says of the line that the card would refuse, or of what a line changes besides.
export function againstWords({ refused, others, lines }) {
  if (refused) {
    const entry = runSession(programs(), lines.slice(0, refused.index + 1).filter(handed)).entries.at(-1);
    return `Not written: ${entry.line} ${entry.answer}, ${withoutNumber(entry)}`;
  }
  if (!others.length) return 'Not written: a line behind it sets this again. Change it in the lines.';
  const source = runSession(programs(), lines.filter(handed)).entries.findLast((e) => e.line.startsWith('PM E='));
  return `Not written: it would change ${others.map((p) => (p === TRIGGER ? p : nameOf(p))).join(', ')} too.${source ? ` ${source.words.join(' ')}` : ''}`;
}

export function clearPart() {
  const { parts: fresh } = wired.fresh();
  const part = { ...fresh[state.form] };
  rewire(state.form, part, part);
}

// The first cell that is free, and that nobody reads.
export function newCell() {
  const place = freeCell(wired().parts);
  if (place) openForm(place);
  else notice(`All ${sizeWords(state.cells)} cells are in use.`);
}

export function listenToForm() {
  const box = byId('form');
  document.addEventListener('pointerdown', () => { form.byPointer = true; }, true);
  document.addEventListener('keydown', () => { form.byPointer = false; }, true);
  box.addEventListener('submit', (e) => e.preventDefault());
  box.addEventListener('change', (e) => {
    if (!e.target.matches('select, input')) return;
    // what was chosen is shown only if it was written
    const changed = e.target.closest('.form-row');
    if (changed) forgetRow(changed.parentElement, changed);
    if (form.byPointer && e.target.matches('select')) e.target.blur();
    chosen(e.target);
    showForm();
  });
  box.addEventListener('click', (e) => {
    const button = e.target.closest('button');
    const [what] = button?.dataset.form.split(' ') ?? [];
    if (what === 'close') openForm(null);
    if (what === 'remove') clearPart();
    if (what === 'row') chosen(button);
  });
  box.addEventListener('keydown', (e) => {
    if (e.key === 'Escape') openForm(null);
  });
  byId('new-cell').onclick = newCell;
}
