// From the text of the editor to what the programs say of it.
//
// Nothing here knows what a cell does. What the page has to know comes from the rows that plexplain writes with --rows, one for each line; its sentences are
// shown as they are. A card of sixteen cells is plrun's too, and its answers have to be the same.

import { decoded } from './programs.js';

export const CONNECTORS = ['BNC1', 'BNC2', 'BNC3', 'BNC4', 'BNC5', 'BNC6', 'BNC7', 'BNC8',
  'TTL0', 'TTL1', 'TTL2', 'TTL3', 'TTL4', 'TTL5', 'TTL6', 'TTL7'];
export const FIRST_CONNECTOR = 33;
export const CLOCKS = [0, 1, 2, 3, 4];
export const SIZES = [16, 32]; // cells of a card
export const sizeWords = (cells) => ({ 16: 'sixteen', 32: 'thirty-two' })[cells];
export const SLOT_LETTERS = ['X', 'Y', 'Z', 'F'];

// ---- cells and connectors by their places

const upTo = (count) => Array.from({ length: count }, (_, i) => i + 1);
const PLACES = Object.fromEntries(SIZES.map((cells) => [cells, [...upTo(cells), ...CONNECTORS.map((_, i) => FIRST_CONNECTOR + i)]]));

export const placesOf = (cells) => PLACES[cells];
export const isCell = (place) => place < FIRST_CONNECTOR;
export const nameOf = (place) => (isCell(place) ? `cell ${place}` : CONNECTORS[place - FIRST_CONNECTOR]);
export const placeOf = (name) => (name.startsWith('cell ') ? Number(name.slice(5)) : FIRST_CONNECTOR + CONNECTORS.indexOf(name));

// ---- text and lines

// plrun takes lines that end in LF. CRs at line ends are taken out and a missing last LF is put in; both are counted, so that the page can say so.
export function splitLines(text) {
  const carriageReturns = (text.match(/\r(?=\n|$)/g) ?? []).length;
  const lines = text.replace(/\r(?=\n|$)/g, '').split('\n');
  const lastLineOpen = lines.at(-1) !== '';
  if (!lastLineOpen) lines.pop();
  return { lines, carriageReturns, lastLineOpen };
}

export const asInput = (lines) => lines.map((line) => line + '\n').join('');

// A line that begins with # is a remark: it is kept and shown, and no program gets it.
export const isRemark = (line) => line.startsWith('#');
export const isTick = (line) => line.startsWith('T ');
export const withoutRemarks = (lines) => lines.filter((line) => !isRemark(line));

const hexWord = (word) => word.toString(16).padStart(4, '0');

export const tickLine = ({ clock, levels, attached }, kind) => `T ${clock} ${hexWord(levels)} ${hexWord(attached)} ${kind}`;

export function tickInput(line) {
  const [, clock, sample, attached] = line.split(' ');
  return { clock, sample: parseInt(sample, 16), attached: parseInt(attached, 16) };
}

export const bitOf = (word, index) => (word >> index & 1) === 1;

// What a program writes for lines, as it is; or for what another program, `of`, writes for them. `words` are those of the first program's command line.
export function outputOf(programs, lines, name, of = null, words = []) {
  if (!of) return programs[name](asInput(withoutRemarks(lines)), words);
  const { output } = outputOf(programs, lines, of, null, words);
  return output.length ? programs[name](output) : { output, errors: '' };
}

const textOf = (programs, lines, name) => decoded(outputOf(programs, lines, name).output);

// The numbers in what a program writes go by the lines that it got; this gives those of the editor.
export function editorNumbers(lines) {
  const numbers = lines.flatMap((line, i) => (isRemark(line) ? [] : [i + 1]));
  return (n) => numbers[n - 1] ?? n;
}

// "5, tick 1> T 0 0000 ffff Q": in what plexplain prints only the line itself begins with a number.
export function withEditorNumbers(text, lines) {
  const numberOf = editorNumbers(lines);
  return lines.some(isRemark) ? text.replace(/^\d+(?=[^\n>]*> )/gm, numberOf) : text;
}

// ---- rows

// One entry for each line, by plexplain's row of it. A remark has an entry, and no answer. Where plexplain takes no line of the input, what it says of that
// stands for the rows.
export function entriesOf(programs, lines) {
  const { output, errors } = programs.plexplain(asInput(withoutRemarks(lines)), ['--rows']);
  const rows = JSON.parse(`[${decoded(output).trimEnd().replaceAll('\n', ',')}]`);
  let [next, pointer] = [0, null];
  return lines.map((line, index) => {
    if (isRemark(line)) return { index, line, answer: '', kind: 'remark', pointer };
    const entry = entryOf(rows[next++] ?? { answer: '', refusal: 0, event: 'none', errors }, line, index, pointer);
    pointer = entry.pointer;
    return entry;
  });
}

function entryOf(row, line, index, pointerBefore) {
  const { answer, refusal, event, errors } = row;
  if (event === 'tick') return { index, line, answer, refusal, kind: row.ran ? 'tick' : 'idle', pointer: pointerBefore, hints: row.hints ?? [], tick: tickOf(row) };
  const { pointer = pointerBefore, trigger = null, changed = null, edited = [], pointer_did_not_move: astray = false } = row;
  return { index, line, answer, refusal, kind: refusal || errors ? 'refused' : 'accepted', pointer, trigger, changed, edited: edited.length > 0, astray, errors };
}

// Of the cells that the rules name only what they are behind the tick is kept: a run may have many ticks.
function tickOf({ tick, full, clock, sample, attached, ran, driven, cells, woken, levels, named }) {
  if (!ran) return { idle: true, full, clock, sample, attached };
  return { number: tick, full, clock, sample, attached, driven, cells, woken, levels, named: Object.fromEntries(named.map((n) => [n.cell, { type: n.type, ...n.after }])) };
}

// ---- a whole run

// The entries with plexplain's sentences: it writes for each line its number and the line, its answer, and sentences, each behind four blanks or more.
export function runSession(programs, lines) {
  const entries = entriesOf(programs, lines);
  const asked = entries.filter((e) => e.kind !== 'remark');
  const blocks = textOf(programs, lines, 'plexplain').split(/\n(?=\d)/).map((block) => block.trimEnd().split('\n'));
  const answers = programs.cells === 16 ? textOf(programs, lines, 'plrun').split('\n') : null;
  asked.forEach((entry, i) => {
    const [, answer = '', ...words] = blocks[i] ?? [];
    entry.words = entry.errors ? [entry.errors.trim()] : words.map((text) => text.slice(4));
    if (entry.errors) entry.answer = answers?.[i] ?? '';
    entry.agrees = entry.answer === (entry.errors ? entry.answer : answer) && (!answers || entry.answer === answers[i]);
    if (entry.hints) entry.hints.forEach((hint, n) => { hint.words = entry.words.at(n - entry.hints.length); });
  });
  for (const entry of entries) entry.words ??= [];
  return { lines, entries, disagreements: asked.filter((e) => !e.agrees).map((e) => e.index + 1), ticks: entries.filter((e) => e.tick) };
}

// ---- the card at one moment

const freshCards = {}; // by size

// A fresh card by its own reads, since a row has only what a line changed.
function freshCard(programs) {
  const { cells } = programs;
  if (freshCards[cells]) return freshCards[cells];
  const places = placesOf(cells);
  const [start, ...read] = entriesOf(programs, ['W E', ...places.flatMap((place) => [`M E=${place}`, '36CCA Y?', '36CCA Z?'])]);
  const numberOf = ({ refusal, answer }) => (refusal ? 0 : Number(answer.slice(3)));
  const parts = places.map((place, i) => [place, { type: numberOf(read[3 * i + 1]), config: numberOf(read[3 * i + 2]), slots: [0, 0, 0, 0], bit: false, count: 0 }]);
  freshCards[cells] = { pointer: start.pointer, trigger: start.trigger, parts: Object.fromEntries(parts) };
  return freshCards[cells];
}

// The card behind entries: { pointer, trigger, parts: what each place has, as the rows say it }.
export function cardBehind(programs, entries) {
  const card = freshCard(programs);
  const parts = { ...card.parts };
  let { pointer, trigger } = card;
  for (const e of entries) {
    for (const c of e.changed?.cells ?? []) parts[c.cell] = c;
    for (const c of e.changed?.connectors ?? []) parts[placeOf(c.connector)] = { type: c.type, config: c.source, slots: [] };
    for (const [cell, { bit, count }] of Object.entries(e.tick?.named ?? {})) parts[cell] = { ...parts[cell], bit, count };
    pointer = e.pointer ?? pointer;
    trigger = e.trigger ?? trigger;
  }
  return { pointer, trigger, parts };
}

// ---- hints

// plexplain gives hints in the first tick behind a wiring. So the lines are given without their ticks to a card of its own, which then gets a tick of every
// clock: one of them runs. The last wiring's are kept, since most changes are ticks.
const lastHints = { wiring: null, hints: [] };

export function runWithHints(programs, lines) {
  const session = runSession(programs, lines);
  const wired = withoutRemarks(lines).filter((line) => !isTick(line));
  const wiring = `${programs.cells} ${wired.join('\n')}`;
  if (lastHints.wiring !== wiring) {
    const ticks = CLOCKS.map((clock) => tickLine({ clock, levels: 0, attached: 0xffff }, 'Q'));
    Object.assign(lastHints, { wiring, hints: runSession(programs, [...wired, ...ticks]).entries.flatMap((e) => e.hints ?? []) });
  }
  return { session, hints: lastHints.hints };
}

// ---- truth tables

// The rows of a lookup, each tried on a card of its own: the slots are wired to TTL0 to TTL3, and one tick is given for each combination.
export function truthTable(programs, { type, configuration, slots: its }) {
  const slots = Object.keys(its);
  const wiring = ['M E=1', `36CCA Y=${type}`, `36CCA Z=${configuration}`, `36CCB ${slots.map((s, i) => `${s}=${41 + i}`).join(' ')}`];
  const combinations = Array.from({ length: 2 ** slots.length }, (_, p) => p);
  const ticks = combinations.map((p) => tickLine({ clock: 0, levels: p << 8, attached: 0xffff }, 'F'));
  const entries = entriesOf(programs, [...wiring, ...ticks]).slice(wiring.length);
  return { slots, rows: combinations.map((p) => ({ p, high: bitOf(entries[p].tick.cells, 0) })) };
}
