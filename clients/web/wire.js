// From a form to lines: which lines wire a cell or a connector, and how they are changed.
//
// Nothing here knows what the card makes of a line. Each way of writing is tried with plexplain on a card of its own, and taken where its rows then have the
// part as it was wanted, every other part as before, and no line above is refused that was not. Ticks are left out of these trials, since they change no
// setting; where a state is set, they run too.

import { SLOT_LETTERS, cardBehind, entriesOf, isCell, isRemark, isTick, nameOf, placesOf, runSession } from './session.js';
import { configurationNameIn, slotNameIn, typeNameIn } from './words.js';

const ADDRESSES = 256;
const MOST_TYPES = 64;
export const FIXED_BASE = 64; // an address is a base below this, and how it is read

// ---- what there is to choose, asked of the programs once

const catalogues = {}; // by size

// Types of cells with their slots, and addresses by name: { types: [..], addresses: { 169: 'rise of TTL0', .. } }, each that the card takes.
export const catalogueOf = (programs) => (catalogues[programs.cells] ??= { types: typesOf(programs), addresses: addressesOf(programs) });

const numberIn = ({ answer }) => Number(answer.slice(3));
const isTaken = (entry) => entry.kind === 'accepted';
const upToMost = Array.from({ length: 33 }, (_, bits) => 2 ** bits - 1); // every limit is the greatest number of so many bits

// The greatest number that a setting takes, or none.
const mostOf = (entries) => upToMost.findLast((_, i) => isTaken(entries[i])) ?? null;

const TYPE_READS = ['W E', '36CCA Z?', ...SLOT_LETTERS.map((s) => `36CCB ${s}?`)];
const TYPE_TRIES = [...upToMost.map((n) => `36CCA Z=${n}`), ...upToMost.map((n) => `36CCA F=${n}`)];

function typesOf(programs) {
  const all = Array.from({ length: MOST_TYPES }, (_, type) => `36CCA Y=${type}`);
  const known = entriesOf(programs, ['M E=1', ...all]).slice(1).filter(isTaken).map((e) => e.line);
  const asked = (entries, lines) => known.map((_, i) => entries.slice(2 + i * (lines.length + 1), 1 + (i + 1) * (lines.length + 1)));
  const behind = (lines) => ['M E=1', ...known.flatMap((line) => [line, ...lines])];
  const reads = asked(runSession(programs, behind(TYPE_READS)).entries, TYPE_READS);
  const tries = asked(entriesOf(programs, behind(TYPE_TRIES)), TYPE_TRIES);
  return known.map((_, type) => readType(type, reads[type], mostOf(tries[type]), mostOf(tries[type].slice(upToMost.length))));
}

// A slot that reads 128 when its type is new is an edge slot.
function readType(type, [at, read, ...slots], most, mostState) {
  const found = slots.flatMap((e, i) => (isTaken(e) ? [[SLOT_LETTERS[i], { name: slotNameIn(e.words[0]), initial: numberIn(e), edge: numberIn(e) >= 128 }]] : []));
  return {
    type, name: typeNameIn(at.words[0]), slots: Object.fromEntries(found),
    configuration: most === null ? null : { name: configurationNameIn(read.words[0]), most },
    state: mostState === null ? null : { name: mostState === 1 ? 'bit' : 'count', most: mostState },
  };
}

// "rise of TTL0", as plexplain calls an address.
export function addressName(address) {
  const base = address % FIXED_BASE;
  const how = (address - base) / FIXED_BASE;
  return base ? ['', 'inverse of ', 'rise of ', 'fall of '][how] + nameOf(base) : ['always low', 'always high'][how % 2];
}

function addressesOf(programs) {
  const tries = entriesOf(programs, ['M E=35', ...Array.from({ length: ADDRESSES }, (_, a) => `36CCA Z=${a}`)]).slice(1);
  return Object.fromEntries(tries.flatMap((e, a) => (isTaken(e) ? [[a, addressName(a)]] : [])));
}

// ---- what lines set

export const TRIGGER = 'trigger source'; // beside the places: a part that is no place of the pointer

const placesSeen = new WeakMap();

// The places that parts are of.
export function placesIn(parts) {
  if (!placesSeen.has(parts)) placesSeen.set(parts, Object.keys(parts).filter((p) => p !== TRIGGER).map(Number));
  return placesSeen.get(parts);
}

// A part by its fields in a row; of its slots those that its type has.
function partOf(types, place, { type, config, slots }) {
  if (!isCell(place)) return { type, configuration: config, slots: {} };
  const its = Object.keys(types[type].slots);
  return { type, configuration: types[type].configuration ? config : null, slots: Object.fromEntries(its.map((s) => [s, slots[SLOT_LETTERS.indexOf(s)]])) };
}

const stateOf = (types, { type, bit, count }) => (types[type].state && (types[type].state.name === 'bit' ? Number(bit) : count));

// For each line before `end` where the pointer is behind it and whether it was taken; and what every part is there.
export function wiringBefore(programs, lines, entries, end, withTicks = false) {
  const { types } = catalogueOf(programs);
  const before = entries.slice(0, end).filter((e) => e.kind !== 'remark' && (withTicks || !isTick(e.line)));
  const card = cardBehind(programs, before);
  const start = cardBehind(programs, []).pointer;
  const places = placesOf(programs.cells);
  return {
    lines, end, withTicks, start, pointer: card.pointer,
    rows: before.map((e) => ({ line: e.line, index: e.index, ok: e.kind !== 'refused', at: e.pointer ?? start })),
    parts: { ...Object.fromEntries(places.map((p) => [p, partOf(types, p, card.parts[p])])), [TRIGGER]: card.trigger },
    states: Object.fromEntries(places.filter(isCell).map((p) => [p, stateOf(types, card.parts[p])])),
  };
}

// The same of lines that are tried.
export function tried(programs, lines, end, withTicks = false) {
  const given = lines.slice(0, end).map((line) => (withTicks || !isTick(line) ? line : '#'));
  return wiringBefore(programs, lines, entriesOf(programs, given), end, withTicks);
}

const same = (a, b) => JSON.stringify(a) === JSON.stringify(b);

// ---- lines of a part

const SETS = /^36CCA [YZF]=\d+$|^36CCB [XYZF]=\d/;

const setsOf = (row) => (SETS.test(row.line) ? Object.fromEntries([...row.line.matchAll(/([XYZF])=(\d+)/g)].map((m) => [m[1], Number(m[2])])) : {});
const setsType = (row) => /^36CCA Y=/.test(row.line);
const setsConfiguration = (row) => /^36CCA Z=/.test(row.line);
const setsState = (row) => /^36CCA F=/.test(row.line);
const setsSlots = (row) => /^36CCB /.test(row.line);

const slotLine = (slots) => `36CCB ${SLOT_LETTERS.filter((s) => s in slots).map((s) => `${s}=${slots[s]}`).join(' ')}`;

const ownRows = ({ rows }, place) => rows.filter((r) => r.at === place && r.ok && SETS.test(r.line));

// The lines at which the pointer is at a part: what wires it, and what moves there.
export const linesOf = (before, place) => before.rows.filter((r) => r.at === place && (SETS.test(r.line) || r.line === `M E=${place}`)).map((r) => r.index);

// A part with its fields that are not as in a new one of its type.
function changesOf(wanted, initial) {
  const slots = Object.fromEntries(Object.entries(wanted.slots).filter(([s, a]) => a !== initial.slots[s]));
  return { configuration: wanted.configuration === null || wanted.configuration === initial.configuration ? null : wanted.configuration, slots };
}

// In the lines that set it last: numbers are replaced, what the type has not goes, what is missing comes behind.
function inPlace(before, place, wanted, initial) {
  const own = ownRows(before, place);
  if (!own.length) return null;
  const typeRow = own.findLast(setsType);
  const now = before.parts[place];
  const retyped = wanted.type !== now.type;
  const last = own.at(-1).index;
  const blockStart = own.find((r) => before.rows.filter((o) => o.index > r.index && o.index < last).every((o) => o.at === place)).index;
  const from = typeRow?.index ?? (retyped ? blockStart : own[0].index);
  const text = new Map(); // by index: the lines that stand there now
  if (retyped && !typeRow) text.set(from - 0.5, [`36CCA Y=${wanted.type}`]);
  if (retyped && typeRow) text.set(from, [`36CCA Y=${wanted.type}`]);
  const placed = new Set();
  const set = own.filter((r) => r.index >= from && r !== typeRow);
  for (const row of set.toReversed()) text.set(row.index, replaced(row, wanted, initial, placed, set, retyped));
  const missing = changesOf(wanted, isCell(place) ? initial : { ...now, slots: {} });
  const lines = before.lines.flatMap((line, i) => [...(text.get(i - 0.5) ?? []), ...(text.get(i) ?? [line])].map((l) => ({ l, i })));
  addMissing(lines, missing, placed, typeRow?.index ?? from, own.at(-1).index);
  return { lines: lines.map((x) => x.l), end: before.end + lines.length - before.lines.length };
}

// Only the last line that sets a field gets its new number. One that no other line sets, and that is to be as in a new part, goes.
function replaced(row, wanted, initial, placed, set, retyped) {
  if (setsState(row)) return retyped ? [] : [row.line];
  if (setsType(row)) return [row.line];
  if (setsConfiguration(row)) {
    if (wanted.configuration === null) return [];
    const first = !placed.has('configuration');
    placed.add('configuration');
    return [first ? `36CCA Z=${wanted.configuration}` : row.line];
  }
  const slots = setsOf(row);
  for (const slot of Object.keys(slots)) {
    const isLast = !placed.has(slot);
    const isOnly = set.filter((r) => setsSlots(r) && slot in setsOf(r)).length === 1;
    placed.add(slot);
    if (!(slot in wanted.slots)) delete slots[slot];
    else if (isLast && stored(slots[slot], initial.slots[slot]) !== wanted.slots[slot]) {
      if (isOnly && wanted.slots[slot] === initial.slots[slot]) delete slots[slot];
      else slots[slot] = wanted.slots[slot];
    }
  }
  if (same(slots, setsOf(row))) return [row.line];
  return Object.keys(slots).length ? [slotLine(slots)] : [];
}

// An edge slot, which is 128 when it is new, stores 41 as 169: a line that says 41 stays as it was written.
const stored = (written, initial) => (initial === 128 && written < 128 ? written + 128 : written);

function addMissing(lines, { configuration, slots }, placed, typeAt, lastAt) {
  const behind = (index) => lines.findLastIndex((x) => x.i <= index) + 1;
  if (configuration !== null && !placed.has('configuration')) lines.splice(behind(typeAt), 0, { l: `36CCA Z=${configuration}`, i: typeAt });
  const more = Object.fromEntries(Object.entries(slots).filter(([s]) => !placed.has(s)));
  if (!Object.keys(more).length) return;
  const found = lines.findLast((x) => x.i >= typeAt && x.i <= lastAt && setsSlots({ line: x.l }));
  if (found) found.l = slotLine({ ...setsOf({ line: found.l }), ...more });
  else lines.splice(behind(lastAt), 0, { l: slotLine(more), i: lastAt });
}

// As lines of its own. Where lines behind it need the pointer where it was, it is put back.
function blockAt(before, index, place, wanted, initial) {
  const now = before.parts[place];
  const { configuration, slots } = isCell(place) ? changesOf(wanted, initial)
    : { configuration: wanted.configuration === now.configuration ? null : wanted.configuration, slots: {} };
  const needsType = isCell(place) ? wanted.type !== 0 || now.type !== 0 || configuration === null : wanted.type !== now.type;
  const block = [`M E=${place}`, needsType && `36CCA Y=${wanted.type}`, configuration !== null && `36CCA Z=${configuration}`, Object.keys(slots).length && slotLine(slots)];
  const pointer = before.rows.findLast((r) => r.index < index)?.at ?? before.start;
  const next = before.lines.slice(index).find((line) => !isTick(line) && !isRemark(line));
  const back = next !== undefined && !/^M E=/.test(next) && pointer !== place ? [`M E=${pointer}`] : [];
  const added = [...block.filter(Boolean), ...back];
  const lines = before.lines.toSpliced(index, 0, ...added);
  return { lines, end: before.end + added.length, at: index + block.filter(Boolean).length - 1 };
}

// A new part goes behind the wiring, in front of the first tick.
function asBlock(before, place, wanted, initial) {
  const firstTick = before.lines.findIndex(isTick);
  return blockAt(before, firstTick < 0 ? before.lines.length : Math.min(firstTick, before.end), place, wanted, initial);
}

const behindAll = (before, place, wanted, initial) => blockAt(before, before.end, place, wanted, initial);

// Without the lines that set it, and without moves to it that nothing needs any more.
function withoutPart(before, place) {
  const own = new Set(ownRows(before, place).map((r) => r.index));
  const left = before.rows.filter((r) => !own.has(r.index));
  const idle = left.filter((r, i) => r.line === `M E=${place}` && (!left[i + 1] || /^M E=/.test(left[i + 1].line))).map((r) => r.index);
  const gone = new Set([...own, ...idle]);
  const lines = before.lines.filter((_, i) => !gone.has(i));
  return { lines, end: before.end - gone.size };
}

// ---- the trigger source and states

const setsTrigger = (row) => /^PM E=/.test(row.line);

// In the line that sets it last, or as a line more: at the end of the wiring, or in front of the tick that is looked at.
function triggerWays(before, clock) {
  const row = before.rows.findLast((r) => r.ok && setsTrigger(r));
  const put = (index, gone) => ({ lines: before.lines.toSpliced(index, gone, `PM E=${clock}`), end: before.end + 1 - gone });
  const firstTick = before.lines.findIndex(isTick);
  const wiringEnd = firstTick < 0 ? before.lines.length : Math.min(firstTick, before.end);
  return [() => row && put(row.index, 1), () => put(wiringEnd, 0), () => put(before.end, 0)];
}

// In the line that sets it, where no tick has run since; or in front of the tick that is looked at.
function stateWays(before, place, value) {
  const since = before.rows.findLastIndex((r) => isTick(r.line));
  const row = before.rows.slice(since + 1).findLast((r) => r.ok && r.at === place && setsState(r));
  const replaced = () => row && { lines: before.lines.toSpliced(row.index, 1, `36CCA F=${value}`), end: before.end };
  const pointer = before.rows.at(-1)?.at ?? before.start;
  const follows = before.lines.slice(before.end).find((line) => !isTick(line) && !isRemark(line));
  const back = follows !== undefined && !/^M E=/.test(follows) && pointer !== place ? [`M E=${pointer}`] : [];
  const added = [...(pointer === place ? [] : [`M E=${place}`]), `36CCA F=${value}`, ...back];
  return [replaced, () => ({ lines: before.lines.toSpliced(before.end, 0, ...added), end: before.end + added.length })];
}

// ---- trying

const timesRefused = (rows, line) => rows.filter((r) => !r.ok && r.line === line).length;

function verdictOf(programs, before, next, place, reads) {
  const after = tried(programs, next.lines, next.end, before.withTicks);
  const refused = after.rows.findLast((r) => !r.ok && timesRefused(after.rows, r.line) > timesRefused(before.rows, r.line));
  const others = Object.keys(before.parts).filter((p) => p !== String(place) && !same(before.parts[p], after.parts[p]));
  const states = before.withTicks ? Object.keys(before.states).filter((p) => p !== String(place) && before.states[p] !== after.states[p]) : [];
  return { lines: next.lines, fits: reads(after) && !others.length && !states.length && !refused, refused, others: [...new Set([...others, ...states])] };
}

// Lines behind the end, at that part, that were taken before and are refused now.
function spoiltBehind(programs, before, next) {
  const [then, now] = [before, next].map(({ lines, end }) => tried(programs, lines, lines.length).rows.filter((r) => r.index >= end));
  return now.filter((row, i) => !row.ok && then[i]?.ok).map((row) => row.index);
}

// The first way that fits: { lines, end, changed, spoilt }; or what stands against it: { refused: a line } or { others: places }.
function firstThatFits(programs, before, ways, place, reads) {
  let against = null;
  for (const way of ways) {
    const next = way();
    if (!next) continue;
    const verdict = verdictOf(programs, before, next, place, reads);
    if (verdict.fits) return { ...next, changed: changedAt(before.lines, next.lines), spoilt: spoiltBehind(programs, before, next) };
    if (!against?.refused) against = verdict;
  }
  return { against };
}

// The lines with a part as wanted.
export function rewired(programs, lines, end, place, wanted, initial) {
  const before = tried(programs, lines, end);
  if (same(before.parts[place], wanted)) return { lines, end, changed: -1 };
  const ways = (wanted === initial ? [withoutPart, asBlock, behindAll] : [inPlace, asBlock, behindAll]).map((way) => () => way(before, place, wanted, initial));
  return firstThatFits(programs, before, ways, place, ({ parts }) => same(parts[place], wanted));
}

// The lines with another trigger source.
export function retriggered(programs, lines, end, clock) {
  const before = tried(programs, lines, end);
  if (before.parts[TRIGGER] === clock) return { lines, end, changed: -1 };
  return firstThatFits(programs, before, triggerWays(before, clock), TRIGGER, ({ parts }) => parts[TRIGGER] === clock);
}

// The lines with another state of a cell, as it is in front of the tick that is looked at.
export function restated(programs, lines, end, place, value) {
  const before = tried(programs, lines, end, true);
  if (before.states[place] === value) return { lines, end, changed: -1 };
  const reads = (after) => after.states[place] === value && same(after.parts[place], before.parts[place]);
  return firstThatFits(programs, before, stateWays(before, place, value), place, reads);
}

// The last line that is not as it was.
function changedAt(lines, next) {
  let same = 0;
  while (same < Math.min(lines.length, next.length) && lines.at(-1 - same) === next.at(-1 - same)) same += 1;
  return next.length - same - 1;
}
