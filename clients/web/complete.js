// Numbers by name while lines are typed: behind `M E=`, `36CCA Y=`, `36CCB X=` and the like a list of what may stand there. Letters find names, digits numbers;
// what is chosen is put in as its number, since the card takes no other.

import { isCell, nameOf, placesOf } from './session.js';
import { catalogue, connectorTypes } from './form.js';
import { state, cardAt, change } from './state.js';
import { byId, escapeText } from './dom.js';

const LISTED = 60;
const list = { options: [], at: -1, from: 0, to: 0 };

// ---- what may stand there

const placesByName = () => placesOf(state.cells).map((p) => [p, nameOf(p)]);
const typesByName = (place) => (isCell(place) ? catalogue().types.map((t) => [t.type, t.name]) : connectorTypes().map((t) => [t.type, t.name]));
const addressesByName = (edge) => Object.entries(catalogue().addresses).map(([a, name]) => [Number(a), name]).filter(([a]) => !edge || a >= 128);

// `card` is the one at the line above.
function choicesFor(before, { pointer, parts }) {
  if (/^M E=\w*$/.test(before)) return placesByName();
  if (/^36CCA Y=[\w ,-]*$/.test(before)) return typesByName(pointer);
  if (/^36CCA Z=[\w ]*$/.test(before) && !isCell(pointer)) return addressesByName(false);
  const slot = before.match(/^36CCB (?:[XYZF]=\d+ )*([XYZF])=[A-Za-z]?[\w ]*$/)?.[1];
  return slot && isCell(pointer) ? addressesByName(catalogue().types[parts[pointer].type].slots[slot]?.edge) : null;
}

function found(before, card) {
  const typed = before.slice(before.lastIndexOf('=') + 1);
  const fits = ([value, name]) => (/^\d*$/.test(typed) ? String(value).startsWith(typed) : name.toLowerCase().includes(typed.trim().toLowerCase()));
  const options = (choicesFor(before, card) ?? []).filter(fits).slice(0, LISTED);
  const done = options.some(([value]) => String(value) === typed) && options.length === 1;
  return { typed, options: done ? [] : options };
}

// ---- the list

function lineAtCaret(area) {
  const upTo = area.value.slice(0, area.selectionStart);
  const start = upTo.lastIndexOf('\n') + 1;
  return { index: upTo.split('\n').length - 1, before: upTo.slice(start), atEnd: /^(\n|$)/.test(area.value.slice(area.selectionStart)) };
}

export function showCompletions(area) {
  const { index, before, atEnd } = lineAtCaret(area);
  if (!atEnd || !before.includes('=') || state.cover?.exercise) return closeCompletions();
  const { typed, options } = found(before, cardAt(index - 1));
  Object.assign(list, { options, at: -1, from: area.selectionStart - typed.length, to: area.selectionStart });
  if (!options.length) return closeCompletions();
  const box = byId('complete');
  box.hidden = false;
  box.style.setProperty('--line', index + 1);
  box.style.setProperty('--column', before.length - typed.length);
  return drawList();
}

function drawList() {
  byId('complete').innerHTML = list.options.map(([value, name], i) => `<li role="option" id="option-${i}" data-option="${i}" aria-selected="${i === list.at}"><b>${value}</b> ${escapeText(name)}</li>`).join('');
  byId('text').setAttribute('aria-activedescendant', list.at < 0 ? '' : `option-${list.at}`);
  byId('complete').querySelector('[aria-selected=true]')?.scrollIntoView({ block: 'nearest' });
}

export function closeCompletions() {
  byId('complete').hidden = true;
  list.options = [];
}

function take(index) {
  const area = byId('text');
  const value = String(list.options[index][0]);
  const text = area.value.slice(0, list.from) + value + area.value.slice(list.to);
  const caret = list.from + value.length;
  change({ text }, { typing: true, select: text.slice(0, caret).split('\n').length - 1 });
  area.focus();
  area.setSelectionRange(caret, caret);
  closeCompletions();
}

// Whether the key was for the list. Enter ends the line, unless something was chosen or a name is half typed.
export function keyInCompletions(e) {
  const { options } = list;
  if (!options.length) return false;
  const named = /[A-Za-z]/.test(byId('text').value.slice(list.from, list.to));
  if (e.key === 'ArrowDown' || e.key === 'ArrowUp') {
    list.at = (list.at + (e.key === 'ArrowDown' ? 1 : -1) + options.length + (list.at < 0 && e.key === 'ArrowUp' ? 1 : 0)) % options.length;
    drawList();
  } else if (e.key === 'Tab' || (e.key === 'Enter' && !e.ctrlKey && (list.at >= 0 || named))) take(Math.max(0, list.at));
  else if (e.key === 'Escape') closeCompletions();
  else return false;
  return true;
}

export function listenToCompletions() {
  byId('complete').addEventListener('pointerdown', (e) => {
    const option = e.target.closest('[data-option]');
    if (option) take(Number(option.dataset.option));
    e.preventDefault();
  });
  byId('text').addEventListener('blur', closeCompletions);
}
