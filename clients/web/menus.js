// The menus: examples, presets, and what a program's output is saved as.

import { decoded } from './programs.js';
import { entriesOf, runSession } from './session.js';
import { describeRecord } from './record.js';
import { buildRack } from './rack.js';
import { listenToFiles, saveOutput } from './files.js';
import { state, programs, openText, addPreset } from './state.js';
import { byId, capital, escapeText, notice, put } from './dom.js';

let material = null;

const exampleItem = (group, index, wiring, name) => `<li><button data-group="${group}" data-index="${index}">
  <b>${escapeText(capital(wiring.title))}</b> <span>${escapeText(name)}</span></button></li>`;

// Exercises of the examples need plcheck, questions plreach.
const needs = (name, html) => (material.programs.some((p) => p.name === name) ? html : '');

const listOf = (title, group, wirings, name = () => '') => (wirings.length ? `<h2>${title}</h2><ul>${wirings.map((w, i) => exampleItem(group, i, w, name(w))).join('')}</ul>` : '');

function presetRow({ numbers, text }) {
  const buttons = numbers.map((n) => `<button data-preset="${n}" aria-label="Preset ${n}">${n}</button>`);
  return `<tr><td>${buttons.join(' ')}</td><td>${escapeText(text)}</td></tr>`;
}

// A menu closes by a press outside of it too, but a phone has little outside.
const closeButton = (id) => `<button class="close" popovertarget="${id}" popovertargetaction="hide">Close</button>`;

export function buildMenus(itsMaterial) {
  material = itsMaterial;
  byId('examples').innerHTML = listOf('From the manual', 'first', material.first) + needs('plreach', listOf('Never? Always?', 'busy', material.busy))
    + listOf('Classroom errors', 'errors', material.errors) + needs('plcheck', listOf('Exercises: find the wiring', 'exercises', material.exercises))
    + listOf('Wirings that run', 'examples', material.examples, (w) => w.name);
  byId('presets').innerHTML = `<h2>Presets</h2><p id="preset-place"></p><table><tbody id="preset-rows"></tbody></table>`;
  for (const id of ['examples', 'presets', 'manual', 'rack', 'exercise', 'keys']) byId(id).insertAdjacentHTML('afterbegin', closeButton(id));
  byId('build').textContent = material.build;
  describeRecord(material.record);
  buildRack(material.rack);
}

// A wiring opens on the card that its text speaks of, sixteen cells where it says nothing.
export function openExample(group, index) {
  const wiring = material[group][index];
  byId('examples').hidePopover();
  openText(wiring.lines, { about: wiring, cells: wiring.cells ?? 16, task: wiring.task ?? null, questions: wiring.questions ?? [] });
}

const PRESETS = Array.from({ length: 256 }, (_, n) => n);

// The manual's presets, and those that only this card has, in plexplain's words.
function showPresets() {
  const known = new Set(material.presets.flatMap((p) => p.numbers));
  const more = entriesOf(programs(), PRESETS.map((n) => `36CCA X=${n}`)).flatMap((e, n) => (e.kind === 'accepted' && !known.has(n) ? [n] : []));
  const rows = [...material.presets, ...more.map((n) => ({ numbers: [n], text: saidOfPreset(n).split('\n').slice(0, -1).join(' ') }))];
  put(byId('preset-rows'), rows.map(presetRow).join(''));
  for (const button of byId('presets').querySelectorAll('[data-preset]')) button.title = saidOfPreset(button.dataset.preset);
}

const saidOfPreset = (number) => runSession(programs(), [`36CCA X=${number}`]).entries[0].words.join('\n');

// ---- saving what programs write

// plwave has a tick as its unit of time. With a length of a tick the times are those: in the largest unit in which they are whole.
const UNITS = [['ms', 1], ['us', 1e3], ['ns', 1e6], ['ps', 1e9]];

export function withTimes(bytes, tickMs) {
  const [unit, per] = UNITS.find(([, n]) => Number.isInteger(Math.round(tickMs * n * 1e6) / 1e6)) ?? UNITS.at(-1);
  const size = BigInt(Math.round(tickMs * per));
  return decoded(bytes).replace(/^\$comment .*$/m, `$comment one tick that ran is ${tickMs} ms $end`).replace(/^\$timescale .*$/m, `$timescale 1 ${unit} $end`)
    .replace(/^#(\d+)$/gm, (_, n) => `#${BigInt(n) * size}`);
}

const REWRITES = { plwave: (bytes) => (state.tickMs ? withTimes(bytes, state.tickMs) : bytes) };

export function saveProgram(name) {
  const program = material.programs.find((p) => p.name === name);
  return saveOutput({ ...program, rewrite: REWRITES[name] });
}

// ---- events

export function listenToMenus() {
  listenToFiles();
  byId('examples').addEventListener('click', (e) => {
    const button = e.target.closest('[data-group]');
    if (!button) return;
    notice('');
    openExample(button.dataset.group, button.dataset.index);
  });
  byId('presets').addEventListener('click', (e) => {
    const button = e.target.closest('[data-preset]');
    if (!button) return;
    byId('presets').hidePopover();
    addPreset(Number(button.dataset.preset));
  });
  byId('presets').addEventListener('toggle', () => {
    showPresets();
    byId('preset-place').textContent = state.selected < 0 ? 'A number adds its line.'
      : `A number adds its line below line ${state.selected + 1}, and leaves the lines behind it as they are.`;
  });
}
