// The manual inside the page, each section a link away; and the tables as a tab beside the lines, whose numbers are put into the lines at a press.

import { isCell, nameOf, placesOf } from './session.js';
import { catalogue } from './form.js';
import { state, change, openText } from './state.js';
import { byId, escapeText, notice } from './dom.js';

const papers = { manual: [], tables: [] };

export function describePapers({ manual, tables }) {
  Object.assign(papers, { manual, tables });
}

// ---- the manual

const sectionId = ({ id }) => `section-${id}`;

// It is long, so it is made when it is first looked at.
function buildManual() {
  if (byId('manual-text').childElementCount) return;
  byId('manual-text').innerHTML = papers.manual.map((s) => `<section id="${sectionId(s)}"><h2>${escapeText(s.heading)}</h2>${s.html}</section>`).join('');
  byId('manual-contents').innerHTML = papers.manual.map((s) => `<li><a href="#" data-section="${s.id}">${escapeText(s.heading)}</a></li>`).join('');
}

// By its anchor, or by its number alone.
function openSection(name) {
  buildManual();
  const section = papers.manual.find(({ id }) => id === name || id.startsWith(`${name}-`));
  if (!section) return notice(`The manual has no section ${name}.`);
  const found = byId(sectionId(section));
  for (const open of document.querySelectorAll('[popover]:popover-open')) if (open.id !== 'manual') open.hidePopover();
  byId('manual').showPopover();
  found.scrollIntoView();
}

function tryLines(lines) {
  byId('manual').hidePopover();
  openText(lines);
  notice('An example of the manual. It starts on a fresh card, so that its first tick may wake fewer cells than there.');
}

// ---- the tables

const HOWS_OF = [['level', 0], ['inverse', 64], ['rise', 128], ['fall', 192]];

// Every address that the card takes, by plexplain's name for it.
function addressTable() {
  const { addresses } = catalogue();
  const bases = [0, ...placesOf(state.cells)];
  const button = (a) => (a in addresses ? `<button data-insert="${a}" title="${escapeText(addresses[a])}">${a}</button>` : '');
  const rows = bases.map((base) => `<tr><th scope="row">${base ? nameOf(base) : 'nothing'}</th>${HOWS_OF.map(([, more]) => `<td>${button(base + more)}</td>`).join('')}</tr>`);
  const half = bases.findIndex((b) => b && !isCell(b));
  const table = (part) => `<table class="addresses"><thead><tr><th></th>${HOWS_OF.map(([how]) => `<th>${how}</th>`).join('')}</tr></thead><tbody>${part.join('')}</tbody></table>`;
  return `<p class="quiet">0 always low, 64 always high, 128 never, 192 in every tick.</p><div class="halves">${table(rows.slice(0, half))}${table(rows.slice(half))}</div>`;
}

export const tablesHtml = () => `<p class="quiet">A number goes into the lines, where the caret was. ${papers.tables.map((t, i) => `<a href="#" data-table="${i}">${t.heading}</a>`).join(' · ')}</p>
  <div class="prose tables">${papers.tables.map((t, i) => `<h3 id="table-${i}">${t.heading}</h3>${t.html.replace('<div data-addresses></div>', addressTable)}`).join('')}</div>`;

// At the caret, or in place of what is marked.
function insertNumber(number) {
  const area = byId('text');
  if (area.readOnly) return;
  const at = area.selectionStart + number.length;
  const text = area.value.slice(0, area.selectionStart) + number + area.value.slice(area.selectionEnd);
  change({ text }, { typing: true, select: text.slice(0, at).split('\n').length - 1 });
  area.focus({ preventScroll: true });
  area.setSelectionRange(at, at);
}

export function listenToPapers() {
  byId('manual').addEventListener('beforetoggle', buildManual);
  document.addEventListener('click', (e) => {
    const link = e.target.closest('[data-section], [data-table], [data-insert], [data-try]');
    if (!link) return;
    if (link.matches('a')) e.preventDefault();
    const { section, table, insert, try: lines } = link.dataset;
    if (section) openSection(section);
    if (table) byId(`table-${table}`).scrollIntoView({ block: 'start' });
    if (insert) insertNumber(insert);
    if (lines) tryLines(lines);
  });
}
