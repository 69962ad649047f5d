// What the page takes from the papers: the manual, examples, first wiring, classroom errors, presets, tables and the steps of a tick, so that it has no second
// copy of them.
import fs from 'node:fs';
import path from 'node:path';
import { cellsOf, escapeHtml, inline, markdown as asHtml, table } from './markdown.mjs';

const read = (...parts) => fs.readFileSync(path.join(...parts), 'utf8');

const markdown = (text) => asHtml(text, { fenced: remarks });

// A block of the manual: its lines with their remarks. The answers are left out, since the page shows its own.
function remarks(block) {
  const rows = runOf(block).map((r) => `<tr><td><code>${escapeHtml(r.line)}</code></td><td>${inline(r.remark)}</td></tr>`);
  return `<table class="remarks"><tbody>${rows.join('')}</tbody></table>`;
}

// A row of an example: after `> ` one or more lines, three blanks apart; after `#` their answers and a remark.
const ROW = /^> (.*?)(?:\s+# (?:(?::A(?: \d+)?|:N-\d+|T -|T(?: [0-9a-f]{4}){3} \d+)(?: {2,}|$))+(.*))?$/;

// The manual's examples load a saved card first. On the page every wiring has a fresh card of its own, so `L` at the start of one is left out.
function runOf(block) {
  const rows = block.split('\n').map((text) => text.match(ROW)).filter(Boolean).flatMap(([, lines, remark = '']) => {
    const parts = lines.split(/ {3,}/);
    return parts.map((line, i) => ({ line, remark: i === parts.length - 1 ? remark : '' }));
  });
  return rows[0]?.line === 'L' ? rows.slice(1) : rows;
}

const linesIn = (section) => (section.match(/```[\s\S]*?```/g) ?? []).flatMap((b) => runOf(b).map((r) => r.line)).map((l) => l + '\n').join('');

// ---- the parts

// A section is found by its title, whatever its number is, and a table by its head, wherever it is.
function section(manual, title) {
  const found = manual.split(/^## (?:\d+ )?/m).find((text) => text.startsWith(`${title}\n`));
  if (!found) throw new Error(`the manual has no section "${title}"`);
  return found.slice(title.length);
}

// A section by what it has.
function sectionWith(manual, words) {
  const found = manual.split(/^## \d+ /m).find((text) => text.includes(words));
  if (!found) throw new Error(`no section of the manual has "${words}"`);
  return found.slice(found.indexOf('\n'));
}

function firstWiring(manual) {
  const text = section(manual, 'A first wiring');
  const [block] = text.match(/```[\s\S]*?```/);
  const intro = text.slice(0, text.indexOf('Make an empty file'));
  return { name: 'first', title: 'A first wiring', lines: linesIn(block), html: markdown(intro) + remarks(block) };
}

// The three steps of a tick: the first sentence of each.
const tickSteps = (manual) => section(manual, 'How a tick goes').match(/^\d\. .*$/gm).map((l) => l.slice(3).replace(/\. .*/, '.'));

function classroomErrors(manual) {
  return section(manual, 'Four classroom errors').split('\n### ').slice(1).map((text, i) => ({
    name: `error-${i + 1}`, title: text.slice(0, text.indexOf('\n')), lines: linesIn(text), html: markdown(text.slice(text.indexOf('\n'))),
  }));
}

function exampleWirings(top) {
  const rows = read(top, 'examples', 'README.md').split('\n').filter((l) => /^\| [a-z]/.test(l) && !l.startsWith('| wiring')).map(cellsOf);
  return rows.map(([name, title]) => ({
    name, title, cells: name.startsWith('cells32/') ? 32 : 16, lines: read(top, 'examples', `${name}.lines`), html: markdown(read(top, 'examples', `${name}.md`)),
  }));
}

// An exercise of the examples: ticks with the answers that must come, for which a wiring is to be found. `lines` are its lines without these answers.
function exercises(top) {
  const folder = path.join(top, 'examples', 'exercises');
  const names = (fs.existsSync(folder) ? fs.readdirSync(folder) : []).filter((f) => f.endsWith('.ticks')).map((f) => f.replace('.ticks', ''));
  return names.map((name) => {
    const [text, task] = [read(folder, `${name}.md`), read(folder, `${name}.ticks`)];
    const intro = text.slice(text.indexOf('\n'), text.indexOf('Write the wiring into a file'));
    return { name, title: text.match(/^# Exercise: (.*)/)[1], task, lines: enteredIn(task), html: markdown(intro) };
  });
}

// What a transcript enters: the lines behind `> `, and those that are no answer below one of these.
function enteredIn(transcript) {
  const rows = transcript.split('\n').map((row) => row.replace(/(^|\s+)#.*$/, '')).filter(Boolean);
  const entered = rows.filter((row, i) => row.startsWith('> ') || !rows[i - 1]?.startsWith('> '));
  return entered.map((row) => `${row.replace(/^> /, '')}\n`).join('');
}

// ---- what a person looks up while wiring

const rowsIn = (text, head) => {
  if (!text.includes(head)) throw new Error(`the manual has no table ${head}`);
  return text.slice(text.indexOf(head)).split('\n\n')[0].split('\n');
};

const firstTable = (text) => table(text.match(/^(\|.*\n)+/m)[0].trim().split('\n'));

// The first column of these tables is a number that a line takes: pressed, it is put into the lines.
const inserting = (c, i) => (i === 0 && /^\d+$/.test(c) ? `<button data-insert="${c}">${c}</button>` : inline(c));
const insertTable = (rows) => table(rows, inserting);

// A line as far as its first number: `36CCA Y=n` gives "36CCA Y=".
const beginning = (c, i) => (i > 0 ? inline(c) : c.replace(/`([^`]*)`/g, (_, line) => (/^(M|W|PM|HOME|!|36|L)/.test(line)
  ? `<button data-insert="${line.replace(/n.*$/, '')}">${escapeHtml(line)}</button>` : `<code>${escapeHtml(line)}</code>`)));

const [TYPES, KINDS, CONNECTOR_TYPES] = ['| type | cell |', '| type | kind |', '| type ('];

function edgeSlots(manual) {
  const found = manual.match(/A slot marked with \^[\s\S]*?\n\n/);
  if (!found) throw new Error('the manual does not say "A slot marked with ^"');
  return asHtml(found[0], {});
}

const TABLES = [
  ['Cells', (manual) => insertTable(rowsIn(manual, TYPES)) + edgeSlots(manual)],
  ['What each type does', (manual) => insertTable(rowsIn(manual, KINDS))],
  ['Addresses', () => '<div data-addresses></div>'],
  ['Connectors', (manual) => insertTable(rowsIn(manual, CONNECTOR_TYPES))],
  ['Lines', (manual) => table(rowsIn(manual, '| line | what it does |'), beginning)],
  ['Which cells wake in a quick tick', (manual) => table(rowsIn(manual, '| cell | wakes when |'))],
  ['The answer of a tick', (manual) => firstTable(section(manual, 'A first wiring'))],
  ['Words and their bits', (manual) => firstTable(section(manual, 'Words and their bits'))],
  ['When the card says no', (manual) => firstTable(section(manual, 'When the card says no'))],
];

const wiringTables = (manual) => TABLES.map(([heading, html]) => ({ heading, html: html(manual) }));

// ---- the whole manual

// An example of the manual as it stands, with a button that puts its lines into the editor.
function tryOut(block) {
  const lines = runOf(block).map((r) => `${r.line}\n`).join('');
  const text = block.replace(/^```\n|\n```$/g, '');
  return `<div class="example"><pre>${escapeHtml(text)}</pre>${lines.includes('T ') ? `<button data-try="${escapeHtml(lines).replace(/"/g, '&quot;')}">Try these lines</button>` : ''}</div>`;
}

// The name of a heading in a link, as Markdown has it: "4 What cells do" is #4-what-cells-do.
const anchorOf = (heading) => heading.toLowerCase().replace(/[^\w -]/g, '').replace(/ /g, '-');

function wholeManual(top, manual) {
  const [, ...sections] = manual.split(/^## /m);
  const how = { fenced: tryOut, folder: path.join(top, 'docs') };
  return sections.map((text) => {
    const [heading] = text.split('\n');
    const body = text.slice(text.indexOf('\n')).split(/^### (.*)$/m);
    const html = body.map((part, i) => (i % 2 ? `<h3>${inline(part)}</h3>` : asHtml(part, how))).join('');
    return { heading, id: anchorOf(heading), html };
  });
}

// "0 is the card's own clock, 1 a clock line of the backplane (C7), 2 TTL5, 3 TTL7 and 4 BNC1."
function clocksOf(manual) {
  const found = section(manual, 'How a tick goes').replace(/\s+/g, ' ').match(/ 0 is (.*?), 1 (.*?), 2 (.*?), 3 (.*?) and 4 (.*?)\./);
  if (!found) throw new Error('the manual does not name the five clocks');
  return found.slice(1);
}

// The first example of questions: its wiring, the questions below a blank line, and what they come to.
function busyLine(manual) {
  const text = section(manual, 'The card in a browser').split('### The busy line\n')[1].split('\n### ')[0];
  const [block] = text.match(/(?: {4}.*\n|\n(?= {4}))+/);
  const [wiring, questions] = block.replace(/^ {4}/gm, '').trim().split('\n\n');
  return { name: 'busy-line', title: 'The busy line', lines: `${wiring}\n`, questions: questions.split('\n'), html: markdown(text.replace(block, '')) };
}

// "| 5, 6, 7, 8 | ... |" and "| 37 to 43 | ... |"
function presetTable(manual) {
  const rows = section(manual, 'Presets').split('\n').filter((l) => /^\| \d/.test(l)).map(cellsOf);
  return rows.map(([numbers, text]) => ({ numbers: numbers.split(', ').flatMap(spread), text }));
}

function spread(part) {
  const [from, to = from] = part.split(' to ').map(Number);
  return Array.from({ length: to - from + 1 }, (_, i) => from + i);
}

// What the bytes of a record mean, and the refusals by their numbers.
function recordOf(manual) {
  const rows = section(manual, 'When the card says no').split('\n').filter((l) => /^\| \d/.test(l)).map(cellsOf);
  return { means: firstTable(section(manual, 'Saving and loading')), refusals: Object.fromEntries(rows.map(([k, means, todo]) => [k, `${means}. ${todo[0].toUpperCase()}${todo.slice(1)}.`])) };
}

// The example of a rack, and the calls on one.
function rackOf(top, manual) {
  const title = 'Up to four cards on one backplane';
  return { calls: read(top, 'examples', 'two-cards.rack'), html: markdown(read(top, 'examples', 'two-cards.md')), table: firstTable(section(manual, title)) };
}

// What each type of a cell does, and the types of connectors.
function partsOf(manual) {
  const rows = (head) => rowsIn(manual, head).slice(2).map(cellsOf);
  const kinds = rows(KINDS).map(([type, kind, text]) => ({ type: Number(type), kind, text }));
  const connectors = rows(CONNECTOR_TYPES).map(([type, name, level]) => ({ type: Number(type), name, level }));
  return { kinds, connectors };
}

export function materialOf(top) {
  const manual = read(top, 'docs', 'MANUAL.md');
  return {
    busy: [busyLine(manual)], first: [firstWiring(manual)], errors: classroomErrors(manual), examples: exampleWirings(top), exercises: exercises(top),
    presets: presetTable(manual), steps: tickSteps(manual), clocks: clocksOf(manual), tables: wiringTables(manual), record: recordOf(manual),
    rack: rackOf(top, manual), parts: partsOf(manual), manual: wholeManual(top, manual), reach: markdown(sectionWith(manual, '| question | asks |')),
  };
}
