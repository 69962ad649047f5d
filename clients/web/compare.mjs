// The modules inside a page against the programs of target/bin and the stored outputs, and the page's own reading of what they write.
import fs from 'node:fs';
import path from 'node:path';
import { spawnSync } from 'node:child_process';
import { runBytes, programsOf } from './programs.js';
import { SIZES, SLOT_LETTERS, asInput, entriesOf, isCell, placesOf, runSession, splitLines, tickLine, truthTable } from './session.js';
import { questionIn, questionText, readAnswers, tickCount, verdictIn } from './reach.js';
import { TOP, PROGRAMS, makePage } from './make.mjs';
import { TRIGGER, catalogueOf, tried, rewired, retriggered, restated } from './wire.js';
import { randomLines, randomWiring, randomPart, randomSetting } from './random.mjs';
import { expect } from './expect.mjs';

const NAMES = PROGRAMS.map((p) => p.name);
const RANDOM_INPUTS = 40;
const RANDOM_LINES = 500;

const sameBytes = (a, b) => Buffer.compare(Buffer.from(a), Buffer.from(b)) === 0;

// The modules as the page has them.
export function modulesIn(page) {
  const [, json] = page.match(/<script type="application\/json" id="wasm">(.*?)<\/script>/s);
  return Object.fromEntries(Object.entries(JSON.parse(json)).map(([name, base64]) => [name, Buffer.from(base64, 'base64')]));
}

// The page is made of the files here and of the papers as they are, with the modules that it has.
export function comparePage(page, bytes, work) {
  for (const [name, b] of Object.entries(bytes)) fs.writeFileSync(path.join(work, `${name}.wasm`), b);
  expect('its programs are those of programs.json', Object.keys(bytes), NAMES);
  expect('docs/card.html is the page that clients/web/make makes: else make it anew', makePage(work) === page, true);
}

// Modules that were made here of the programs as they are now, which their stamps say, are those of the page.
export function compareModules(bytes) {
  const read = (...parts) => (fs.existsSync(path.join(TOP, 'target', ...parts)) ? fs.readFileSync(path.join(TOP, 'target', ...parts)) : Buffer.alloc(0));
  const made = NAMES.filter((name) => read('stamp', name).length && sameBytes(read('stamp', name), read('web', `${name}.stamp`)));
  for (const name of made) expect(`the page has the module of ${name} that was made here`, sameBytes(bytes[name], read('web', `${name}.wasm`)), true);
  console.log(`modules ${made.length} of ${NAMES.length} compared with those in target/web`);
}

// ---- stored sessions

const SESSIONS = path.join(TOP, 'crates', 'gate_sessions');

// Every input that a crate of the gate has: its stdin, and its data. Those of larger cards and rows of hex are lines too, mostly refused.
function storedInputs() {
  const inputs = [];
  for (const crate of fs.readdirSync(path.join(TOP, 'crates'))) {
    const folder = path.join(TOP, 'crates', crate);
    if (fs.existsSync(path.join(folder, 'stdin'))) inputs.push(path.join(folder, 'stdin'));
    const data = path.join(folder, 'data');
    if (fs.existsSync(data)) inputs.push(...fs.readdirSync(data).map((name) => path.join(data, name)).filter((file) => fs.statSync(file).isFile()));
  }
  return inputs;
}

// The files of crates/gate_sessions that a card of sixteen cells runs as plrun and plprint do.
function smallSessions() {
  const rows = fs.readFileSync(path.join(SESSIONS, 'stdin'), 'latin1').split('\n').map((row) => row.split(' '));
  const small = rows.filter(([size, , form]) => size === 'small' && ['plrun', 'wiring'].includes(form));
  return small.map(([, file]) => path.join(SESSIONS, 'data', file)).filter((file) => fs.existsSync(file));
}

// One input through both builds of every program, or of those that are named, with words of the command line.
function compareInput(modules, where, input, names = NAMES, words = []) {
  for (const name of names) {
    const here = runBytes(modules[name], input, { words });
    const there = spawnSync(path.join(TOP, 'target', 'bin', name), words, { input, maxBuffer: 1 << 30 });
    const what = [name, ...words, '<', where].join(' ');
    expect(`${what} writes the same`, sameBytes(here.output, there.stdout), true);
    expect(`${what} writes the same errors`, here.errors, there.stderr.toString());
  }
  return input.filter((b) => b === 10).length;
}

const SIZED = NAMES.filter((name) => !['plrun', 'plrack', 'plconvert'].includes(name));
const ABOUT_WIRINGS = PROGRAMS.filter((p) => p.anyway && !p.of).map((p) => p.name);

// With the words that the page hands to programs: rows, the larger card, and a wiring of which lines were refused. A program that does not take a word says so,
// in both builds.
function compareWords(modules, where, input) {
  compareInput(modules, where, input, ['plexplain'], ['--rows']);
  compareInput(modules, where, input, ['plexplain'], ['--cells', '32', '--rows']);
  compareInput(modules, where, input, SIZED, ['--cells', '32']);
  compareInput(modules, where, input, ABOUT_WIRINGS, ['--cells', '32', '--anyway']);
}

export function compareBytes(modules) {
  const files = storedInputs();
  const lines = files.reduce((sum, file) => sum + compareInput(modules, path.relative(TOP, file), fs.readFileSync(file)), 0);
  const large = files.filter((file) => file.includes('32') || file.endsWith('stdin'));
  for (const file of large) compareWords(modules, path.relative(TOP, file), fs.readFileSync(file));
  console.log(`bytes   ${files.length} stored inputs, ${lines} lines, ${NAMES.length} programs, ${large.length} with words too, in both builds`);
}

export function compareRandom(modules) {
  const inputs = (cells) => Array.from({ length: RANDOM_INPUTS }, (_, seed) => Buffer.from(asInput(randomWiring(seed + 1, RANDOM_LINES, cells))));
  const lines = inputs(16).reduce((sum, input, seed) => sum + compareInput(modules, `random wiring ${seed + 1}`, input), 0);
  inputs(32).slice(0, RANDOM_INPUTS / 4).forEach((input, seed) => compareWords(modules, `random wiring ${seed + 1} of thirty-two cells`, input));
  console.log(`random  ${RANDOM_INPUTS} wirings with ticks, ${lines} lines, ${NAMES.length} programs, and ${RANDOM_INPUTS / 4} of thirty-two cells, in both builds`);
}

// Records through both builds of the programs that take one: those that plsave makes of stored inputs, their old forms, and those that the gate stores as rows
// of hex, good and bad. What plsave made comes back from plload and plsave as it was.
export function compareRecords(modules) {
  const made = SIZES.flatMap((cells) => {
    const { plsave, plload } = programsOf(modules, cells);
    const records = storedInputs().map((file) => plsave(fs.readFileSync(file), ['--anyway']).output).filter((record) => record.length);
    const changed = records.filter((record) => !sameBytes(plsave(plload(record).output).output, record));
    expect(`plload gives the lines of which plsave makes the same record of ${cells} cells`, changed.length, 0);
    return records;
  });
  const old = made.map((record) => runBytes(modules.plconvert, record).output).filter((record) => record.length);
  const rows = fs.readFileSync(path.join(TOP, 'crates', 'gate_tables', 'stdin'), 'latin1').split('\n').filter(Boolean).map((row) => Buffer.from(row, 'hex'));
  [...made, ...old, ...rows].forEach((record, i) => {
    compareInput(modules, `record ${i + 1}`, record, ['plload', 'plconvert']);
    compareInput(modules, `record ${i + 1}`, record, ['plload'], ['--cells', '32']);
  });
  console.log(`records ${made.length} of stored inputs, ${old.length} in the old form, ${rows.length} of the gate, in both builds`);
}

// What the gate gives a program: options, and its standard input or the file that a word names.
function storedInput(folder) {
  const [stdin, args] = ['stdin', 'args'].map((name) => path.join(folder, name));
  const words = fs.existsSync(args) ? fs.readFileSync(args, 'utf8').split('\n').filter(Boolean) : [];
  const [options, files] = [true, false].map((isOption) => words.filter((word) => word.startsWith('--') === isOption));
  const file = files.length ? path.join(folder, 'data', files[0]) : stdin;
  return { options, file: files.length < 2 && fs.existsSync(file) ? file : null };
}

// Outputs that the gate stores: of each program by itself, and of plrun in crates/gate_sessions.
export function compareStored(modules) {
  let compared = 0;
  for (const name of NAMES) {
    const folder = path.join(TOP, 'crates', name);
    const { options, file } = storedInput(folder);
    if (!file) continue;
    const wanted = fs.readFileSync(path.join(folder, 'stdout'));
    expect(`${name} writes crates/${name}/stdout`, sameBytes(runBytes(modules[name], fs.readFileSync(file), { words: options }).output, wanted), true);
    compared += 1;
  }
  const parts = fs.readFileSync(path.join(SESSIONS, 'stdout'), 'latin1').split(/^((?:small|large) [\w.-]+ \w+)\n/m).slice(1);
  for (let i = 0; i < parts.length; i += 2) {
    const [size, file, form] = parts[i].split(' ');
    if (size === 'small' && form === 'plrun') {
      const { output } = runBytes(modules.plrun, fs.readFileSync(path.join(SESSIONS, 'data', file)));
      expect(`plrun answers ${file} as crates/gate_sessions/stdout`, Buffer.from(output).toString('latin1') === parts[i + 1], true);
      compared += 1;
    }
  }
  for (const file of fs.readdirSync(path.join(TOP, 'examples')).filter((f) => f.endsWith('.lines'))) {
    const picture = fs.readFileSync(path.join(TOP, 'docs', 'pictures', file.replace('.lines', '.svg')));
    expect(`pldraw draws the picture of ${file}`, sameBytes(runBytes(modules.pldraw, fs.readFileSync(path.join(TOP, 'examples', file))).output, picture), true);
    compared += 1;
  }
  console.log(`stored  ${compared} stored outputs`);
}

// ---- the page's reading

export function compareReading(modules) {
  const programs = programsOf(modules);
  const files = [...new Set(smallSessions())];
  for (const file of files) {
    const { lines } = splitLines(fs.readFileSync(file, 'latin1'));
    const session = runSession(programs, lines);
    expect(`plrun, rows and sentences of ${path.basename(file)} have the same answers`, session.disagreements.slice(0, 5), []);
    expect(`a tick of ${path.basename(file)} begins with two words and ends with its hints`, session.ticks.filter((e) => e.kind === 'tick' && !isInOrder(e)).length, 0);
  }
  // lines that look like plexplain's own words
  const odd = ['    The pointer is at cell 1 (constant).', ':A', 'W E', '    ', '36RDADC X?', '', 'T 0 0000 ffff Q', 'T -'];
  expect('odd lines', runSession(programs, odd).disagreements, []);
  expect('odd answers', runSession(programs, odd).entries.map((e) => e.answer), [':N-2', ':N-2', ':A 1', ':N-2', ':A 0', ':N-2', 'T 0000 0000 0000 0', ':N-2']);
  const random = Array.from({ length: 300 }, (_, seed) => randomLines(seed + 1, 40)).find((lines) => runSession(programs, lines).disagreements.length);
  expect('random lines', random ?? null, null);
  const rows = truthTable(programs, { type: 4, configuration: 34953, slots: { X: 0, Y: 0, Z: 0, F: 0 } }).rows.filter((r) => r.high).map((r) => r.p);
  expect('34953 tried on the card', rows, [0, 3, 7, 11, 15]);
  const cards = SIZES.flatMap((cells) => Array.from({ length: RANDOM_CARDS }, (_, seed) => compareCard(programsOf(modules, cells), seed + 1)));
  console.log(`reading ${files.length} stored inputs, 12000 random lines, ${cards.length} cards by rows and by their own reads`);
}

// The page shows a tick's sentences by their order: what is driven, what is high, cells and lines, hints.
const isInOrder = ({ words, hints }) => words[0].startsWith('Driven high:') && words[1].startsWith('High cells:')
  && words.every((text, i) => text.startsWith('Hint: ') === (i >= words.length - hints.length));

// ---- cards

const RANDOM_CARDS = 60;

// What every part reads behind lines, by the card's own read lines: of plrun, or of plexplain for the larger card, which plrun has not.
function readBack(programs, lines) {
  const asked = placesOf(programs.cells).flatMap((place) => [`M E=${place}`, '36CCA Y?', '36CCA Z?', '36CCA F?', ...SLOT_LETTERS.map((s) => `36CCB ${s}?`)]);
  const ticks = [0, 1, 2, 3, 4].map((clock) => tickLine({ clock, levels: 0, attached: 0xffff }, 'Q'));
  const input = asInput([...lines, ...asked, ...ticks]);
  const said = textOf(programs.cells === 16 ? programs.plrun(input).output : programs.plexplain(input).output).split('\n');
  const answers = said.filter((text) => /^(:|T )/.test(text)).slice(lines.length);
  const numberAt = (i) => (answers[i].startsWith(':A ') ? Number(answers[i].slice(3)) : null);
  const parts = placesOf(programs.cells).map((place, i) => {
    const [type, configuration, state, ...slots] = Array.from({ length: 7 }, (_, n) => numberAt(8 * i + 1 + n));
    return [place, { type, configuration, state, slots: Object.fromEntries(SLOT_LETTERS.flatMap((s, n) => (slots[n] === null ? [] : [[s, slots[n]]]))) }];
  });
  return { parts: Object.fromEntries(parts), trigger: [0, 1, 2, 3, 4].find((clock) => answers[asked.length + clock] !== 'T -') };
}

// A card that the page puts together from rows is the one that reads back. Of a configuration that cannot be set, what reads back is something else.
function compareCard(programs, seed) {
  const lines = randomWiring(seed, 120, programs.cells);
  const { parts, states } = tried(programs, lines, lines.length, true);
  const found = readBack(programs, lines);
  const where = `card ${seed} of ${programs.cells} cells`;
  for (const place of placesOf(programs.cells)) {
    const { state, ...part } = found.parts[place];
    const wanted = { type: part.type, configuration: parts[place].configuration === null || (!isCell(place) && part.configuration === null) ? parts[place].configuration : part.configuration, slots: part.slots };
    expect(`${where}: ${place}`, [parts[place], isCell(place) ? states[place] : null], [wanted, state]);
  }
  expect(`${where}: the trigger source`, parts[TRIGGER], found.trigger);
}

// ---- questions

// plreach's stored questions: each has its answer, and a witness as many ticks as the answer says. Cut anywhere, what plreach wrote reads as the beginning of it.
export function compareAnswers() {
  const read = (name) => fs.readFileSync(path.join(TOP, 'crates', 'plreach', name), 'latin1');
  const questions = read('stdin').split('\n\n').slice(1).join('\n').split('\n').filter(Boolean);
  const text = read('stdout');
  const { answers } = readAnswers(text, questions);
  expect('every question has its answer', answers.map((a) => a.question), questions);
  for (const a of answers) expect(`the ticks of ${a.question}`, tickCount(a), Number(a.said.match(/, tick (\d+) shows it/)?.[1] ?? 0));
  const begun = [...text].map((_, n) => readAnswers(text.slice(0, n), questions).answers.slice(0, -1));
  expect('cut anywhere', begun.filter((found) => found.some((a, i) => a.said !== answers[i].said)).length, 0);
  const forms = questions.map(questionIn).filter(Boolean).map(questionText);
  expect('what the form understands it writes as it was', forms.filter((q) => !questions.includes(q)), []);
  const long = readAnswers('never cell 1: yes, tick 5 shows it\nT 0 0100 ffff Q\nT 0 0000 ffff Q\n4 times\n1 promise: 0 kept, 1 broken, 0 not known\n', ['never cell 1']);
  expect('a long witness', [tickCount(long.answers[0]), long.summary, verdictIn(long.answers[0])], [5, '1 promise: 0 kept, 1 broken, 0 not known', 'broken']);
  console.log(`answers ${questions.length} stored questions`);
}

// ---- forms

const FORM_WIRINGS = 40;
const FORM_CHANGES = 8;

const textOf = (bytes) => Buffer.from(bytes).toString();

// What a change may not touch: every other part as plprint prints it, the ticks, and what is refused.
function leavesRest(programs, where, lines, end, next, isChanged) {
  const printed = (all) => textOf(programs.plprint(asInput(all), ['--anyway']).output).split(/^(?=M E=|PM E=)/m);
  const refusals = (all) => entriesOf(programs, all).filter((e) => e.refusal).length;
  const [before, after] = [lines.slice(0, end), next.lines.slice(0, next.end)];
  const then = printed(before);
  expect(`${where}: nothing else`, printed(after).filter((text, n) => text !== then[n] && !isChanged(text)), []);
  expect(`${where}: no refusal more`, refusals(after) <= refusals(before), true);
  expect(`${where}: the same ticks`, next.lines.filter((l) => l.startsWith('T ')), lines.filter((l) => l.startsWith('T ')));
}

// A form's change gives what was wanted where the card reads it, ticks and all, and leaves everything else as it was.
export function compareForms(modules) {
  const examples = fs.readdirSync(path.join(TOP, 'examples')).filter((f) => f.endsWith('.lines'))
    .map((f) => splitLines(fs.readFileSync(path.join(TOP, 'examples', f), 'utf8')).lines);
  const random = (cells, most) => Array.from({ length: most }, (_, seed) => randomWiring(seed + 1, 80, cells));
  compareFormsOf(programsOf(modules), [...examples, ...random(16, FORM_WIRINGS)]);
  compareFormsOf(programsOf(modules, 32), random(32, FORM_WIRINGS / 4));
}

function compareFormsOf(programs, wirings) {
  const catalogue = catalogueOf(programs);
  const count = { changes: 0, notWritten: 0 };
  wirings.forEach((start, wiring) => {
    let lines = start;
    for (let i = 0; i < FORM_CHANGES; i += 1) {
      const seed = wiring * FORM_CHANGES + i + 1;
      lines = withPart(programs, catalogue, seed, lines, count);
      lines = withSettings(programs, catalogue, seed, lines, count);
    }
  });
  expect('few are not written', count.notWritten < count.changes / 10, true);
  console.log(`forms   ${count.changes} changes in ${wirings.length} wirings of ${programs.cells} cells, ${count.notWritten} not written since the card refuses them, or since something else would change`);
}

function counted(next, count) {
  count.changes += 1;
  if (next.against) count.notWritten += 1;
  return !next.against;
}

function withPart(programs, catalogue, seed, lines, count) {
  const { place, wanted, initial, end } = randomPart(seed, lines, catalogue, (at) => tried(programs, lines, at).parts);
  const next = rewired(programs, lines, end, place, wanted, initial);
  if (!counted(next, count)) return lines;
  const where = `form ${seed}, ${place} as ${JSON.stringify(wanted)}`;
  const { state: _, ...read } = readBack(programs, next.lines.slice(0, next.end)).parts[place];
  expect(`${where}: it reads so`, { ...read, configuration: wanted.configuration === null ? null : read.configuration }, wanted);
  leavesRest(programs, where, lines, end, next, (text) => text.startsWith(`M E=${place}\n`));
  return next.lines;
}

// The trigger source, and a state.
function withSettings(programs, catalogue, seed, lines, count) {
  const { end, clock, place, value } = randomSetting(seed, lines, catalogue, (at) => tried(programs, lines, at));
  const next = retriggered(programs, lines, end, clock);
  if (counted(next, count)) {
    const printed = textOf(programs.plprint(asInput(next.lines.slice(0, next.end)), ['--anyway']).output);
    expect(`form ${seed}, clock ${clock}: it reads so`, printed.match(/^PM E=(\d)$/m)[1], String(clock));
    leavesRest(programs, `form ${seed}, clock ${clock}`, lines, end, next, (text) => text.startsWith('PM E='));
  }
  if (!place) return lines;
  const kept = restated(programs, lines, end, place, value);
  if (!counted(kept, count)) return lines;
  const where = `form ${seed}, state ${value} of ${place}`;
  const [then, now] = [[lines, end], [kept.lines, kept.end]].map(([all, at]) => tried(programs, all, at, true).states);
  expect(`${where}: it reads so, and no other`, now, { ...then, [place]: value });
  leavesRest(programs, where, lines, end, kept, () => false);
  return kept.lines;
}
