// Lines as files and links. What is opened may be lines, a transcript, a record or a link, in UTF-8 or UTF-16; what had to be done to it is said.

import { decoded } from './programs.js';
import { SIZES, asInput, isRemark, sizeWords, splitLines } from './session.js';
import { TICK_MS, hashIn, readHash } from './link.js';
import { isQuestion } from './reach.js';
import { refusalWords } from './record.js';
import { promisesText } from './questions.js';
import { when } from './runs.js';
import { forget, kept } from './keep.js';
import { state, view, programs, programsOfSize, has, openText, outputFor, writeAddress, keepWork } from './state.js';
import { byId, capital, copied, count, download, notice } from './dom.js';

// ---- bytes to text

const TAB = 9;
const NUL = 0;

// A record begins with a byte below the tab, and so does no text but UTF-16 with the higher byte first.
const isRecord = (bytes) => bytes[0] < TAB && !(bytes[0] === NUL && bytes[1] >= TAB);

const BEGINNINGS = [['utf-8', [0xef, 0xbb, 0xbf]], ['utf-16le', [0xff, 0xfe]], ['utf-16be', [0xfe, 0xff]]];

function encodingOf(bytes) {
  const marked = BEGINNINGS.find(([, mark]) => mark.every((b, i) => bytes[i] === b));
  if (marked) return marked[0];
  if (bytes[0] === NUL) return 'utf-16be';
  return bytes[1] === NUL ? 'utf-16le' : 'utf-8';
}

// The text of a file with LF at its line ends, and what was done for it.
export function textOfFile(name, bytes) {
  const encoding = encodingOf(bytes);
  const text = new TextDecoder(encoding).decode(bytes);
  const notes = [];
  if (encoding !== 'utf-8') notes.push(`${name} is in ${encoding.slice(0, 6).toUpperCase()}; the page took it as text.`);
  const { carriageReturns, lastLineOpen } = splitLines(text);
  if (carriageReturns && text.includes('\n')) notes.push(`${name} has CR LF at ${count(carriageReturns, 'line end')}. plrun refuses such lines; the page took the CRs out.`);
  else if (/\r/.test(text)) notes.push(`${name} has CR at its line ends; the page put LF there.`);
  if (lastLineOpen && text) notes.push(`The last line of ${name} has no LF. plrun drops such a line; the page put the LF in.`);
  return { text: text.includes('\n') ? text : text.replace(/\r/g, '\n'), notes };
}

// ---- text to lines

// As plexplain prints a run, or as the manual and plcheck write one.
const ECHO = /^\d+(?:, tick \d+)?> (.*)$/;

function enteredLines(lines) {
  const rows = lines.map((line) => ({ line, entered: line.match(ECHO)?.[1] ?? line.match(/^> ?(.*)$/)?.[1] ?? null }));
  if (!rows.some((r) => r.entered !== null)) return null;
  const isAnswer = (r, i) => r.entered === null && (/^ {4}/.test(r.line) || (i > 0 && rows.slice(0, i).findLast((o) => !isRemark(o.line))?.entered !== null));
  return rows.filter((r, i) => r.line !== '' && (isRemark(r.line) || !isAnswer(r, i))).map((r) => r.entered ?? r.line.replace(/\s+#.*$/, ''));
}

// Lines, and behind an empty line the questions about them, as plreach takes both.
function withoutQuestions(lines) {
  const at = lines.findLastIndex((line, i) => line === '' && lines.slice(i + 1).length && lines.slice(i + 1).every((l) => isQuestion(l)));
  return at < 0 ? { lines, questions: [] } : { lines: lines.slice(0, at), questions: lines.slice(at + 1) };
}

const UNIT = /^# 1 tick = (\d+(?:\.\d+)?) ms$/;
const SIZE = /^# a card of (16|32) cells$/;

// What a file of lines holds: { text, questions, tickMs, notes }, and `cells` where it says so.
export function readLines(name, text, said = []) {
  const { lines: all } = splitLines(text);
  const entered = enteredLines(all);
  const { lines: both, questions } = withoutQuestions(entered ?? all);
  const [unit, size] = [UNIT, SIZE].map((form) => both.find((line) => form.test(line)));
  const lines = both.filter((line) => line !== unit && line !== size);
  const notes = [...said];
  if (entered) notes.push(`${name} is a transcript: its ${count(lines.length, 'line')} are here, its answers are left out.${comparedWords(text, all)}`);
  if (questions.length) notes.push(`${count(questions.length, 'question')} about the wiring: see Never? Always?`);
  return { text: asInput(lines), questions, tickMs: unit ? Number(unit.match(UNIT)[1]) : TICK_MS, notes, ...(size ? { cells: Number(size.match(SIZE)[1]) } : {}) };
}

// Whether the answers of a transcript are those that come.
function comparedWords(text, lines) {
  if (!has('plcheck') || !lines.some((line) => line.startsWith('> '))) return '';
  return ` plcheck: ${decoded(programs().plcheck(text.endsWith('\n') ? text : `${text}\n`).output).trimEnd().split('\n').at(-1)}.`;
}

export const fileText = () => `${state.cells === 16 ? '' : `# a card of ${state.cells} cells\n`}${state.tickMs === TICK_MS ? '' : `# 1 tick = ${state.tickMs} ms\n`}${asInput(view.session.lines)}${
  state.questions.length ? `\n${asInput(state.questions)}` : ''}`;

// ---- opening and saving

async function openFile(file) {
  const bytes = new Uint8Array(await file.arrayBuffer());
  if (isRecord(bytes) && has('plload')) return openRecord(file.name, bytes);
  const { text, notes } = textOfFile(file.name, bytes);
  if (isLink(text)) return openLink(hashIn(text));
  const { text: lines, ...found } = readLines(file.name, text, notes);
  notice('');
  return openText(lines, { ...found, title: file.name.replace(/\.\w+$/, '') });
}

// A record of the other size is opened as that, and is called so.
function openRecord(name, bytes) {
  const tries = [state.cells, ...SIZES.filter((cells) => cells !== state.cells)].map((cells) => ({ cells, ...programsOfSize(cells).plload(bytes) }));
  const found = tries.find(({ output }) => output.length);
  notice(found ? '' : `${name} is no text, and as a record plload refuses it. ${refusalWords(tries[0].errors)}`);
  if (!found) return;
  const other = found.cells === state.cells ? '' : ` It is of a card of ${sizeWords(found.cells)} cells, so the page shows that card now, and no longer one of ${sizeWords(state.cells)}.`;
  openText(decoded(found.output), { cells: found.cells, title: name.replace(/\.\w+$/, ''),
    notes: [`These lines are the wiring of ${name}, a record of ${bytes.length} bytes, as plload gives it.${other}`] });
}

// A name for a file: the title, as far as file names go.
const fileName = () => (state.about && state.title === capital(state.about.title) ? state.about.name : state.title.replace(/[^\p{L}\p{N} ._-]+/gu, '').trim().replace(/ +/g, '-')) || 'wiring';

const saveLines = () => download(`${fileName()}.lines`, fileText());

// A question in the page, and what is done if it is agreed to.
function confirmed(words, yes) {
  byId('sure-words').textContent = words;
  byId('sure-yes').onclick = () => {
    byId('sure').close();
    yes();
  };
  byId('sure').showModal();
}

// What a program writes, under its name in the table of programs. A wiring of which some lines were refused is not what was meant, perhaps.
export function saveOutput(program) {
  const save = (anyway) => when(outputFor(program, anyway), ({ output, errors }) => {
    if (output.length) download(program.file, program.rewrite?.(output) ?? output);
    else notice(`Nothing to save: ${program.name} says ${refusalWords(errors)}`);
  });
  const refused = view.session.entries.filter((e) => e.kind === 'refused');
  if (!program.anyway || !refused.length) return save(false);
  const lines = refused.slice(0, 5).map((e) => e.index + 1).join(', ');
  return confirmed(`${refused.length === 1 ? `Line ${lines} was` : `${refused.length} lines were`} refused${refused.length === 1 ? '' : ` (line ${lines}${refused.length > 5 ? ' …' : ''})`}. `
    + 'What is saved is of the wiring without what was refused. Save it all the same?', () => save(true));
}

export const savePromises = () => download('promises.txt', promisesText());

// ---- links

const isLink = (text) => hashIn(text) !== null && !/^(M E=|36C|T \d|PM E=)/m.test(text);

export async function openLink(hash) {
  try {
    const link = await readHash(hash);
    if (!link) return false;
    const { text, looksAt, ...rest } = link;
    notice('');
    openText(text, { ...rest, select: looksAt ?? Infinity });
    if (state.cover) notice('Exercise: predict, then uncover.');
    if (state.task) notice('Exercise: find the wiring.');
    return true;
  } catch {
    notice('The link is damaged: the wiring behind # could not be read.');
    return false;
  }
}

export const openAddress = () => openLink(location.hash);

async function copyLink() {
  await writeAddress();
  const done = await copied(location.href, 'Link');
  if (!done) notice('The link is in the address line: copy it from there.');
  if (location.protocol !== 'file:') return;
  notice(`${done ? 'Link copied' : 'The link is in the address line'}. It begins with the place of this page on this machine, so it is for this machine only. Elsewhere the part from # on `
    + 'opens the same lines: behind the address of the page there, or pasted into its lines.', [['Copy the part from # on', () => copyPart(location.hash)]]);
}

async function copyPart(hash) {
  if (await copied(hash, 'The part from # on')) return;
  byId('part').value = hash;
  byId('part-of-link').showModal();
  byId('part').select();
}

// A link that is pasted into the lines is opened.
function pasted(e) {
  const text = e.clipboardData?.getData('text') ?? '';
  if (isLink(text)) {
    e.preventDefault();
    openLink(hashIn(text));
  } else if (/\r/.test(text)) setTimeout(() => notice('The pasted lines had CR at their ends. plrun refuses such lines; the page took the CRs out.'));
}

// ---- what was kept

// The work of the last time; whether there was any.
export function openKept() {
  const work = kept('work');
  if (!work?.text && !work?.questions?.length) return false;
  const { text, ...rest } = work;
  openText(text, rest);
  notice('Your lines are as you left them.', [['Begin anew', beginAnew, 'anew']]);
  return true;
}

function beginAnew() {
  forget('work');
  notice('');
  openText('');
}

// ---- events

export function listenToFiles() {
  byId('new').onclick = () => {
    notice('');
    openText('');
  };
  byId('open').onclick = () => byId('file').click();
  byId('file').onchange = async () => {
    const [file] = byId('file').files;
    if (file) await openFile(file);
    byId('file').value = '';
  };
  document.addEventListener('dragover', (e) => e.preventDefault());
  document.addEventListener('drop', (e) => {
    e.preventDefault();
    if (e.dataTransfer.files[0]) openFile(e.dataTransfer.files[0]);
    else if (isLink(e.dataTransfer.getData('text'))) openLink(hashIn(e.dataTransfer.getData('text')));
  });
  byId('text').addEventListener('paste', pasted);
  byId('save').onclick = saveLines;
  byId('link').onclick = copyLink;
  byId('print').onclick = () => window.print();
  byId('sure-no').onclick = () => byId('sure').close();
  byId('part-close').onclick = () => byId('part-of-link').close();
  window.addEventListener('pagehide', keepWork);
}
