// Questions, time and zoom, the manual, files and links, exercises that are handed in, and phones, in a browser.
import fs from 'node:fs';
import path from 'node:path';
import { TOP } from './make.mjs';
import { CONTROL, SHIFT } from './driver.mjs';
import { expect } from './expect.mjs';
import { wireTask } from './walk-forms.mjs';
import { TASK, answers, ask, focusLines, keepSaved, leaveLines, lines, openFile, pause, program, savedBytes, savedText, setValue, typeLines } from './hands.mjs';

const said = (page) => page.texts('#reach-list .answered strong');
const answered = (page, patience = 20000) => page.until('/Asked of|Stopped/.test(document.getElementById("reach-state")?.innerText)', patience);
const questions = (page) => page.texts('#reach-list .answered code');
const inText = (page, selector, words) => page.until(`document.querySelector(${JSON.stringify(selector)})?.innerText.includes(${JSON.stringify(words)})`);

// ---- questions

// The biologist's task from nothing, by forms alone: its drawing, its question (can the lamp meet busy? plreach says so, and shows the ticks), its record.
export async function asksOfBusyLine(page, url) {
  await page.open(url);
  await wireTask(page);
  const boxes = await page.evaluate('[...document.querySelectorAll(".canvas .node")].map(n => n.dataset.key)');
  expect('its drawing', boxes, ['in 34 0', 'in 41 0', 'cell 1', 'cell 2', 'out 35']);
  await page.press('#form [data-form=close]');
  await page.press('#tab-plsave');
  await keepSaved(page);
  await page.press('[data-save=plsave]');
  expect('its record', Buffer.from(await savedBytes(page)).toString('latin1'), program('plsave', `${TASK.join('\n')}\n`, [], 'latin1'));
  await page.press('#quick');
  await page.press('#tab-reach');
  await page.evaluate(`[...document.querySelectorAll('[data-offer]')].find(b => b.innerText === 'Can BNC3 be high while BNC2 is, and for how long?').click()`);
  await answered(page);
  expect('two questions', await questions(page), ['never BNC2 and BNC3', 'never BNC2 and cell 2']);
  expect('they meet, and the cell does not', await said(page), ['yes, tick 22 shows it', 'never']);
  expect('what follows is said', (await page.text('.concluded')).startsWith('So BNC3 can meet BNC2 only in the tick in which BNC2 rises,'), true);
  expect('the ticks are drawn', await page.evaluate('document.querySelectorAll(".witness-picture .wave").length'), 5);
  await page.press('[data-put-ticks]');
  expect('and put behind the wiring', (await lines(page)).split('\n').length, TASK.length + 22 + 1);
  expect('the last has both', (await answers(page)).at(-1).startsWith('T 0004'), true);
  expect('lamps of BNC2 and BNC3', await page.evaluate('[1, 2].map(i => document.getElementById("lamp-" + i).classList.contains("high"))'), [true, true]);
  await page.click('#undo');
  expect('undo brings the ticks back that were there', (await lines(page)).split('\n').length, TASK.length + 2);
  await asksByForm(page);
  await travels(page, url);
}

async function asksByForm(page) {
  await ask(page, 'kind', 'after');
  await ask(page, 'what from 0', 'BNC2');
  await ask(page, 'how from 0', 'rises');
  await ask(page, 'what to 0', 'BNC3');
  await ask(page, 'how to 0', 'low');
  await ask(page, 'within', 1);
  await page.press('[data-ask=ask]');
  await answered(page);
  await page.until('document.querySelectorAll("#reach-list .answered").length === 3');
  await answered(page);
  expect('by names in a form', [(await questions(page))[2], (await said(page))[2]], ['after BNC2 rises: not BNC3 within 1', 'always']);
  await ask(page, 'kind', 'given');
  await ask(page, 'what from 0', 'BNC2');
  await ask(page, 'how from 0', 'low');
  await page.press('[data-ask=ask]');
  await page.until('document.querySelectorAll("#reach-list .answered").length === 4');
  await answered(page);
  expect('given comes first', (await questions(page))[0], 'given not BNC2');
  expect('and holds for those below it', (await said(page)).slice(0, 2), ['taken', 'never']);
  await page.press('[data-drop-question="0"]');
  await page.until('document.querySelectorAll("#reach-list .answered").length === 3');
  await answered(page);
  await page.press('[data-change-question="2"]');
  await ask(page, 'within', 0);
  await page.press('[data-ask=ask]');
  await page.until('document.querySelectorAll("#reach-list .answered.broken").length === 2');
  expect('a question is changed', (await questions(page))[2], 'after BNC2 rises: not BNC3 within 0');
  await page.click('#undo');
  await answered(page);
}

// A wiring and its questions travel together.
async function travels(page, url) {
  const asked = ['never BNC2 and BNC3', 'never BNC2 and cell 2', 'after BNC2 rises: not BNC3 within 1'];
  await page.until(`[...document.querySelectorAll('#reach-list .answered code')].length === 3`);
  await pause(500);
  const hash = await page.evaluate('location.hash');
  await keepSaved(page);
  await page.click('#save');
  const saved = await savedText(page);
  expect('in the file, as plreach takes them', saved, `${TASK.join('\n')}\nT 0 0000 ffff Q\n\n${asked.join('\n')}\n`);
  await page.click('[data-save-promises]');
  expect('what was asked, as a file', program('plreach', await savedText(page)).split('\n').filter((l) => /: (yes|never|always)/.test(l)).length, 3);
  await page.evaluate('window.dispatchEvent(new Event("beforeprint"))');
  expect('on paper with the answers', (await page.evaluate('document.getElementById("sheet").textContent')).includes('never BNC2 and BNC3yes, tick 22 shows it'), true);
  await page.open(`${url}${hash}`);
  await answered(page);
  expect('in the link', await questions(page), asked);
  await page.click('#new');
  await openFile(page, 'busy.lines', saved);
  await page.until('document.querySelectorAll("#reach-list .answered").length === 3');
  expect('and out of the file', [await questions(page), await lines(page)], [asked, `${TASK.join('\n')}\nT 0 0000 ffff Q\n`]);
}

// All states of eight timers take a while, thirty times: it says so, and can be stopped. The first example is the busy line.
export async function stopsAsking(page) {
  const timers = Array.from({ length: 8 }, (_, i) => `M E=${i + 1}\n36CCA Y=14\n36CCA Z=${60 + i}\n36CCB X=${41 + i} Y=192\n`);
  await typeLines(page, timers.join(''));
  await page.click('#tab-reach');
  await page.evaluate('document.getElementById("reach-lines").open = true');
  await setValue(page, '#reach-text', Array.from({ length: 30 }, (_, i) => `after cell ${i % 8 + 1} and cell 9: cell 1 within ${i + 1}`).join('\\n'));
  await page.until('document.querySelector("[data-stop-asking]")');
  await page.until('/plreach is at question \\d+ of 30, \\d/.test(document.getElementById("reach-state").innerText)');
  await page.press('[data-stop-asking]');
  await page.until('document.getElementById("reach-state").innerText.startsWith("Stopped after")');
  await page.click('#examples [data-group=busy]');
  await answered(page);
  expect('the first example', await said(page), ['yes, tick 22 shows it', 'always', 'never']);
  expect('and what it comes to', (await page.text('#reach-about')).includes('the lamp can meet busy in one tick only, that in which busy rises'), true);
}

// ---- time and zoom

export async function tellsTime(page, url) {
  await typeLines(page, `${TASK.join('\n')}\nT 0 0100 ffff Q\n${'T 0 0000 ffff Q\n'.repeat(29)}`);
  await setValue(page, '#tick-ms', 0.2);
  await leaveLines(page);
  await page.key('Home');
  await setValue(page, '#row', 'BNC3');
  await leaveLines(page);
  await page.key('.');
  expect('jumps to the next change', await page.text('#where'), 'tick line 22 of 30, 4.2 ms');
  await page.key('m');
  await page.key('.');
  expect('and tells the distance', await page.text('#where'), 'tick line 27 of 30, 5.2 ms; mark at tick 22: 5 ticks, 1 ms');
  await page.key('.');
  expect('where there is no more it says so', await page.text('#notice'), 'BNC3 does not change behind this tick.');
  await page.key(',');
  expect('and back', (await page.text('#where')).startsWith('tick line 22 of 30'), true);
  const drawing = await page.evaluate('(() => { const r = document.getElementById("drawing").getBoundingClientRect(); return [r.x, r.y]; })()');
  const column = () => page.evaluate('Number(document.getElementById("chosen").getAttribute("width"))');
  const left = await page.evaluate('Math.max(0, document.getElementById("waves").scrollLeft)');
  await page.pressAt(drawing[0] + (await column()) * 20.5, drawing[1] + 10, SHIFT);
  expect('Shift and a press sets the mark', (await page.text('#where')).includes('mark at tick 21: 1 tick, 0.2 ms'), true);
  await zooms(page, column, left);
  await pause(400);
  const hash = await page.evaluate('location.hash');
  expect('in the link', hash.includes('&u=0.2'), true);
  await page.open(`${url}${hash}`);
  expect('and out of it', await page.evaluate('document.getElementById("tick-ms").value'), '0.2');
  await keepSaved(page);
  await page.click('#save');
  expect('in the file', (await savedText(page)).split('\n')[0], '# 1 tick = 0.2 ms');
  await page.click('#tab-pldraw');
  await page.until('document.querySelector("[data-save=plwave]")');
  await page.click('[data-save=plwave]');
  const wave = await savedText(page);
  expect('in a wave file', [wave.match(/^\$timescale .*/m)[0], wave.match(/^#\d+$/gm).slice(0, 3)], ['$timescale 1 us $end', ['#0', '#200', '#4000']]);
  await setValue(page, '#picture-from', 21);
  const drawn = await page.evaluate('decodeURIComponent(document.querySelector("#panel .picture").src)');
  expect('the picture from a tick on', drawn.includes('ticks 21 to 30 of 30'), true);
  await setValue(page, '#picture-from', 1);
}

async function zooms(page, column) {
  const before = await column();
  await page.click('#zoom-in');
  expect('wider', await column() > before, true);
  await page.key('-');
  await page.key('-');
  expect('narrower by a key', await column() < before, true);
  const now = await column();
  await page.wheel('#waves', -120, CONTROL);
  expect('wider by the wheel with Ctrl', await column() > now, true);
  for (let i = 0; i < 14; i += 1) await page.click('#zoom-out');
  expect('down to a pixel', await column(), 1);
  await page.key('0');
  expect('and all at once', await column() > 1, true);
  await page.evaluate(`(() => { const waves = document.getElementById('waves');
    const fingers = (type, ...xs) => { const e = new Event(type, { bubbles: true, cancelable: true }); e.touches = xs.map((clientX) => ({ clientX, clientY: 300 })); waves.dispatchEvent(e); };
    fingers('touchmove', 800, 820); fingers('touchmove', 800, 880); fingers('touchend', 800); })()`);
  expect('wider by two fingers', await column() > 40, true);
}

// As many ticks as it says, in the worker, with progress and a stop.
export async function makesManyTicks(page) {
  await typeLines(page, `${TASK.join('\n')}\n`);
  await setValue(page, '#count', 3000);
  await page.click('#many');
  await page.until('!document.documentElement.classList.contains("running") && document.getElementById("tally").innerText.includes("3000 ticks")', 60000);
  expect('all of them', await page.text('#tally'), '3012 lines, 3000 ticks');
  await page.click('#zoom-fit');
  expect('a pixel a tick', await page.evaluate('Number(document.getElementById("chosen").getAttribute("width"))'), 1);
  await setValue(page, '#count', 100001);
  await page.click('#many');
  expect('more is said, and not cut', await page.text('#notice'), 'At most 100000 ticks at a time.');
  await page.evaluate(`(() => { const bar = document.getElementById('progress-bar'); window.progress = [];
    new MutationObserver(() => window.progress.push(bar.value)).observe(bar, { attributes: true }); })()`);
  await setValue(page, '#count', 20000);
  await page.click('#many');
  await page.until('!document.documentElement.classList.contains("running") && document.getElementById("tally").innerText.includes("23000 ticks")', 60000);
  expect('how far it is', await page.evaluate('window.progress.some(part => part > 0 && part <= 1)'), true);
  await page.click('#undo');
  await page.until('!document.documentElement.classList.contains("running") && document.getElementById("tally").innerText.includes(" 3000 ticks")', 60000);
  await page.evaluate(`['many', 'stop'].forEach((id) => document.getElementById(id).click())`);
  expect('stopped', [await page.text('#notice'), await page.text('#tally')], ['Stopped: the lines are as they were.', '3012 lines, 3000 ticks']);
  await page.click('#undo');
  await page.until('!document.documentElement.classList.contains("running")');
  expect('and it goes on', await page.text('#tally'), '12 lines, 0 ticks');
  await setValue(page, '#count', 10);
  await leaveLines(page);
}

// ---- the manual

export async function readsManual(page) {
  await page.click('#new');
  await page.press('#open-manual');
  const sections = fs.readFileSync(path.join(TOP, 'docs', 'MANUAL.md'), 'utf8').match(/^## .*$/gm).map((line) => line.slice(3));
  expect('every section', await page.evaluate('[...document.querySelectorAll("#manual-text section h2")].map(h => h.textContent)'), sections);
  const inSight = (title) => page.evaluate(`(() => { const h = [...document.querySelectorAll('#manual-text h2')].find(e => e.textContent.endsWith(${JSON.stringify(title)}));
    const r = h.getBoundingClientRect(), a = document.getElementById('manual-text').getBoundingClientRect(); return r.top - a.top > -2 && r.top - a.top < 60; })()`);
  for (const title of ['When the card says no', 'How a tick goes']) {
    await page.evaluate(`[...document.querySelectorAll('#manual-contents a')].find(a => a.textContent.endsWith(${JSON.stringify(title)})).click()`);
    expect(`the contents lead to "${title}"`, await inSight(title), true);
  }
  const astray = `(() => { const ids = [...document.querySelectorAll('#manual-text section')].map(s => s.id.slice('section-'.length));
    return [...document.querySelectorAll('#manual-text [data-section]')].map(a => a.dataset.section).filter(name => !ids.some(id => id === name || id.startsWith(name + '-'))); })()`;
  expect('every link inside the manual has its section', await page.evaluate(astray), []);
  await page.evaluate(`[...document.querySelectorAll('#manual-text section')].find(s => s.querySelector('h2').textContent.endsWith('How a tick goes') || s.querySelector('[data-try]')).querySelector('[data-try]').click()`);
  expect('an example is tried', (await answers(page)).filter((a) => a.startsWith(':N')), []);
  await typeLines(page, 'M E=');
  await page.press('#tab-tables');
  await page.click('.addresses [data-insert="35"]');
  await page.type('\n36CCA Z=');
  await page.click('.addresses [data-insert="1"]');
  expect('numbers go into the lines', await lines(page), 'M E=35\n36CCA Z=1');
  const text = await page.evaluate('document.getElementById("panel").innerText');
  expect('what types do, who wakes, what ^ means', ['High while both inputs are high.', 'its clock is high while its count is above 0', 'is an edge slot: it reads a rise or a fall'].map((w) => text.includes(w)), [true, true, true]);
  await leaveLines(page);
}

// ---- files and links

const UTF16 = (text) => [0xff, 0xfe, ...Buffer.from(text, 'utf16le')];

export async function opensAnything(page, url) {
  await page.open(url);
  await typeLines(page, '# the lamp\nM E=2\n# and its pointer\nW E\n');
  expect('remarks are kept, and not handed to the card', [await page.texts('.answer'), await page.text('#tally')], [['remark', ':A The pointer is at cell 2 (constant).', 'remark', ':A 2 The pointer is at cell 2 (constant).'], '4 lines, 0 ticks']);
  await page.click('#tab-plexplain');
  expect('the run has the numbers of the editor', (await page.text('#panel pre')).match(/^\d+>/gm), ['2>', '4>']);
  await openFile(page, 'wide.txt', UTF16('M E=3\r\nW E\r\n'));
  await inText(page, '#hint', 'UTF-16');
  expect('UTF-16 with CR LF', [await answers(page), await page.text('#hint')], [[':A', ':A 3'], 'wide.txt is in UTF-16; the page took it as text. wide.txt has CR LF at 2 line ends. plrun refuses such lines; the page took the CRs out.']);
  expect('the title is the file’s', await page.evaluate('document.getElementById("title").value'), 'wide');
  await openFile(page, 'mac.txt', 'M E=4\rW E\r');
  await inText(page, '#hint', 'mac.txt');
  expect('CR alone', await answers(page), [':A', ':A 4']);
  await openFile(page, 'shown.txt', '> M E=5\n:A      # the pointer\n\n# a remark\n> W E\n:A 6\nM E=7\n');
  await inText(page, '#hint', 'shown.txt');
  expect('a transcript', [await lines(page), await page.text('#hint')], ['M E=5\n# a remark\nW E\nM E=7\n',
    'shown.txt is a transcript: its 4 lines are here, its answers are left out. plcheck: 1 answers agree, 1 differ.']);
  await typeLines(page, 'M E=9\n');
  await setValue(page, '#title', 'My lamp & co');
  await pause(500);
  const hash = await page.evaluate('location.hash');
  await page.click('#link');
  await page.until('document.querySelector("#notice button")');
  expect('a link from a disk is for this machine', (await page.text('#notice')).includes('so it is for this machine only'), true);
  await page.click('#new');
  const paste = (text) => page.evaluate(`(() => { const data = new DataTransfer(); data.setData('text', ${JSON.stringify(text)}); const e = new Event('paste', { bubbles: true, cancelable: true });
    Object.defineProperty(e, 'clipboardData', { value: data }); document.getElementById('text').dispatchEvent(e); })()`);
  await paste(`https://example.org/card.html${hash}`);
  await page.until('document.getElementById("text").value === "M E=9\\n"');
  expect('a link that is pasted is opened, with its title', await page.evaluate('[document.getElementById("title").value, document.title]'), ['My lamp & co', 'My lamp & co – trigger card']);
  await keepSaved(page);
  await page.click('#save');
  expect('the title names the file', await page.evaluate('window.savedName'), 'My-lamp-co.lines');
  await openFile(page, 'card.url', `[InternetShortcut]\nURL=https://example.org/card.html${hash}\n`);
  await page.until('document.getElementById("text").value === "M E=9\\n"');
}

// A record of lines of which one was refused: it asks first.
export async function asksBeforeRecord(page) {
  await typeLines(page, 'M E=1\n36CCA Y=14\n36CCA Z=99999999999\n');
  await page.click('#tab-plsave');
  await keepSaved(page);
  await page.evaluate('window.saved = null');
  await page.click('[data-save=plsave]');
  expect('it asks', (await page.text('#sure-words')).startsWith('Line 3 was refused.'), true);
  await page.press('#sure-no');
  expect('no', await page.evaluate('window.saved'), null);
  await page.click('[data-save=plsave]');
  await page.press('#sure-yes');
  expect('and yes', (await savedBytes(page)).length, 308);
}

// ---- thirty-two cells

// A pulse of cell 17 to BNC3, and cell 32 that reads it.
const LARGE = ['M E=17', '36CCA Y=14', '36CCA Z=2', '36CCB X=41 Y=192', 'M E=32', '36CCA Y=6', '36CCB X=17', 'M E=35', '36CCA Z=17', 'T 0 0100 ffff Q', 'T 0 0100 ffff Q', 'T 0 0000 ffff Q'];
const LARGER = ['--cells', '32'];

export async function switchesCells(page, url) {
  const text = `${LARGE.join('\n')}\n`;
  await typeLines(page, text);
  const refused = () => page.evaluate('[...document.querySelectorAll(".answer.refused")].map(e => Number(e.dataset.line))');
  expect('sixteen cells refuse what is of cells 17 and 32', await refused(), [0, 4, 6, 8]);
  expect('and a line behind a refused move says where it goes', await page.text('.answer.astray span'), 'goes to cell 1: the pointer did not move');
  await page.press('#cells-32');
  expect('the switch', await page.evaluate('[16, 32].map(n => document.getElementById("cells-" + n).getAttribute("aria-pressed"))'), ['false', 'true']);
  expect('the page says which card it shows', [await page.text('#size'), await page.text('#notice')], ['thirty-two cells', 'The card has thirty-two cells now; the lines are the same.']);
  expect('the lines are kept, and none is refused', [await lines(page), await refused()], [text, []]);
  const wanted = program('plexplain', text, [...LARGER, '--rows']).trim().split('\n').map((row) => JSON.parse(row));
  expect('the answers of plexplain --cells 32', await answers(page), wanted.map((row) => row.answer));
  expect('its words have eight digits', wanted.at(-1).answer.split(' ')[2].length, 8);
  expect('rows of cells 17 and 32', await page.texts('#labels b'), ['TTL0', 'cell 17', 'cell 32', 'BNC3 ← cell 17']);
  await leaveLines(page);
  await page.key('Home');
  expect('cells that are high', await page.evaluate('document.getElementById("waves").getAttribute("aria-valuetext")'), 'tick 1, quick; high: TTL0, cell 17, cell 32');
  await page.press('#tab-drawing');
  expect('its drawing', await page.evaluate('[...document.querySelectorAll(".canvas .node")].map(n => n.dataset.key)'), ['in 41 0', 'cell 17', 'cell 32', 'out 35']);
  expect('woken there', await page.evaluate('[...document.querySelectorAll(".node.woken")].map(n => n.dataset.place)'), ['17', '32']);
  await page.press('#tab-card');
  expect('the card', [(await page.text('#panel h3')), (await page.texts('#panel th')).slice(0, 2)], ['Card of 32 cells after line 10', ['cell 17', 'cell 32']]);
  await page.press('.label [data-place="32"]');
  await setValue(page, '#form [data-form="what Y"]', 'base 31');
  expect('its form writes', (await lines(page)).split('\n')[6], '36CCB X=17 Y=31');
  expect('and has all cells to choose', await page.evaluate('document.querySelectorAll("#form [data-form=place] optgroup:first-child option").length'), 32);
  await page.click('#undo');
  await page.click('#form [data-form=close]');
  await page.click('#tab-tables');
  expect('addresses of cells 17 to 32', await page.evaluate('[17, 32, 96, 224].map(a => Boolean(document.querySelector(`.addresses [data-insert="${a}"]`)))'), [true, true, true, true]);
  await page.click('#open-presets');
  await page.until('document.querySelector("[data-preset=\\"51\\"]")');
  await page.click('#presets .close');
  await showsOutputs(page, text);
  await travelsLarge(page, url, text);
}

// Each program gets the size; one that does not take it is quoted.
async function showsOutputs(page, text) {
  for (const name of ['plexplain', 'plprint', 'plsurvey', 'pltally']) {
    await page.click(`#tab-${name}`);
    expect(`${name} --cells 32`, await page.evaluate('document.querySelector("#panel pre").textContent'), program(name, text, LARGER));
  }
  await page.click('#tab-pldraw');
  await page.until('document.querySelector("#panel .picture, #panel .bad")');
  const drawn = program('pldraw', text, LARGER);
  expect('the picture, or why there is none', await page.evaluate('Boolean(document.querySelector("#panel .picture"))'), drawn !== '');
  if (!drawn) expect('in the program’s words', (await page.text('#panel .bad')).startsWith('pldraw: --cells'), true);
  await page.click('#tab-reach');
  await page.evaluate('document.getElementById("reach-lines").open = true');
  await setValue(page, '#reach-text', 'never cell 17 and not cell 32');
  await answered(page);
  expect('a question about cells 17 and 32', await said(page), ['never']);
  await setValue(page, '#reach-text', '');
}

async function travelsLarge(page, url, text) {
  await page.click('#tab-plsave');
  await keepSaved(page);
  await page.click('[data-save=plsave]');
  const record = await savedBytes(page);
  expect('a record of 516 bytes', Buffer.from(record).toString('latin1'), program('plsave', text, LARGER, 'latin1'));
  await page.click('#save');
  const file = await savedText(page);
  expect('the file says of which card it is', file, `# a card of 32 cells\n${text}`);
  await pause(500);
  const hash = await page.evaluate('location.hash');
  expect('and the link', hash.includes('&c=32'), true);
  await page.press('#cells-16');
  expect('back to sixteen cells', [await lines(page), await page.text('#notice')], [text, 'The card has sixteen cells now; the lines are the same, and it refuses 4 lines of them.']);
  await page.click('#tab-plsave');
  expect('no record of a wiring that is not meant', [await page.evaluate('document.querySelectorAll("#panel pre.hex").length'), (await page.text('#panel .bad')).includes('line 1 was refused')], [0, true]);
  await page.click('[data-anyway]');
  expect('but where it is asked for', (await page.texts('#panel pre.hex')).length > 0, true);
  await openFile(page, 'large.record', record);
  await inText(page, '#hint', 'large.record');
  expect('a record of the other card is called so', (await page.text('#hint')).endsWith('It is of a card of thirty-two cells, so the page shows that card now, and no longer one of sixteen.'), true);
  expect('and is shown as that', await page.text('#size'), 'thirty-two cells');
  await page.click('#tab-plsave');
  await page.click('[data-save=plsave]');
  expect('and is the same record again', await savedBytes(page), record);
  await page.click('#cells-16');
  await openFile(page, 'large.lines', file);
  await page.until('document.getElementById("size").innerText === "thirty-two cells"');
  expect('a file of the other card too', await lines(page), text);
  await page.click('#undo');
  expect('undo takes the size back', await page.text('#size'), 'sixteen cells');
  await page.open(`${url}${hash}`);
  expect('a link of the other card', [await page.text('#size'), await lines(page)], ['thirty-two cells', text]);
  await page.open(url);
  expect('and a page without one has sixteen', await page.text('#size'), 'sixteen cells');
}

// The tab is closed and opened again.
export async function keepsWork(page, url) {
  await page.open(url);
  await typeLines(page, 'M E=11\n');
  await setValue(page, '#title', 'Kept');
  await pause(500);
  await page.open(url, true);
  expect('the work is there again', [await lines(page), await page.evaluate('document.getElementById("title").value')], ['M E=11\n', 'Kept']);
  await page.press('#anew');
  expect('begin anew', await lines(page), '');
  await page.open(url, true);
  expect('is a first wiring', await page.evaluate('document.getElementById("title").value'), 'A first wiring');
}

// ---- exercises that are handed in

export async function handsIn(page) {
  await page.click('#examples [data-group=first]');
  await page.press('#open-exercise');
  await setValue(page, '#exercise-text', 'When is the lamp on?');
  await page.evaluate('document.getElementById("exercise-from").value = 8');
  await page.click('#exercise-copy');
  await page.until('document.getElementById("exercise-link").value.includes("&x=14")');
  const link = await page.evaluate('document.getElementById("exercise-link").value');
  await page.open(link);
  expect('the text of the task', (await page.text('#panel')).includes('When is the lamp on?'), true);
  await page.press('[data-next]');
  await page.press('[data-uncover]');
  await page.open(link, true);
  expect('kept over a reload', (await answers(page)).slice(-2), ['T 0004 0000 0001 1', '?']);
  await page.click('#tab-task');
  await setValue(page, '#student', 'Ada');
  await page.press('[data-copy-result]');
  await page.until('document.getElementById("result").value');
  const result = (await page.evaluate('document.getElementById("result").value')).split('\n');
  expect('the result', result.slice(0, 6), ['Exercise: A first wiring', 'Name: Ada', 'Score: 0 of 1 tick without a miss, 2 of 4 marks right', '', 'tick 8: 2 of 4; not as predicted: cell 1 is low, cell 1 wakes', '']);
  expect('with the lines', result.slice(6, 9), ['Lines:', 'M E=1', '36CCA Y=14']);
  await page.click('#examples [data-group=exercises][data-index="1"]');
  await focusLines(page);
  await page.evaluate('document.getElementById("text").setSelectionRange(0, 0)');
  await page.type('# mine\nM E=1\n36CCA Y=14\n36CCA Z=3\n36CCB X=41 Y=192\nM E=33\n36CCA Z=1\n');
  await leaveLines(page);
  await page.click('#tab-task');
  expect('its line in the editor', (await page.text('#panel pre')).split('\n')[0], 'Line 11, tick 4: T 0 0100 ffff Q');
  await page.press('[data-copy-result]');
  const wired = (await page.evaluate('document.getElementById("result").value')).split('\n');
  expect('a wiring handed in, tick by tick', [wired[1], wired[7]], ['Name: Ada', 'tick 4: T 0 0100 ffff Q: expected T 0001 0000 0001 1, came T 0001 0001 0001 1']);
}

// ---- phones

const SMALL = `[...document.querySelectorAll('button, select, input:not([type=checkbox]), summary')].filter(e => e.checkVisibility() && !e.closest('.editor'))
  .map(e => [e, e.getBoundingClientRect()]).filter(([, r]) => r.height < 39.5 || r.width < 39.5).map(([e]) => e.id || e.outerHTML.slice(0, 80))`;

export async function holdsPhone(page, url) {
  await page.size(390, 844, true);
  await page.open(url);
  for (const tab of ['line', 'drawing', 'reach', 'tables', 'card', 'plsave']) {
    await page.click(`#tab-${tab}`);
    expect(`targets of ${tab} are 40 px`, await page.evaluate(SMALL), []);
  }
  await page.click('#connectors [data-place="35"]');
  expect('and those of a form', await page.evaluate(SMALL), []);
  await page.click('#form [data-form=close]');
  await page.size(844, 390, true);
  const shown = () => page.evaluate('document.getElementById("connectors").checkVisibility()');
  expect('on its side the connectors are folded away', await shown(), false);
  await page.press('#fold');
  expect('and come at a press', await shown(), true);
  expect('targets there too', await page.evaluate(SMALL), []);
  await page.press('#fold');
}
