// The page in a browser: what a person does there, and what is shown.
import fs from 'node:fs';
import path from 'node:path';
import { TOP } from './make.mjs';
import { materialOf } from './material.mjs';
import { SHIFT } from './driver.mjs';
import { expect } from './expect.mjs';
import { answers, focusLines, keepSaved, leaveLines, openFile, pause, quick, savedBytes, savedText, switchTtl0 } from './hands.mjs';

// With the mouse and the keyboard only: the manual's first example, its picture, and why each cell woke.
export async function wiresFirstExample(page) {
  await page.press('#new');
  await page.press('#text');
  for (const line of ['M E=1', '36CCA Y=14', '36CCA Z=2', '36CCB X=41 Y=192', 'M E=35']) {
    await page.type(line);
    await page.key('Enter');
  }
  await page.type('36CCA Z=1');
  expect('answers', await answers(page), [':A', ':A', ':A', ':A', ':A', ':A']);
  expect('open last line is said', (await page.text('#hint')).startsWith('The last line has no line end yet.'), true);
  await page.press('#quick');
  await page.press('#switch-8');
  for (let i = 0; i < 3; i += 1) await page.press('#quick');
  await page.press('#switch-8');
  await page.press('#quick');
  const wanted = ['T 0000 0000 0001 1', 'T 0000 0001 0001 1', 'T 0004 0001 0001 1', 'T 0004 0000 0001 1', 'T 0000 0000 0000 0'];
  expect('ticks', (await answers(page)).slice(6), wanted);
  expect('hint is gone', await page.text('#hint'), '');
  expect('rows', await page.texts('#labels b'), ['TTL0', 'cell 1', 'BNC3 ← cell 1']);
  expect('woken columns', await page.evaluate('document.querySelector("#drawing .woken").getAttribute("d").match(/M/g).length'), 4);
  expect('counts in the row of cell 1', await page.evaluate('[...document.querySelectorAll("#drawing .count")].map(t => t.textContent)'), ['0', '2', '1', '0']);
  await page.press('#tab-pldraw');
  await page.until('document.querySelector("#panel .picture")?.complete');
  expect('its picture', await page.evaluate('document.querySelector("#panel .picture").naturalWidth > 100'), true);
  await page.press('#tab-plsurvey');
  expect('its survey', await page.text('#panel pre'), 'TTL0: cells 1; BNC3\nBNC3 <- TTL0\n');
}

export async function looksAtReasons(page) {
  await page.press('#tab-line');
  await leaveLines(page);
  await page.key('Home');
  await page.key('ArrowRight');
  const panel = await page.text('#panel');
  expect('tick 2 is looked at', panel.split('\n')[0].startsWith('Tick 2, quick'), true);
  expect('its reason', panel.includes('cell 1 (one-shot): X (trigger) is high (169, rise of TTL0). Output goes high, count 2.'), true);
  expect('its line', panel.includes('TTL0 goes high: input.'), true);
  await page.key('ArrowRight');
  expect('lamp of BNC3', await page.evaluate('document.getElementById("lamp-2").className'), 'lamp high driven');
  expect('slider', await page.evaluate('document.getElementById("waves").getAttribute("aria-valuetext")'), 'tick 3, quick; high: TTL0, cell 1, BNC3');
  await page.click('#undo');
  expect('undo takes one tick', (await answers(page)).length, 10);
  await page.key('r');
  expect('redo gives it again', (await answers(page)).length, 11);
}

// Nothing of a covered tick is seen before it is uncovered. Levels and waking are marked, and counted.
export async function predicts(page) {
  await page.click('#predict');
  await switchTtl0(page);
  await quick(page);
  expect('covered answer', (await answers(page)).at(-1), '?');
  expect('lamps stay', await page.evaluate('document.querySelectorAll(".lamp.high").length'), 0);
  expect('question', (await page.text('#panel')).startsWith('What will tick 6 do?'), true);
  for (const tab of ['plexplain', 'pldraw', 'card']) {
    await page.click(`#tab-${tab}`);
    expect(`${tab} does not tell`, await page.text('#panel'), 'Covered until the ticks are uncovered.');
  }
  await page.click('#tab-line');
  await page.press('[data-mark="high cell 1"]');
  await page.key('a');
  expect('uncovered answer', (await answers(page)).at(-1), 'T 0000 0001 0001 1');
  expect('verdict', await page.text('.verdict'), '2 of 4 as predicted. Not as predicted: TTL0 is high, cell 1 wakes.');
  await quick(page);
  await page.press('[data-mark="wakes cell 1"]');
  await page.press('[data-mark="high BNC3"]');
  await page.press('[data-uncover]');
  expect('second verdict', await page.text('.verdict'), 'All 4 as predicted.');
  expect('counted', await page.text('.total'), 'So far 1 of 2 ticks without a miss, 6 of 8 marks right.');
  await quick(page);
  await page.click('#undo');
  await page.key('r');
  expect('undo and redo do not tell', (await answers(page)).at(-1), '?');
  await page.click('#undo');
  await page.click('#tab-score');
  expect('listed', await page.texts('#panel tbody td'), ['2 of 4', 'TTL0 is high, cell 1 wakes', '4 of 4', '']);
  await page.click('#predict');
}

// A teacher covers the first wiring from tick 2 on and hands out the link; a student opens it.
export async function doesExercise(page, url) {
  await page.click('#examples [data-group=first]');
  await page.press('#open-exercise');
  await page.evaluate('document.getElementById("exercise-from").value = 2');
  await page.press('#exercise-copy');
  await page.until('document.getElementById("exercise-link").value.includes("&x=8")');
  const link = await page.evaluate('document.getElementById("exercise-link").value');
  expect('the link is to this page', link.startsWith(`${url}#w=`), true);
  await page.open(link);
  expect('ticks 2 to 9 are covered', (await answers(page)).slice(6), ['T 0000 0000 0001 1', ...Array(8).fill('?')]);
  expect('the lines stay', await page.evaluate('document.getElementById("text").readOnly'), true);
  await quick(page);
  expect('no new tick', (await answers(page)).length, 15);
  const drawing = await page.evaluate('(() => { const r = document.getElementById("drawing").getBoundingClientRect(); return [r.x, r.y]; })()');
  const column = await page.evaluate('Number(document.getElementById("chosen").getAttribute("width"))');
  const inPicture = (row, key = null) => page.pressAt(drawing[0] + 1.5 * column, drawing[1] + 24 * row + 12, key);
  await inPicture(0);
  await inPicture(1);
  await inPicture(1, SHIFT);
  await page.press('[data-uncover]');
  expect('marked in the picture', await page.text('.verdict'), 'All 4 as predicted.');
  expect('one is uncovered', (await answers(page)).slice(6, 9), ['T 0000 0000 0001 1', 'T 0000 0001 0001 1', '?']);
  for (let i = 0; i < 7; i += 1) {
    await page.press('[data-next]');
    await page.press('[data-uncover]');
  }
  expect('all are uncovered', (await answers(page)).includes('?'), false);
  expect('nothing to predict is left', await page.evaluate('document.querySelectorAll("[data-next]").length'), 0);
  await page.click('#tab-score');
  expect('counted to the end', await page.text('#panel h3'), '1 of 8 ticks without a miss, 17 of 32 marks right');
}

// The code that the class copies: the line itself shows what it does.
export async function triesLookup(page) {
  await page.click('#examples [data-group=errors][data-index="0"]');
  await page.click('#tab-line');
  await page.click('#answers [data-line="3"]');
  expect('34953 at its line', (await page.text('#panel .truth caption')), 'code 34953, tried on the card in every combination');
  expect('its output', (await page.texts('#panel .truth tr:last-child td')).join(''), '1001000100010001');
}

// BNC3 shows cell 1, and later cell 2: each tick has the label of its time.
export async function labelsByTick(page) {
  await page.click('#new');
  await focusLines(page);
  await page.type('M E=1\n36CCA Z=1\nM E=35\n36CCA Z=1\nT 0 0000 ffff Q\nT 0 0000 ffff Q\n36CCA Z=2\nT 0 0000 ffff Q\n');
  await leaveLines(page);
  expect('label at the end', (await page.texts('#labels b')).at(-1), 'BNC3 ← cell 2');
  await page.key('Home');
  expect('label at tick 1', (await page.texts('#labels b')).at(-1), 'BNC3 ← cell 1');
  await page.key('End');
  expect('label at tick 3', (await page.texts('#labels b')).at(-1), 'BNC3 ← cell 2');
}

export async function meetsRefusal(page) {
  await page.click('#new');
  await focusLines(page);
  await page.type('M E=17\nM E=1');
  expect('refusal is red beside the line', await page.text('#answers .refused'), ':N-5 the pointer cannot go to 17.');
  await page.until('document.querySelectorAll("#refusals li").length === 1');
  expect('and in full below', (await page.text('#refusals')).includes('5: the pointer cannot go to 17.'), true);
  expect('tally', await page.text('#tally'), '2 lines, 0 ticks, 1 refused');
  await leaveLines(page);
}

// Every wiring of the menu and every preset: no exception, no disagreement, and nothing refused.
export async function opensEverything(page) {
  const { examples, errors, presets } = materialOf(TOP);
  const menu = [['first', 0], ...errors.map((_, i) => ['errors', i]), ...examples.map((_, i) => ['examples', i])];
  const tabs = await page.evaluate('[...document.querySelectorAll("#tabs button")].map(b => b.id).filter(id => id !== "tab-score")');
  for (const [group, index] of menu) {
    await page.click(`#examples [data-group=${group}][data-index="${index}"]`);
    const seen = [await page.evaluate('document.querySelectorAll("#answers .refused").length'), await page.text('#hint'), await page.text('#notice')];
    expect(`${group} ${index}`, seen, [0, '', '']);
    for (const tab of tabs) {
      await page.click(`#${tab}`);
      expect(`${tab} of ${group} ${index}`, (await page.evaluate('document.getElementById("panel").innerHTML')).length > 40, true);
    }
  }
  await page.click('#new');
  const numbers = presets.flatMap((p) => p.numbers);
  await page.click('#open-presets'); // the menu is filled when it opens
  await page.until('document.querySelector("#presets [data-preset]")');
  await page.click('#presets .close');
  for (const number of numbers) await page.click(`#presets [data-preset="${number}"]`);
  expect('presets', await answers(page), numbers.map(() => ':A'));
}

// The first wiring as a record, in both forms, and back.
export async function keepsRecord(page) {
  await page.click('#examples [data-group=first]');
  await page.press('#tab-plsave');
  const rows = (await page.texts('#panel pre.hex'))[0].split('\n');
  expect('a row for each field', rows.length, 33);
  expect('the row of cell 1', rows[1].trim(), '4 02 00 0a 01 0e 00 00 00 02 a9 c0 00 00');
  await keepSaved(page);
  const saved = {};
  for (const name of ['plsave', 'plconvert']) {
    await page.click(`[data-save=${name}]`);
    saved[name] = await savedBytes(page);
  }
  expect('saved bytes', Object.values(saved).map((b) => b.length), [308, 276]);
  for (const [name, bytes] of Object.entries(saved)) {
    await page.click('#new');
    await openFile(page, `${name}.record`, bytes);
    await page.until(`document.getElementById("hint").innerText.includes("${name}.record")`);
    await page.click('#tab-plsave');
    await page.click('[data-save=plsave]');
    expect(`the record of ${name} again`, await savedBytes(page), saved.plsave);
  }
  const before = await page.evaluate('document.getElementById("text").value');
  await openFile(page, 'torn.record', saved.plsave.slice(1));
  await page.until('document.getElementById("notice").innerText.includes("torn.record")');
  expect('a torn record is refused', (await page.text('#notice')).includes(':N-14: this is no record'), true);
  expect('and leaves the lines', await page.evaluate('document.getElementById("text").value'), before);
  await openFile(page, 'long.lines', 'M E=1\n36CCA Y=14\n36CCA Z=100000\n');
  await page.until('document.getElementById("text").value.includes("100000")');
  await page.click('#tab-plsave');
  expect('what an older card cannot have', (await page.text('#panel .bad')).includes('plconvert: :N-17: a record of 276 bytes is to hold a duration'), true);
}

// A student gets ticks with their answers, and finds the wiring.
export async function findsWiring(page) {
  await page.click('#examples [data-group=exercises][data-index="1"]');
  expect('nothing is wired', (await page.text('#hint')).startsWith('Exercise: '), true);
  await page.press('#text');
  await page.evaluate('document.getElementById("text").setSelectionRange(0, 0)');
  await page.type('M E=1\n36CCA Y=14\n36CCA Z=3\n36CCB X=41 Y=192\nM E=33\n36CCA Z=1\n');
  await page.click('#tab-task');
  expect('the planted fault is found in its tick, at its line in the editor', (await page.text('#panel pre')).split('\n')[0], 'Line 10, tick 4: T 0 0100 ffff Q');
  await page.evaluate('(() => { const t = document.getElementById("text"); t.setSelectionRange(25, 26); t.focus(); })()');
  await page.type('2');
  expect('the wiring is found', await page.text('#hint'), 'Exercise: 10 answers agree, 0 differ.');
  await leaveLines(page);
  await page.press('#open-exercise');
  await page.press('#task-any');
  await page.press('#task-copy');
  await page.until('document.getElementById("exercise-link").value.includes("&t=")');
  await page.open(await page.evaluate('document.getElementById("exercise-link").value'));
  expect('its own link asks for levels only', (await page.text('#hint')).startsWith('Exercise: '), true);
  await page.press('#text');
  await page.evaluate('document.getElementById("text").setSelectionRange(0, 0)');
  await page.type('M E=2\n36CCA Y=14\n36CCA Z=2\n36CCB X=41 Y=192\nM E=33\n36CCA Z=2\n');
  expect('and takes another cell', await page.text('#hint'), 'Exercise: 20 answers agree, 0 differ.');
  await leaveLines(page);
}

// Two cards that hand a pulse over, and a call that is none.
export async function callsRack(page) {
  await page.press('#open-rack');
  const answers = async () => (await page.evaluate('document.getElementById("rack-answers").textContent')).split('\n');
  expect('the answers of two cards', (await answers())[17], '0;T 0000 0001 0001 1;T 0000 0001 0001 1');
  await page.evaluate(`(() => { const t = document.getElementById('calls'); t.value = 'rack 2\\nstart\\nline 3 16 W E\\n'; t.dispatchEvent(new Event('input')); })()`);
  expect('no third card', (await answers())[2], '20 7 :N-20');
  await page.click('#rack .close');
}

// A wiring that is legal and useless.
export async function takesHint(page) {
  await page.click('#new');
  await focusLines(page);
  await page.type('M E=1\n36CCA Y=14\n36CCB X=41 Y=192\n');
  await page.until('document.querySelectorAll("#wiring-hints p").length === 1');
  expect('a duration of 0', await page.text('#wiring-hints'), 'Hint: cell 1 (one-shot) has duration 0, so no trigger makes it high.');
  await page.type('36CCA Z=2\n');
  await page.until('document.querySelectorAll("#wiring-hints p").length === 0');
  await leaveLines(page);
}

export async function opensCarriageReturns(page) {
  await openFile(page, 'word.lines', 'M E=2\r\nW E');
  await page.until('document.getElementById("hint").innerText.includes("word.lines")');
  expect('CR LF is taken', await answers(page), [':A', ':A 2']);
  expect('and said', await page.text('#hint'), 'word.lines has CR LF at 1 line end. plrun refuses such lines; the page took the CRs out. '
    + 'The last line of word.lines has no LF. plrun drops such a line; the page put the LF in.');
  await keepSaved(page);
  await page.click('#save');
  expect('saved file', await savedText(page), 'M E=2\nW E\n');
  await page.click('#tab-plprint');
  await page.click('[data-save=plprint]');
  expect('saved output', (await savedText(page)).startsWith('M E=1\n36CCA Y=0\n'), true);
}

// Long runs are made in a worker: the page says so meanwhile, and ends with the answers of the stored session. The last line of this one has no LF.
export async function runsLong(page, url) {
  await page.open(url);
  const folder = path.join(TOP, 'crates', 'gate_sessions');
  await openFile(page, 'long.in', fs.readFileSync(path.join(folder, 'data', 'long.in'), 'latin1'));
  await page.until('document.documentElement.classList.contains("running")');
  expect('it says so', await page.text('#progress-words'), 'running 9518 lines …');
  await page.until('!document.documentElement.classList.contains("running")', 60000);
  const stored = fs.readFileSync(path.join(folder, 'stdout'), 'latin1').split('\nsmall long.in plrun\n')[1].split('\n');
  expect('the last answers', (await answers(page)).slice(-41, -1), stored.slice(9517 - 40, 9517));
  await page.evaluate('document.getElementById("editor").scrollTop = 0');
  await page.until('document.querySelector("#answers [data-line=\\"0\\"]")');
  expect('the first answers', (await answers(page)).slice(0, 60), stored.slice(0, 60));
  await page.click('#answers [data-line="20"]');
  await page.click('#tab-card');
  await page.until('/^Card of 16 cells after line 21|^Nothing is wired/.test(document.getElementById("panel").innerText)');
  expect('nothing failed', await page.text('#notice'), '');
}

export async function followsLink(page, url) {
  await page.click('#examples [data-group=examples][data-index="1"]');
  const text = await page.evaluate('document.getElementById("text").value');
  await pause(600);
  const hash = await page.evaluate('location.hash');
  await page.open(`${url}${hash}&l=20`);
  expect('link to a tick', (await page.text('#panel')).split('\n')[0].startsWith('Tick 3, quick'), true);
  expect(`link of ${hash.length} characters`, await page.evaluate('document.getElementById("text").value'), text);
  await page.open(`${url}#w=%%%`);
  expect('damaged link', await page.text('#notice'), 'The link is damaged: the wiring behind # could not be read.');
}

export async function fits(page) {
  const cutOff = `[...document.querySelectorAll('.bench button, .bench input, .bench select, .diagram label')]
    .filter(e => e.getBoundingClientRect().right > document.documentElement.clientWidth).map(e => e.id)`;
  for (const [width, height] of [[390, 844], [768, 1024], [1024, 768], [1280, 720]]) {
    await page.size(width, height, width < 500);
    expect(`nothing is cut off at ${width}`, await page.evaluate(cutOff), []);
    expect(`no sideways scroll at ${width}`, await page.evaluate('document.documentElement.scrollWidth - document.documentElement.clientWidth'), 0);
  }
  const nameless = `[...document.querySelectorAll('button, input:not([hidden]), select, textarea')]
    .filter(e => !(e.ariaLabel || e.labels?.length || e.textContent.trim())).map(e => e.id)`;
  expect('every control has a name', await page.evaluate(nameless), []);
}

// On paper a handout, without the frame of the page.
export async function prints(page) {
  await page.evaluate('window.dispatchEvent(new Event("beforeprint"))');
  expect('the sheet has the title', await page.evaluate('document.querySelector("#sheet h1").textContent'), 'A first wiring');
  expect('and every line', await page.evaluate('document.querySelectorAll("#sheet tr, #sheet .ticks > div").length'), 15);
}
