// Forms and the drawing, in a browser: wirings by name alone.
import fs from 'node:fs';
import path from 'node:path';
import { TOP } from './make.mjs';
import { materialOf } from './material.mjs';
import { expect } from './expect.mjs';
import { TASK, answers, choose, chooseAddress, leaveLines, lines, plprint, setValue, typeLines } from './hands.mjs';

// A lamp on BNC3 for five ticks, twenty ticks after TTL0, not while BNC2 is high: from nothing, by forms alone.
export async function wireTask(page) {
  await page.press('#new');
  await page.press('#tab-drawing');
  await page.press('#connectors [data-place="34"]');
  await choose(page, 'type', 0);
  await page.press('#new-cell');
  await choose(page, 'type', 15);
  await choose(page, 'configuration', 20);
  await choose(page, 'what X', 'base 41');
  await page.press('#new-cell');
  await choose(page, 'type', 14);
  await choose(page, 'ms', 1.25);
  await choose(page, 'what X', 'base 1');
  await choose(page, 'what Z', 'base 34');
  await page.press('#connectors [data-place="35"]');
  await choose(page, 'what source', 'base 2');
}

export async function wiresByForm(page) {
  await wireTask(page);
  expect('its lines', await lines(page), TASK.map((l) => `${l}\n`).join(''));
  expect('all are taken', await page.texts('.answer.refused'), []);
  await page.press('#switch-8');
  await page.press('#quick');
  await page.press('#switch-8');
  await page.evaluate('document.getElementById("count").value = 28');
  await page.press('#many');
  expect('BNC3 for five ticks', (await answers(page)).slice(-8), [...Array(5).fill('T 0004').map((t, i) => `${t} ${i < 4 ? '0002' : '0000'} 000${i ? 2 : 3} ${i ? 1 : 2}`), ...Array(3).fill('T 0000 0000 0000 0')]);
  await page.press('.label [data-place="1"]');
  await choose(page, 'configuration', 19);
  expect('behind ticks the same line is changed', (await lines(page)).split('\n').slice(0, 12), TASK.map((l) => l.replace('Z=20', 'Z=19')));
  await leaveLines(page);
  await page.key('u');
  expect('and undo takes it back', (await lines(page)).split('\n').slice(0, 12), TASK);
  await choose(page, 'configuration', 5000000000);
  expect('a refusal is said', await page.text('#form .bad'), 'Not written: 36CCA Z=5000000000 :N-4, no number of a line goes over 4294967295.');
  expect('and nothing is written', (await lines(page)).split('\n').slice(0, 12), TASK);
  await page.press('#form [data-form=remove]');
  expect('a cell is taken away', (await lines(page)).split('\n').slice(0, 8), [...TASK.slice(0, 2), ...TASK.slice(6)]);
}

export async function pressesTable(page) {
  await page.press('#new');
  await page.press('#new-cell');
  await choose(page, 'type', 2);
  await chooseAddress(page, 'X', 41);
  await chooseAddress(page, 'Y', 106);
  await page.press('#form [data-form="row 1"]');
  await page.press('#form [data-form="row 2"]');
  expect('a table makes its code', await lines(page), 'M E=1\n36CCA Y=2\n36CCA Z=6\n36CCB X=41 Y=106\n');
  await choose(page, 'type', 7);
  expect('another type keeps what it can', await lines(page), 'M E=1\n36CCA Y=7\n36CCB X=41 Y=106\n');
}

// The parts of a wiring as plprint prints it.
function partsIn(printed) {
  const blocks = printed.split(/^(?=M E=)/m).filter((b) => b.startsWith('M E='));
  const number = (block, form) => block.match(form)?.[1];
  return blocks.map((b) => ({
    place: Number(number(b, /^M E=(\d+)/)), type: number(b, /^36CCA Y=(\d+)/m), configuration: number(b, /^36CCA Z=(\d+)/m), text: b.replace(/^PM E=.*\n/m, ''),
    slots: [...(number(b, /^36CCB (.*)/m) ?? '').matchAll(/([XYZF])=(\d+)/g)].map((m) => [m[1], Number(m[2])]),
  }));
}

// Every wiring of sixteen cells, of the examples and the exercises, made by forms alone has the same settings.
export async function rebuildsExamples(page) {
  const fresh = partsIn(plprint(''));
  const { examples: all, exercises } = materialOf(TOP);
  const examples = all.filter((e) => e.cells === 16);
  const solutions = exercises.map(({ name }) => ({ name, lines: fs.readFileSync(path.join(TOP, 'examples', 'exercises', `${name}.lines`), 'utf8') }));
  for (const { name, lines: example } of [...examples, ...solutions]) {
    const wanted = plprint(example);
    await page.click('#new');
    await page.click('#new-cell');
    for (const [i, part] of partsIn(wanted).entries()) {
      if (part.text === fresh[i].text) continue;
      await choose(page, 'place', part.place);
      if (part.type !== fresh[i].type) await choose(page, 'type', part.type);
      if (part.place <= 16 && part.configuration !== undefined) await choose(page, 'configuration', part.configuration);
      for (const [slot, address] of part.slots) await chooseAddress(page, slot, address);
      if (part.place > 16 && part.type !== '0') await chooseAddress(page, 'source', Number(part.configuration));
    }
    const source = wanted.match(/^PM E=(\d)/m)[1];
    if (source !== '0') await setValue(page, '#trigger', source);
    expect(`${name} by forms`, plprint(await lines(page)), wanted);
  }
  await page.click('#form [data-form=close]');
}

// Every example is drawn: its boxes inside the drawing, no two on each other, a press on each opens its form.
export async function drawsWirings(page) {
  await page.click('#tab-drawing');
  const boxes = `[...document.querySelectorAll('.canvas .node rect')].map(r => ['x', 'y', 'width', 'height'].map(a => Number(r.getAttribute(a))))`;
  const { examples } = materialOf(TOP);
  for (const [i, { name, cells }] of examples.entries()) {
    await page.click(`#examples [data-group=examples][data-index="${i}"]`);
    expect(`${name} has its card`, await page.evaluate('Number(document.querySelector(".cells [aria-pressed=true]").textContent)'), cells);
    const found = await page.evaluate(boxes);
    const [width, height] = await page.evaluate(`(() => { const { width, height } = document.querySelector('.canvas svg').viewBox.baseVal; return [width, height]; })()`);
    expect(`${name} is drawn`, found.length > 1, true);
    expect(`${name} is inside`, found.filter(([x, y, w, h]) => x < 0 || y < 0 || x + w > width || y + h > height), []);
    expect(`${name} has no box on another`, found.flatMap((a, n) => found.slice(n + 1).filter((b) => a[0] < b[0] + b[2] && b[0] < a[0] + a[2] && a[1] < b[1] + b[3] && b[1] < a[1] + a[3])), []);
  }
  await page.click(`#examples [data-group=examples][data-index="${examples.findIndex((e) => e.name === 'counter')}"]`);
  expect('a chain of sixteen folds', await page.evaluate(`document.querySelector('.canvas svg').viewBox.baseVal.width < 1200`), true);
  await page.click(`#examples [data-group=examples][data-index="${examples.findIndex((e) => e.name === 'n-pulses')}"]`);
  await page.evaluate('document.querySelector(".canvas svg").drawnOnce = true');
  await page.evaluate('document.activeElement.blur()');
  await page.key('Home');
  await page.key('ArrowRight');
  await page.key('ArrowRight');
  expect('cells that woke in tick 3', await page.evaluate('[...document.querySelectorAll(".node.woken")].map(n => n.dataset.place)'), ['1', '2', '3', '4']);
  expect('and nothing else was drawn anew', await page.evaluate('document.querySelector(".canvas svg").drawnOnce'), true);
  expect('one way back, one tick late', await page.evaluate('document.querySelectorAll(".canvas .wire.late").length'), 2);
  await page.press('.canvas [data-place="4"]');
  expect('a box opens its form', await page.evaluate('document.querySelector("#form [data-form=place]").value'), '4');
  await page.click('#form [data-form=close]');
  expect('as a list', (await page.evaluate('document.querySelector(".wiring-list").textContent')).includes('cell 1, D-flop; D: always high, clock: TTL0 rises, reset: cell 4 falls (one tick late), preset: always low; high in tick 3'), true);
}

// Numbers by name while lines are typed.
export async function completesNames(page) {
  await page.press('#new');
  await page.press('#text');
  const enter = () => page.key('Enter');
  await page.type('M E=1');
  await enter();
  await page.type('36CCA Y=one');
  expect('types', await page.texts('#complete li'), ['8 retriggerable one-shot', '14 one-shot', '16 one-shot, two triggers']);
  await page.key('ArrowDown');
  await page.key('ArrowDown');
  await enter();
  await enter();
  await page.type('36CCB X=ttl0');
  expect('an edge slot has edges only', await page.texts('#complete li'), ['169 rise of TTL0', '233 fall of TTL0']);
  await page.key('Tab');
  await enter();
  await page.type('M E=BNC3');
  await enter();
  await enter();
  expect('numbers are written', await lines(page), 'M E=1\n36CCA Y=14\n36CCB X=169\nM E=35\n');
  await leaveLines(page);
}

// The trigger source beside the clock, and what a cell keeps.
export async function setsTriggerAndState(page) {
  await typeLines(page, 'M E=1\n36CCA Y=14\n36CCA Z=9\n36CCB X=41 Y=192\nT 0 0000 ffff Q\nT 0 0100 ffff Q\n');
  await setValue(page, '#trigger', 2);
  expect('a line in front of the ticks', (await lines(page)).split('\n')[4], 'PM E=2');
  expect('and ticks of that clock from now on', await page.evaluate('document.getElementById("clock").value'), '2');
  expect('those of before are idle', (await answers(page)).slice(-2), ['T -', 'T -']);
  await setValue(page, '#trigger', 3);
  expect('the same line', (await lines(page)).split('\n').filter((l) => l.startsWith('PM')), ['PM E=3']);
  await leaveLines(page);
  await page.key('u');
  await page.key('u');
  expect('undo takes both back', (await answers(page)).slice(-2), ['T 0000 0000 0001 1', 'T 0000 0001 0001 1']);
  await setValue(page, '#trigger', 4);
  expect('what it would change besides is said', await page.text('#notice'), 'Not written: it would change BNC1 too. Ticks of clock 4 run now, and others are idle. Clock 4 comes in at BNC1, which is an input now.');
  expect('and nothing is written', [(await lines(page)).includes('PM'), await page.evaluate('document.getElementById("trigger").value')], [false, '0']);
  await page.press('.label [data-place="1"]');
  expect('the count in front of tick 2', await page.evaluate('document.querySelector("#form [data-form=state]").value'), '0');
  await choose(page, 'state', 5);
  expect('is set there', (await lines(page)).split('\n').slice(4, 8), ['T 0 0000 ffff Q', '36CCA F=5', 'T 0 0100 ffff Q', '']);
  await choose(page, 'state', 3);
  expect('and in the same line again', (await lines(page)).split('\n').slice(4, 8), ['T 0 0000 ffff Q', '36CCA F=3', 'T 0 0100 ffff Q', '']);
  await choose(page, 'state', 5000000000);
  expect('a refusal is said', (await page.text('#form .bad')).startsWith('Not written: 36CCA F=5000000000 :N-4'), true);
  await page.press('#form [data-form=close]');
}

// A keystroke at 500 ticks with the form and the drawing open. The best of some is taken: what else the machine does is not the page's.
export async function typesFast(page) {
  const ticks = Array.from({ length: 500 }, (_, i) => `T 0 ${i % 40 ? '0000' : '0100'} ffff Q`);
  await typeLines(page, `${[...TASK, ...ticks].join('\n')}\n`);
  await page.click('#tab-drawing');
  await page.click('#connectors [data-place="35"]');
  await choose(page, 'place', 1);
  const times = await page.evaluate(`(async () => { const t = document.getElementById('text'); t.focus(); const times = []; const at = t.value.indexOf('Z=20') + 4;
    for (let i = 0; i < 40; i += 1) { t.setSelectionRange(at + i % 2, at + i % 2); await new Promise((r) => setTimeout(r, 30)); const from = performance.now();
      document.execCommand(i % 2 ? 'delete' : 'insertText', false, '1'); document.body.offsetHeight; times.push(performance.now() - from); } return times; })()`);
  const best = Math.min(...times);
  console.log(`typing  ${Math.round(best)} ms a keystroke at 500 ticks with form and drawing open, ${Math.round(times.toSorted((a, b) => a - b)[20])} ms in the middle`);
  expect('a keystroke is shown within 50 ms', best < 50, true);
  await leaveLines(page);
  await page.click('#form [data-form=close]');
}
