// Questions about what a wiring can ever do: how they are written, and how plreach's answers are read. Nothing is answered here.
//
// An answer begins with its question. What stands below it belongs to it: ticks that show it, how often one comes, a remark. The lines of the wiring that were
// refused come first, and a count of the promises last.

import { asInput } from './session.js';

// ---- answers

const TICK = /^T \d [0-9a-f]{4} [0-9a-f]{4} [FQ]$/;
const TIMES = /^([\d,]+) times$/;
const SUMMARY = /^\d+ promises?: /;

export const reachInput = (wiring, questions) => `${asInput(wiring)}\n${asInput(questions)}`;

// { refused, answers: one for each question that was begun, summary }. It may be read while plreach is still writing.
export function readAnswers(text, questions) {
  const read = { refused: [], answers: [], summary: '' };
  const lines = text.split('\n');
  lines.forEach((line, i) => {
    const next = questions[read.answers.length];
    const answer = read.answers.at(-1);
    const begins = next !== undefined && line.startsWith(`${next}: `);
    if (i === lines.length - 1 && !begins) return; // not written to its end yet
    if (begins) read.answers.push({ question: next, said: line.slice(next.length + 2), ticks: [], notes: [] });
    else if (SUMMARY.test(line)) read.summary = line;
    else if (!answer) {
      if (line) read.refused.push(line);
    } else if (TICK.test(line)) answer.ticks.push({ line, times: 1 });
    else if (TIMES.test(line) && answer.ticks.length) answer.ticks.at(-1).times = Number(line.match(TIMES)[1].replaceAll(',', ''));
    else if (line) answer.notes.push(line);
  });
  return read;
}

// What an answer comes to, by its first words. `kept` and `broken` are promises; the rest promises nothing.
export function verdictIn({ question, said }) {
  if (!said) return 'asked';
  if (/^(taken|never moves)/.test(said)) return 'told';
  if (/^not (understood|taken)/.test(said)) return 'bad';
  if (/^not known/.test(said)) return 'open';
  if (/^given\b|^dead$/.test(question)) return 'told';
  return /^(yes|no)\b/.test(said) ? 'broken' : 'kept';
}

// How many ticks a witness has, and all of them as lines.
export const tickCount = ({ ticks }) => ticks.reduce((sum, t) => sum + t.times, 0);
export const ticksOf = ({ ticks }) => ticks.flatMap(({ line, times }) => Array(times).fill(line));

// ---- questions

export const KINDS_ASKED = {
  never: 'never', always: 'always', after: 'after … within', rests: 'rests within', together: 'given: never together', given: 'given: always so', dead: 'dead: what never moves',
};

// One name with how it is: { what: 'cell 3', how: 'falls' }.
const literalText = ({ what, how }) => `${how === 'low' ? 'not ' : ''}${what}${how === 'rises' || how === 'falls' ? ` ${how}` : ''}`;
const allOf = (literals) => literals.map(literalText).join(' and ');

export function questionText({ kind, from, to, within }) {
  if (kind === 'dead') return 'dead';
  if (kind === 'rests') return `rests within ${within}`;
  if (kind === 'after') return `after ${allOf(from)}: ${allOf(to)} within ${within}`;
  if (kind === 'together') return `given not (${allOf(from)})`;
  return `${kind} ${allOf(kind === 'given' ? from.slice(0, 1) : from)}`;
}

const LITERAL = /^(not )?((?:cell|drive) \w+|BNC\d|TTL\d)(?: (rises|falls))?$/;

function literalsIn(text) {
  const found = text.trim().split(/ +and +/).map((part) => part.trim().match(LITERAL));
  return found.every(Boolean) ? found.map(([, not, what, edge]) => ({ what, how: edge ?? (not ? 'low' : 'high') })) : null;
}

// A question as the form has it, or nothing where it has no form for it.
export function questionIn(text) {
  const known = (kind, from, to = [], within = 0) => (from && to ? { kind, from, to, within } : null);
  const after = text.match(/^after (.*): (.*?)(?: within (\d+))?$/);
  const one = text.match(/^(never|always) (.*)$/);
  if (after) return known('after', literalsIn(after[1]), literalsIn(after[2]), Number(after[3] ?? 0));
  if (one) return known(one[1], literalsIn(one[2]));
  const together = text.match(/^given not \((.*)\)$/);
  if (together) return known('together', literalsIn(together[1]));
  if (text.startsWith('given ')) return known('given', literalsIn(text.slice(6)));
  const rests = text.match(/^rests within (\d+)$/);
  if (rests) return known('rests', [], [], Number(rests[1]));
  return text === 'dead' ? known('dead', []) : null;
}

export const isQuestion = (line) => /^(never|always|after|given|rests|dead)\b/.test(line);
