// On paper: a handout with the picture, the wiring with a sentence for each line, and the ticks in columns. Covered ticks stay covered.

import { imageHtml } from './panel.js';
import { outputOf, sizeWords } from './session.js';
import { svgOf } from './drawing.js';
import { answersNow } from './questions.js';
import { state, view, programs, wired } from './state.js';
import { byId, capital, escapeText } from './dom.js';

export function fillSheet() {
  const { session } = view;
  const firstTick = session.ticks[0]?.index ?? session.entries.length;
  const drawn = session.ticks.length && !state.cover ? outputOf(programs(), session.lines, 'pldraw').output : [];
  const picture = drawn.length ? imageHtml(drawn) : '';
  byId('sheet').innerHTML = `<h1>${escapeText(capital(state.title || (state.cover ? 'Exercise' : 'Wiring')))}</h1>${state.cells === 16 ? '' : `<p>A card of ${sizeWords(state.cells)} cells.</p>`}
    ${state.brief ? `<p class="said">${escapeText(state.brief)}</p>` : ''}${svgOf(wired().parts, null)}${picture}${questionsHtml()}
    <h2>Wiring</h2><table><tbody>${session.entries.slice(0, firstTick).map(wiringRow).join('')}</tbody></table>
    <h2>Ticks${state.tickMs ? `, ${state.tickMs} ms each` : ''}</h2><div class="ticks">${session.entries.slice(firstTick).map(runRow).join('')}</div>`;
}

// The questions of the wiring, with plreach's answers where they have come.
function questionsHtml() {
  if (!state.questions.length || state.cover) return '';
  const answers = answersNow()?.answers ?? [];
  return `<h2>Never? Always?</h2><table><tbody>${state.questions.map((q, i) => `<tr><td></td><td>${code(q)}</td><td>${escapeText(answers[i]?.said ?? '')}</td></tr>`).join('')}</tbody></table>`;
}

const code = (text) => `<code>${escapeText(text)}</code>`;

const answerCode = (e) => (e.covered ? '<i></i>' : code(e.answer));

function wiringRow(e) {
  if (e.kind === 'remark') return `<tr class="remark"><td>${e.index + 1}</td><td colspan="3">${escapeText(e.line)}</td></tr>`;
  const words = e.covered ? '' : (e.edited ? e.words.slice(0, -1) : e.words).join('\n'); // the last one says which cells it edited
  return `<tr class="${e.covered ? '' : e.kind}"><td>${e.index + 1}</td><td>${code(e.line)}</td><td>${answerCode(e)}</td><td>${escapeText(words)}</td></tr>`;
}

function runRow(e) {
  const words = e.kind === 'refused' && !e.covered ? `<p class="said">${escapeText(e.words.join('\n'))}</p>` : '';
  return `<div class="${e.covered ? '' : e.kind}"><span>${e.tick?.number ?? ''}</span>${code(e.line)}${answerCode(e)}${words}</div>`;
}
