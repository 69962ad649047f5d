// A rack in a window of its own: calls for plrack, one a line, and beside each what it answers. It starts with the example of two cards.

import { decoded } from './programs.js';
import { splitLines, asInput } from './session.js';
import { programs, has } from './state.js';
import { byId } from './dom.js';

export function buildRack({ calls, html, table }) {
  byId('calls').value = calls;
  byId('rack-about').innerHTML = html;
  byId('rack-calls').innerHTML = table;
}

function showRack() {
  const { lines } = splitLines(byId('calls').value);
  const { output, errors } = programs().plrack(asInput(lines));
  byId('calls').rows = lines.length + 1;
  byId('rack-answers').textContent = decoded(output);
  byId('rack-errors').textContent = errors;
}

export function listenToRack() {
  byId('open-rack').hidden = !has('plrack');
  byId('rack').addEventListener('beforetoggle', showRack);
  byId('calls').addEventListener('input', showRack);
}
