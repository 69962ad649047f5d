// The tab of the record: its bytes as hex, as files to keep, and a file of one to open. plsave makes it of the lines, plconvert its old form, and plload
// gives the lines of one; this file only shows bytes.

import { when } from './runs.js';
import { complaintHtml } from './panel.js';
import { outputsFor } from './state.js';
import { escapeText } from './dom.js';

const record = { means: '', refusals: {} };

// What the bytes mean, and what numbers of refusals mean: tables of the manual.
export function describeRecord({ means, refusals }) {
  Object.assign(record, { means, refusals });
}

// Where a program says `:N-17` alone, the manual's words stand behind it.
export const refusalWords = (errors) => errors.trim().replace(/^:N-(\d+)$/, (said, number) => [said, record.refusals[number]].filter(Boolean).join(': '));

export function recordHtml(table) {
  return when(outputsFor(table), (found) => {
    const forms = table.map((p, i) => ({ ...p, ...found[i] }));
    const [present, ...others] = forms.filter((f) => f.output.length);
    const open = '<span><button data-open-record>Open a record</button> <span class="quiet">plload gives its lines</span></span>';
    return `<p class="tools">${[...forms.filter((f, i) => i === 0 || f.output.length).map(saveForm), open].join(' ')}</p>${forms.map((f) => complaintHtml(f, { ...f, errors: refusalWords(f.errors) })).join('')}
      ${present ? hexHtml(present) : ''}${others.map((f) => `<details><summary>${headOf(f)}</summary>${hexHtml(f)}</details>`).join('')}
      <details><summary>what the bytes mean</summary><div class="prose">${record.means}</div></details>`;
  });
}

const headOf = (f) => `${escapeText(f.title)}${f.output.length ? `, ${f.output.length} bytes` : ''}`;

const saveForm = (f) => `<span><button data-save="${f.name}">Save as ${f.file}</button> <span class="quiet">${headOf(f)}</span></span>`;

const hexHtml = (f) => `<pre class="hex">${fieldsOf(f.output).map(fieldRow).join('\n')}</pre>`;

const HEAD_BYTES = 3; // of a field: its tag, and its length in two bytes, the higher first

// A row for each field of the record.
function fieldsOf(bytes) {
  const fields = [];
  for (let at = 0; at < bytes.length;) {
    const length = HEAD_BYTES + (bytes[at + 1] << 8 | bytes[at + 2]);
    fields.push({ at, bytes: bytes.subarray(at, at + length) });
    at += length;
  }
  return fields;
}

const fieldRow = ({ at, bytes }) => `<i>${String(at).padStart(3)}</i> ${Array.from(bytes, (b) => b.toString(16).padStart(2, '0')).join(' ')}`;
