// As much Markdown as the examples and the manual use, as HTML. A reference to a section of the manual becomes a link to it, by its anchor or its number.
import fs from 'node:fs';
import path from 'node:path';

export const escapeHtml = (s) => s.replace(/[&<>]/g, (c) => ({ '&': '&amp;', '<': '&lt;', '>': '&gt;' })[c]);

// "section 4", "sections 4 and 6"
const sectionLinks = (html) => html.replace(/\bsections? \d+(?:(?:, | and | to )\d+)*/g, (words) => words.replace(/\d+/g, (n) => `<a href="#" data-section="${n}">${n}</a>`));

export const inline = (s) => sectionLinks(escapeHtml(s)
  .replace(/!\[[^\]]*\]\([^)]*\)/g, '')
  .replace(/\[([^\]]*)\]\(#([\w-]+)\)/g, '<a href="#" data-section="$2">$1</a>')
  .replace(/\[([^\]]*)\]\([^)]*\)/g, '$1')
  .replace(/`([^`]*)`/g, '<code>$1</code>')
  .replace(/ \^/g, '\u00a0^')
  .replace(/\*\*([^*]*)\*\*/g, '<strong>$1</strong>')
  .replace(/(^|[\s(])\*([^*\s][^*]*)\*(?=[\s.,:;)?]|$)/g, '$1<em>$2</em>'));

export const cellsOf = (row) => row.replace(/^\||\|$/g, '').split('|').map((c) => c.trim());

export function table(rows, cell = inline) {
  const [head, , ...body] = rows.map(cellsOf);
  const line = (tag, cells, write) => `<tr>${cells.map((c, i) => `<${tag}>${write(c, i)}</${tag}>`).join('')}</tr>`;
  return `<table><thead>${line('th', head, (c) => inline(c))}</thead><tbody>${body.map((r) => line('td', r, (c, i) => cell(c, i, r))).join('')}</tbody></table>`;
}

const listOf = (block, tag, mark) => `<${tag}>${block.split(mark).slice(1).map((i) => `<li>${inline(i.replace(/\s*\n\s*/g, ' '))}</li>`).join('')}</${tag}>`;

// Pictures are taken in as they are; one that is no SVG is left out.
function picture(block, folder) {
  const [, words, file] = block.match(/^!\[([^\]]*)\]\(([^)]*)\)/);
  if (!folder || !file.endsWith('.svg')) return '';
  const svg = fs.readFileSync(path.join(folder, file), 'utf8');
  const [, width, height] = svg.match(/width="(\d+)" height="(\d+)"/);
  return `<img class="picture" width="${width}" height="${height}" alt="${escapeHtml(words)}" src="data:image/svg+xml,${encodeURIComponent(svg).replace(/'/g, '%27')}">`;
}

// `fenced` writes a block between ``` marks.
function blockHtml(block, { fenced, folder }) {
  if (/^#{2,3} /.test(block)) return '';
  if (block.startsWith('|')) return table(block.split('\n'));
  if (block.startsWith('```')) return fenced(block);
  if (block.startsWith('    ')) return `<pre>${escapeHtml(block.replace(/^ {4}/gm, ''))}</pre>`;
  if (block.startsWith('- ')) return listOf(`\n${block}`, 'ul', /\n- /);
  if (/^\d+\. /.test(block)) return listOf(`\n${block}`, 'ol', /\n\d+\. /);
  if (block.startsWith('![')) return picture(block, folder);
  const html = inline(block.replace(/\n/g, ' ')).trim();
  return html ? `<p>${html}</p>` : '';
}

export const markdown = (text, how) => text.trim().split(/\n\s*\n/).map((block) => blockHtml(block.replace(/^# .*\n?/, ''), how)).join('');
