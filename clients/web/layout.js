// Where the boxes and lines of the drawing go: inputs left, cells in columns by depth, outputs right. It places what the card reads behind the lines, for any
// number of cells, and decides nothing about the card.
//
// Columns go by the longest path, order and height within a column by the middle of the neighbours, and each source has one upright line between two columns.
// Where there are many columns they fold into bands, one below the other; an input that several bands read stands in each. What leads back, or into another
// band, goes along a lane below a band.

import { isCell } from './session.js';
import { FIXED_BASE, placesIn } from './wire.js';
import { catalogue, readsOf } from './form.js';

const BOX = 148;
const PILL = 78;
const BOX_HEAD = 40; // of a box, above its slots
const SLOT = 17;
export const PORT = 13; // half the height of a connector
const GAP = 18;
const TRACK = 9;
const MARGIN = 8;
const LANE = 11;
const SWEEPS = 9;
const CELL_WEIGHT = 4; // a cell gives way less than a connector or a line that passes
const WIDEST = 6; // columns of cells that stand in one band
const FOLDED = 5; // and at most so many where they fold

// ---- what there is to draw

export const baseOf = (address) => address % FIXED_BASE;

// Boxes, and who feeds whom. A connector that is read stands left, one that is driven right; one that is both stands twice.
function graphOf(parts) {
  const places = placesIn(parts);
  const read = new Set(places.flatMap((p) => readsOf(parts[p], p).map(baseOf)));
  const cells = places.filter((p) => isCell(p) && (parts[p].type !== 0 || parts[p].configuration || read.has(p))).map((p) => cellNode(p, parts[p]));
  const outputs = places.filter((p) => !isCell(p) && parts[p].type !== 0 && parts[p].configuration !== 0).map((p) => pillNode('out', p, parts[p].configuration));
  const edges = [...cells, ...outputs].flatMap((to) => to.ports.flatMap((port) => edgeTo(to, port, cells)));
  return { cells, outputs, edges };
}

// Slots that read nothing are left out, as the card has them when a type is new.
function cellNode(place, part) {
  const { slots } = catalogue().types[part.type];
  const shown = Object.entries(slots).filter(([s, { initial }]) => part.slots[s] !== initial);
  const ports = shown.map(([s, { name, edge }], i) => ({ name: name || s, address: part.slots[s], edge, y: BOX_HEAD + SLOT * i + 8 }));
  // the output is as high as the first slot that another part feeds, so that a chain is one straight line
  const main = ports.find(({ address }) => baseOf(address) && baseOf(address) !== place) ?? ports[0];
  return { key: `cell ${place}`, kind: 'cell', place, part, ports, w: BOX, h: BOX_HEAD + SLOT * shown.length + (shown.length ? 5 : -3), out: main?.y ?? PORT };
}

function pillNode(kind, place, address = null) {
  return { key: `${kind} ${place}`, kind, place, ports: address === null ? [] : [{ name: '', address, edge: false, y: PORT }], w: PILL, h: 2 * PORT, out: PORT };
}

// A cell sees cells with a lower number as they are, itself and higher ones as they were in the last tick. A connector that is read is found later, when it is
// known in which bands it is read.
function edgeTo(to, port, cells) {
  const base = baseOf(port.address);
  if (!base) return [];
  const from = isCell(base) ? cells.find((n) => n.place === base) : null;
  return isCell(base) && !from ? [] : [{ from, base, to, port, late: to.kind === 'cell' && isCell(base) && base >= to.place }];
}

// ---- columns and bands

// Edges to a later cell cannot go round. One that comes late leads to the right too, unless the way leads back to where it began.
function setDepths(cells, edges) {
  const between = edges.filter((e) => e.from && e.to.kind === 'cell');
  const kept = between.filter((e) => !e.late);
  const reaches = (a, b, seen = new Set()) => a === b || (!seen.has(a) && seen.add(a) && kept.some((e) => e.from === a && reaches(e.to, b, seen)));
  for (const e of between.filter((x) => x.late)) if (!reaches(e.to, e.from)) kept.push(e);
  const depth = (n) => (n.depth ??= Math.max(1, ...kept.filter((e) => e.to === n).map((e) => depth(e.from) + 1)));
  return Math.max(1, ...cells.map(depth));
}

// Cells that do not fit into one band stand in several, each from left to right; an output is in the band of its source.
function setColumns({ cells, outputs, edges }) {
  const deepest = setDepths(cells, edges);
  const bands = deepest > WIDEST ? Math.ceil(deepest / FOLDED) : 1;
  const across = Math.ceil(deepest / bands);
  for (const n of cells) Object.assign(n, { band: Math.floor((n.depth - 1) / across), column: (n.depth - 1) % across + 1 });
  for (const n of outputs) Object.assign(n, { band: edges.find((e) => e.to === n)?.from?.band ?? 0, column: across + 1 });
  const inputs = new Map();
  for (const e of edges.filter((x) => !x.from)) {
    const key = `in ${e.base} ${e.to.band}`;
    if (!inputs.has(key)) inputs.set(key, { ...pillNode('in', e.base), key, band: e.to.band, column: 0 });
    e.from = inputs.get(key);
  }
  for (const e of edges) e.back = e.from.band !== e.to.band || e.to.column <= e.from.column;
  const inOrder = [...inputs.values()].sort((a, b) => a.band - b.band || a.place - b.place);
  return { nodes: [...inOrder, ...cells, ...outputs], bands, last: across + 1 };
}

// What a source sends right goes through a place of its own in every column that it passes.
function netsOf(edges) {
  const nets = new Map();
  for (const e of edges.filter((x) => !x.back)) {
    const key = `${e.from.key} ${e.late}`;
    if (!nets.has(key)) nets.set(key, { from: e.from, late: e.late, edges: [], passes: [] });
    nets.get(key).edges.push(e);
  }
  for (const net of nets.values()) {
    const end = Math.max(...net.edges.map((e) => e.to.column));
    for (let c = net.from.column + 1; c < end; c += 1) net.passes.push({ kind: 'pass', column: c, band: net.from.band, w: 0, h: 0, out: 0, ports: [], net });
  }
  return [...nets.values()];
}

// ---- order and height

function neighboursOf(nets) {
  const links = [];
  for (const net of nets) {
    const at = (column) => (column === net.from.column ? net.from : net.passes.find((p) => p.column === column));
    for (const p of net.passes) links.push({ from: at(p.column - 1), to: p, y: 0 });
    for (const e of net.edges) links.push({ from: at(e.to.column - 1), to: e.to, y: e.port.y });
  }
  return links;
}

// The middle one, so that at least one line is straight.
const middle = (numbers) => numbers.toSorted((a, b) => a - b)[Math.floor((numbers.length - 1) / 2)];

// Heights nearest to the wanted ones that leave everybody room: where two would be too near, they move as one.
function settle(column) {
  let room = 0;
  const blocks = [];
  column.forEach((n, i) => {
    if (i) room += column[i - 1].h + (column[i - 1].below ?? 0) + (n.kind === 'cell' && column[i - 1].kind === 'cell' ? GAP : TRACK);
    n.room = room;
    const weight = n.kind === 'cell' ? CELL_WEIGHT : 1;
    blocks.push({ sum: weight * (n.want - room), size: weight, nodes: [n] });
    while (blocks.length > 1 && blocks.at(-2).sum / blocks.at(-2).size > blocks.at(-1).sum / blocks.at(-1).size) {
      const b = blocks.pop();
      const a = blocks.at(-1);
      Object.assign(a, { sum: a.sum + b.sum, size: a.size + b.size, nodes: [...a.nodes, ...b.nodes] });
    }
  });
  for (const b of blocks) for (const n of b.nodes) n.y = b.sum / b.size + n.room;
}

function setHeights(nodes, nets, last) {
  const all = [...nodes, ...nets.flatMap((net) => net.passes)];
  const columns = Array.from({ length: last + 1 }, (_, c) => all.filter((n) => n.column === c));
  const links = neighboursOf(nets);
  for (const column of columns) {
    column.forEach((n) => { n.want = 0; });
    settle(column);
  }
  for (let sweep = 0; sweep < SWEEPS; sweep += 1) {
    const right = sweep % 2 === 0;
    for (const column of right ? columns : columns.toReversed()) {
      for (const n of column) {
        const near = right ? links.filter((l) => l.to === n).map((l) => l.from.y + l.from.out - l.y) : links.filter((l) => l.from === n).map((l) => l.to.y + l.y - n.out);
        n.want = near.length ? middle(near) : n.y;
      }
      if (sweep < SWEEPS - 2) column.sort((a, b) => a.want - b.want);
      settle(column);
    }
  }
  for (const n of columns[0]) n.want = middle(links.filter((l) => l.from === n).map((l) => l.to.y + l.y - n.out)) ?? n.y;
  settle(columns[0]);
  const top = Math.min(...all.map((n) => n.y));
  for (const n of all) n.y = Math.round(n.y - top);
  return { all, columns, height: Math.max(...all.map((n) => n.y + n.h + (n.below ?? 0))) };
}

// Bands one below the other, with room for the lanes below each.
function stackBands(nodes, nets, edges, bands, last) {
  const columns = Array.from({ length: last + 1 }, () => []);
  const lanes = lanesOf(edges);
  let top = MARGIN;
  for (let b = 0; b < bands; b += 1) {
    const band = setHeights(nodes.filter((n) => n.band === b), nets.filter((net) => net.from.band === b), last);
    for (const n of band.all) n.y += top;
    band.columns.forEach((column, c) => columns[c].push(...column));
    top += band.height + 6;
    for (const lane of lanes.filter((l) => l.band === b)) lane.y = top += LANE;
    top += b + 1 < bands ? GAP : 0;
  }
  return { columns, lanes, floor: top };
}

// One lane for each source that leads back, below the upper of the two bands. To itself a cell goes just below itself.
function lanesOf(edges) {
  const lanes = [];
  for (const e of edges.filter((x) => x.back && x.from !== x.to)) {
    const band = Math.min(e.from.band, e.to.band);
    e.lane = lanes.find((l) => l.from === e.from && l.band === band && l.late === e.late);
    if (!e.lane) lanes.push(e.lane = { from: e.from, band, late: e.late });
  }
  return lanes;
}


// ---- tracks

// Between two columns each source has one upright line: where it comes in, and where it goes out.
function channelsOf(nets, edges, columns) {
  const channels = columns.map(() => []);
  for (const net of nets) {
    const at = (column) => (column === net.from.column ? net.from : net.passes.find((p) => p.column === column));
    for (let c = net.from.column; at(c); c += 1) {
      const pass = at(c + 1);
      const ends = [...net.edges.filter((e) => e.to.column === c + 1).map((e) => e.to.y + e.port.y), ...(pass ? [pass.y] : [])];
      channels[c].push({ source: net.from, late: net.late, start: at(c).y + at(c).out, ends, from: at(c), pass });
    }
  }
  addReturns(channels, edges.filter((e) => e.back));
  return channels;
}

// What leads back goes up or down behind its source to its lane, along the lane, and up or down in front of its reader.
function addReturns(channels, back) {
  for (const e of back) {
    const { from, to } = e;
    const lane = e.lane ?? (from.loop ??= { y: from.y + from.h + 8 });
    if (!channels[from.column].some((t) => t.lane === lane)) {
      channels[from.column].push({ source: from, late: e.late, start: from.y + from.out, ends: [], down: lane.y, from, lane });
    }
    const up = channels[to.column - 1].find((t) => t.up === lane);
    if (up) up.ends.push(to.y + e.port.y);
    else channels[to.column - 1].push({ source: from, late: e.late, start: lane.y, ends: [to.y + e.port.y], up: lane });
  }
}

export const spanOf = (t) => [Math.min(t.start, t.down ?? t.start, ...t.ends), Math.max(t.start, t.down ?? t.start, ...t.ends)];
export const within = (y, [low, high]) => y > low && y < high;

// How much it costs to have track `a` left of track `b`: crossings, and lines that would lie on each other.
function costOf(a, b) {
  const starts = b.up ? [] : [b.start];
  const crossed = a.ends.filter((y) => within(y, spanOf(b))).length + starts.filter((y) => within(y, spanOf(a))).length;
  return crossed + 10 * a.ends.filter((y) => starts.some((s) => Math.abs(s - y) < 3)).length;
}

function orderTracks(tracks) {
  for (let round = 0; round < tracks.length; round += 1) {
    for (let i = 0; i + 1 < tracks.length; i += 1) {
      const [a, b] = [tracks[i], tracks[i + 1]];
      if (costOf(b, a) < costOf(a, b)) tracks.splice(i, 2, b, a);
    }
  }
}

// Tracks that pass each other at no height share a place. How many places there are.
function placeTracks(tracks) {
  orderTracks(tracks);
  tracks.forEach((t, i) => {
    const [low, high] = spanOf(t);
    const beside = tracks.slice(0, i).filter((o) => spanOf(o)[0] <= high + TRACK && spanOf(o)[1] >= low - TRACK);
    t.slot = Math.max(0, ...beside.map((o) => o.slot + 1));
  });
  return Math.max(0, ...tracks.map((t) => t.slot + 1));
}

// ---- the places of all

export function layoutOf(parts) {
  const { cells, outputs, edges } = graphOf(parts);
  if (!cells.length && !outputs.length) return null;
  const { nodes, bands, last } = setColumns({ cells, outputs, edges });
  const nets = netsOf(edges);
  for (const e of edges) if (e.from === e.to) e.from.below = LANE;
  const { columns, floor } = stackBands(nodes, nets, edges, bands, last);
  const channels = channelsOf(nets, edges, columns);
  let x = MARGIN;
  columns.forEach((column, c) => {
    const w = Math.max(0, ...column.map((n) => n.w));
    for (const n of column) n.x = n.kind === 'in' ? x + w - n.w : x;
    x += w + 8;
    const slots = placeTracks(channels[c]);
    for (const t of channels[c]) t.x = x + TRACK * (t.slot + 1);
    x += TRACK * (slots + 1) + (c === last ? 0 : 14);
  });
  return { nodes, edges, columns, channels, bands, width: x, height: floor + MARGIN + 4 };
}
