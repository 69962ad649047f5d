// Covered ticks: what was predicted of the first of them, and how predictions are counted. They are compared with the levels and the woken set that
// plrun gave; nothing is worked out here.

// All lines from `from` on are covered. An exercise is covered by a link, and its lines stay as they are.
export const coverFrom = (from, exercise) => ({ from, first: from, exercise, high: null, wakes: null });

// Levels start as they were in the tick before, so that only those that will change have to be marked. Nobody is marked as waking.
export function unmarked(cover, rows, before) {
  return { ...cover, high: Object.fromEntries(rows.map((r) => [r.name, Boolean(before && r.level(before))])), wakes: {} };
}

export function withMark(cover, kind, name) {
  return { ...cover, [kind]: { ...cover[kind], [name]: !cover[kind][name] } };
}

// One mark for the level of each row, and one for the waking of each cell.
export function judged(cover, rows, tick) {
  const marks = rows.flatMap((row) => [
    { name: row.name, kind: 'high', guess: Boolean(cover.high[row.name]), found: row.level(tick) },
    ...(row.woken ? [{ name: row.name, kind: 'wakes', guess: Boolean(cover.wakes[row.name]), found: row.woken(tick) }] : []),
  ]);
  return { number: tick.number, asked: marks.length, missed: marks.filter((m) => m.guess !== m.found) };
}

const FOUND = { high: ['is low', 'is high'], wakes: ['does not wake', 'wakes'] };

export const foundWords = ({ name, kind, found }) => `${name} ${FOUND[kind][Number(found)]}`;

export function totals(score) {
  const sum = (f) => score.reduce((n, t) => n + f(t), 0);
  const asked = sum((t) => t.asked);
  return { ticks: score.length, perfect: sum((t) => Number(t.missed.length === 0)), asked, right: asked - sum((t) => t.missed.length) };
}
