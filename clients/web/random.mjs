// Random lines, the same in every run.
import { isCell } from './session.js';
import { placesIn } from './wire.js';

function numbers(seed) {
  let at = (seed * 2654435761) % 2147483646 + 1;
  return (n) => {
    at = (at * 48271) % 2147483647;
    return at % n;
  };
}

const PIECES = ['M E=', 'W E', '36CCA ', '36CCB ', 'X=', 'Y=', 'Z=', 'F=', '?', ' ', '    ', 'T 0 ', 'ffff', '0100', ' Q', ' F', 'L', '36SS Z', 'HOME E',
  'PM E=', '4', '14', '41', '192', '\t', 'ä', ':A', '\u0000', '36RDADC X?'];
const WHOLE = ['M E=1', '36CCA Y=14', '36CCB X=41 Y=192', '36CCA Z=2', 'T 0 0100 ffff Q', 'T 0 0000 ffff F', 'M E=35', '36CCA Z=1', '36SS Z', 'L', 'HOME E',
  'T 1 0000 ffff Q'];

// Put together from pieces, good and bad.
export function randomLines(seed, count) {
  const below = numbers(seed);
  const pieces = () => Array.from({ length: below(6) }, () => PIECES[below(PIECES.length)]).join('');
  return Array.from({ length: count }, () => (below(2) ? WHOLE[below(WHOLE.length)] : pieces()));
}

const hex = (n) => n.toString(16).padStart(4, '0');

// Lines that wire cells and connectors of every type, with ticks between them; some are refused.
export function randomWiring(seed, count, cells = 16) {
  const below = numbers(seed);
  const address = () => [below(cells + 1), 33 + below(16)][below(2)] + 64 * below(4);
  const place = () => [1 + below(cells), 33 + below(16)][below(4) === 0 ? 1 : 0];
  const slots = () => `36CCB ${['X', 'Y', 'Z', 'F'].slice(0, 1 + below(4)).map((s) => `${s}=${address()}`).join(' ')}`;
  const tick = () => `T ${below(12) ? 0 : below(5)} ${hex(below(65536))} ${below(3) ? 'ffff' : hex(below(65536))} ${below(3) ? 'Q' : 'F'}`;
  const read = () => ['W E', '36CCA Y?', '36CCA Z?', '36CCA F?', '36CCB X?', '36CCB F?', '36RDADC X?', '36RDADC Y?', '36RDADC Z?'][below(9)];
  const rare = () => ['36SS Z', 'L', 'HOME E', '! E', `PM E=${below(4) ? 0 : below(6)}`, `36CCA X=${below(62)}`, `36CCA F=${below(5)}`, ''][below(8)];
  const settings = [() => `M E=${place()}`, () => `36CCA Y=${below(24)}`, () => `36CCA Z=${below(2) ? below(8) : below(65536)}`, slots, slots];
  const KINDS = [...settings, tick, tick, tick, read, rare];
  return Array.from({ length: count }, () => KINDS[below(KINDS.length)]());
}

// A part as a form might want it: another type, a configuration, a slot, a source, or all as on a fresh card; in front of some tick, or behind all lines.
export function randomPart(seed, lines, { types, addresses }, partsAt) {
  const below = numbers(seed);
  const pick = (from) => from[below(from.length)];
  const ticks = lines.flatMap((line, i) => (line.startsWith('T ') ? [i] : []));
  const end = below(2) && ticks.length ? pick(ticks) : lines.length;
  const parts = partsAt(end);
  const place = pick(placesIn(parts));
  const now = parts[place];
  const slotsOf = (type) => Object.fromEntries(Object.entries(types[type].slots).map(([s, x]) => [s, x.initial]));
  const fresh = (type) => ({ type, configuration: types[type].configuration ? 0 : null, slots: slotsOf(type) });
  const address = () => Number(pick(Object.keys(addresses)));
  if (!isCell(place)) {
    const wanted = below(2) ? { ...now, type: below(3) } : { ...now, configuration: address() };
    return { place, end, wanted, initial: { type: wanted.type, configuration: 0, slots: {} } };
  }
  const { configuration, slots } = types[now.type];
  const kind = below(4);
  if (kind === 0) {
    const wanted = fresh(below(types.length));
    return { place, end, wanted, initial: below(2) ? fresh(wanted.type) : wanted.type ? fresh(wanted.type) : wanted };
  }
  if (kind === 1 && configuration) return { place, end, wanted: { ...now, configuration: below(Math.min(configuration.most, 500) + 1) }, initial: fresh(now.type) };
  const slot = pick(Object.keys(slots));
  if (!slot) return { place, end, wanted: { ...now, configuration: below(2) }, initial: fresh(0) };
  const found = address();
  return { place, end, wanted: { ...now, slots: { ...now.slots, [slot]: slots[slot].edge && found < 128 ? found + 128 : found } }, initial: fresh(now.type) };
}

// A trigger source, and a state of a cell that keeps one, as a form might want them.
export function randomSetting(seed, lines, { types }, readAt) {
  const below = numbers(seed);
  const ticks = lines.flatMap((line, i) => (line.startsWith('T ') ? [i] : []));
  const end = below(2) && ticks.length ? ticks[below(ticks.length)] : lines.length;
  const { parts } = readAt(end);
  const keepers = placesIn(parts).filter((p) => isCell(p) && types[parts[p].type].state);
  const place = keepers[below(Math.max(1, keepers.length))] ?? null;
  return { end, clock: below(5), place, value: place && below(Math.min(types[parts[place].type].state.most, 9) + 1) };
}
