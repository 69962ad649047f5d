// Names that plexplain's sentences have and its rows have not: of a type, of a slot, of a configuration. Nothing else in the page takes a sentence apart, so
// that these three go when the rows have them.

// "The pointer is at cell 1 (one-shot)."
export const typeNameIn = (text) => text.match(/\((.*)\)/)[1];

// "cell 1 (one-shot): X (trigger) reads 128, always low."
export const slotNameIn = (text) => text.match(/: \w \(([^)]*)\)/)?.[1] ?? '';

// "cell 1 (one-shot): duration 2."
export const configurationNameIn = (text) => text.match(/: (\w+) \d/)?.[1] ?? '';
