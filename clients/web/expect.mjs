// Counts what is as expected, and says what is not.

export const tally = { passed: 0, failed: 0 };

export function expect(what, found, wanted) {
  const [a, b] = [JSON.stringify(found), JSON.stringify(wanted)];
  if (a === b) {
    tally.passed += 1;
    return;
  }
  tally.failed += 1;
  console.error(`FAILED  ${what}\n  found  ${a?.slice(0, 600)}\n  wanted ${b?.slice(0, 600)}`);
}
