// node test.mjs, where the package is installed: every call, with answers that the rules give or another page has.
import assert from "node:assert/strict";
import { readFile } from "node:fs/promises";
import test from "node:test";
import { board, job, load, Refused } from "tipshare";

const tipshare = await load();
const EXAMPLE = { rack: 3, lines: [[0], [1, 2]] };
const BYTES = Uint8Array.from(Buffer.from("544950000103000200000000000000010000000000000006", "hex"));

function refused(number, place, call) {
  let found;
  assert.throws(call, (error) => (found = error) instanceof Refused && error.number === number && error.place === place);
  assert.equal(found.words, tipshare.words(number));
  return found;
}

test("job files", () => {
  assert.deepEqual(job(3, [[0], [1, 2]]), BYTES);
  assert.equal(job(3, [{ tips: [0], quantity: 5 }])[4], 2);
  const counted = { rack: 64, lines: [{ tips: [0, 63], quantity: 5 }, { tips: [31, 32], quantity: 1 }] };
  assert.deepEqual(board(job(counted.rack, counted.lines)), counted);
  for (const wrong of [[[64]], [[-1]], [[0.5]], [["0"]], [{ tips: [0], quantity: 256 }], [{ tips: [0], quantity: -1 }]]) {
    assert.throws(() => job(3, wrong), RangeError);
  }
});

test("the example", () => {
  for (const file of [EXAMPLE, BYTES, [...BYTES]]) {
    assert.deepEqual(tipshare.read(file), { rack: 3, count: 2 });
    assert.deepEqual(tipshare.common(file), { top: 1, off: 1, tips: [0, 1, 2] });
    assert.deepEqual(tipshare.quick(file), { tips: [0, 1], pairs: 0 });
    assert.deepEqual(tipshare.quick(file, 2), { tips: [0, 2], pairs: 0 });
    assert.deepEqual(tipshare.best(file), { tips: [0, 1], pairs: 0, table: Array(9).fill(0) });
    assert.deepEqual(tipshare.best(file, 2).tips, [0, 2]);
    assert.deepEqual(tipshare.junior(file), { tips: [0, 1], pairs: 0, carried: [0, 1] });
    assert.deepEqual(tipshare.keep(file, 1), { file: BYTES, margin: 0 });
    assert.deepEqual(tipshare.goal(file, 0), BYTES);
    assert.deepEqual(tipshare.mend(file), { file: BYTES, changes: [] });
  }
  assert.equal(
    tipshare.report(BYTES),
    "lines 2 rack 3\noff 1 tips 0 1 2\nquick 0\nbest 0\nline 0 quick 0 best 0\nline 1 quick 1 best 1\n",
  );
});

test("refusals", () => {
  refused(6, 0, () => tipshare.read([]));
  refused(10, 0, () => tipshare.read(BYTES.slice(0, -1)));
  const empty = refused(2, 1, () => tipshare.read({ rack: 3, lines: [[0], []] }));
  assert.equal(empty.message, "refused 2: a line has no tip, line 1");
  assert.equal(refused(26, 0, () => tipshare.keep(EXAMPLE, 0)).margin, -1);
  refused(16, 0, () => tipshare.quick(EXAMPLE, 3));
  refused(16, 0, () => tipshare.quick(EXAMPLE, 2 ** 32));
  refused(34, 0, () => tipshare.goal(EXAMPLE, 1));
  refused(17, 0, () => tipshare.merge(EXAMPLE, { rack: 4, lines: [[0]] }));
  refused(12, 1, () => tipshare.order([[0, 1], [1, 2]]));
  refused(13, 0, () => tipshare.order([[0, 1], [0, 1]], [[1, 1]]));
  assert.equal(refused(9, 0, () => tipshare.read({ rack: 1, lines: Array(513).fill([0]) })).message.slice(0, 9), "refused 9");
  assert.equal(tipshare.words(18), "unknown number");
  for (const wrong of [-1, 65536, 0.5, "1", 1n]) assert.throws(() => tipshare.keep(EXAMPLE, wrong), RangeError);
});

test("a plan that is checked", () => {
  const lines = [[[0], 2], [[0, 1], 3], [[1, 2], 3], [[2], 2]].map(([tips, quantity]) => ({ tips, quantity }));
  const counted = { rack: 3, lines };
  const { tips, pairs, table } = tipshare.best(counted);
  assert.deepEqual([tips, pairs], [[0, 0, 2, 2], 20]);
  tipshare.check(counted, tips, pairs, table);
  refused(19, 0, () => tipshare.check(counted, [0, 0, 0, 2], pairs, table));
  refused(20, 0, () => tipshare.check(counted, tips, pairs - 1, table));
  refused(33, 0, () => tipshare.check(counted, tips, pairs, Array(9).fill(0)));
  refused(25, 0, () => tipshare.best({ rack: 3, lines: [[0, 2], [1]] }));
});

test("plans along the list", () => {
  const list = { rack: 4, lines: [[0, 1], [1, 2], { tips: [2, 3], quantity: 2 }] };
  assert.deepEqual(tipshare.along(list), { tips: [1, 1, 2], changes: 1, pairs: 2 });
  assert.deepEqual(tipshare.along(list, 0), { tips: [0, 2, 2], changes: 1, pairs: 3 });
  assert.deepEqual(tipshare.along(list, 3), { tips: [1, 1, 2], changes: 2, pairs: 2 });
  assert.deepEqual(tipshare.along({ rack: 4, lines: [] }), { tips: [], changes: 0, pairs: 0 });
  refused(16, 0, () => tipshare.along(list, 4));
});

test("exact sharing", () => {
  // Tips 0, 1 and 2 with 10 pairs, or tips 1 and 2 with 9.
  const lines = [{ tips: [0, 1], quantity: 3 }, { tips: [0, 2], quantity: 2 }, [1], [2]];
  const list = { rack: 3, lines };
  assert.deepEqual(tipshare.exact(list), { tips: [0, 0, 1, 2], pairs: 10, used: 3 });
  assert.deepEqual(tipshare.exact(list, 1, 2), { tips: [1, 2, 1, 2], pairs: 9, used: 2 });
  assert.deepEqual(tipshare.exact(list, 2 ** 32 - 1), { tips: [1, 2, 1, 2], pairs: 9, used: 2 });
  assert.deepEqual(tipshare.exact({ rack: 64, lines: [] }), { tips: [], pairs: 0, used: 0 });
  refused(16, 0, () => tipshare.exact(list, 0, 3));
  refused(35, 0, () => tipshare.exact({ rack: 64, lines: [Array.from({ length: 21 }, (_, tip) => tip)] }));
  for (const wrong of [-1, 2 ** 32, 0.5]) assert.throws(() => tipshare.exact(list, wrong), RangeError);
});

test("two boards, a damaged file, an order", () => {
  const other = { rack: 3, lines: [{ tips: [2], quantity: 2 }] };
  assert.deepEqual(tipshare.merge(EXAMPLE, other), job(3, [[0], [1, 2], { tips: [2], quantity: 2 }]));
  assert.deepEqual(tipshare.alone(EXAMPLE, other), [{ tips: [0, 1], pairs: 0 }, { tips: [2], pairs: 1 }]);
  const mended = { file: job(3, [[0]]), changes: [{ line: 65535, what: 5 }, { line: 65535, what: 6 }] };
  assert.deepEqual(tipshare.mend(BYTES.slice(0, 20)), mended);
  assert.deepEqual(tipshare.order([]), []);
  const parts = [[0, 3, false, true], [0, 3], [0, 3, true], [0, 3]];
  assert.deepEqual(tipshare.order(parts, [[3, 1]]), [2, 3, 1, 0]);
});

test("the positions that parts can have", () => {
  assert.deepEqual(tipshare.windows([]), []);
  const parts = [[0, 3, false, true], [0, 3], [0, 3, true], [0, 3]];
  assert.deepEqual(tipshare.windows(parts), [[3, 3], [1, 2], [0, 0], [1, 2]]);
  assert.deepEqual(tipshare.windows(parts, [[3, 1]]), [[3, 3], [2, 2], [0, 0], [1, 1]]);
  refused(12, 1, () => tipshare.windows([[0, 1], [1, 2]]));
  refused(29, 0, () => tipshare.windows([[0, 1], [0, 1]], [[0, 1], [1, 0]]));
});

test("orders by tips", () => {
  const parts = [[0, 2], [0, 2], [0, 2]];
  assert.deepEqual(tipshare.orderByTips([], []), { order: [], changes: 0 });
  assert.deepEqual(tipshare.orderByTips(parts, [5, 7, 5]), { order: [0, 2, 1], changes: 1 });
  assert.deepEqual(tipshare.orderByTips(parts, [5, 7, 5], [], 7), { order: [1, 0, 2], changes: 1 });
  assert.deepEqual(tipshare.orderByTips(parts, [5, 7, 5], [[1, 0]], 5), { order: [2, 1, 0], changes: 2 });
  refused(4, 0, () => tipshare.orderByTips(parts, [5, 7]));
  refused(3, 1, () => tipshare.orderByTips(parts, [5, 64, 5]));
  refused(16, 0, () => tipshare.orderByTips(parts, [5, 7, 5], [], 64));
  assert.throws(() => tipshare.orderByTips(parts, [5, 256, 5]), RangeError);
});

test("the largest board, many times: no call leaves anything behind", () => {
  const largest = { rack: 64, lines: Array.from({ length: 512 }, (_, line) => [line % 64]) };
  const first = tipshare.best(largest);
  // Eight lines of one placement on each of 64 tips.
  assert.equal(first.pairs, (64 * (8 * 7)) / 2);
  for (let time = 0; time < 50; time++) assert.deepEqual(tipshare.best(largest), first);
});

test("another source of the module", async () => {
  const bytes = await readFile(new URL(import.meta.resolve("tipshare/tipshare.wasm")));
  for (const source of [bytes, await WebAssembly.compile(bytes)]) {
    assert.equal((await load(source)).version, tipshare.version);
  }
});
