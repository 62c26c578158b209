// Compiled and not run: the types take what the calls take, and refuse what they do not.
import { load, job, board, Refused, type Board, type Calls, type Part } from "tipshare";

const tipshare: Calls = await load();
const example: Board = { rack: 6, lines: [[0, 1], [1, 2, 3], { tips: [3, 4], quantity: 2 }] };
const { tips, table, pairs } = tipshare.best(job(example.rack, example.lines), null);
tipshare.check(example, tips, pairs, table);
const changes: number = tipshare.along(example, 3).changes;
const used: number = tipshare.exact(example, 3).used;
const parts: Part[] = [[0, 3, false, true], [0, 3], [0, 3, true], [0, 3]];
const order: number[] = tipshare.order(parts, [[3, 1]]);
const windows: [first: number, last: number][] = tipshare.windows(parts, [[3, 1]]);
const byTips: number = tipshare.orderByTips(parts, [0, 1, 0, 1], [[3, 1]]).changes;
const quantities: number[] = board(tipshare.keep(example, 3).file).lines.map(({ quantity }) => quantity);
try {
  tipshare.quick(example, 9);
} catch (error) {
  if (!(error instanceof Refused)) throw error;
  const told: [number, number, string, number] = [error.number, error.place, error.words, error.margin];
  console.log(told, order, windows, byTips, quantities, changes, used);
}
// @ts-expect-error a tip is a number
tipshare.quick({ rack: 1, lines: [["0"]] });
// @ts-expect-error k is missing
tipshare.keep(example);
// @ts-expect-error a plan has no margin
tipshare.quick(example).margin;
