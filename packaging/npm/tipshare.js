// The proved library in JavaScript: calls on plain arrays, in a browser, a worker or node. README.md has an example.
// The module tipshare.wasm is the proved one; this file, which only copies in and out, is not proved.

const MOST_TIPS = 64;
const MOST_LINES = 512;
const LONGEST_FILE = 4616;
const LONGEST_CHANGES = 3081;
const REPORT_SPACE = 16384;
const ANSWER_PLACES = 4;
const MOST_PARTS = 128;
const EXACT_TIPS = 20;
const MOST = 2 ** 32 - 1;
const NO_TIP = 2n ** 64n - 1n;
const PAGE = 65536;

/** A call was refused: the number, the line, part or rule that it is about, and for 26 the margin. */
export class Refused extends Error {
  constructor(number, words, place, margin) {
    const line = [2, 3, 15, 25].includes(number) || (number === 30 && place > 0);
    const at = line ? `, line ${place}` : number === 12 ? `, part ${place}` : number === 13 ? `, rule ${place}` : "";
    super(`refused ${number}: ${words}${number === 26 ? `, margin ${margin}` : at}`);
    this.name = "Refused";
    Object.assign(this, { number, words, place, margin });
  }
}

function inRange(what, value, most) {
  if (!Number.isInteger(value) || value < 0 || value > most) {
    throw new RangeError(`${what} is ${value}, and may be 0 to ${most}`);
  }
  return value;
}

/** A job file. A line is an array of its tips, or an object with its tips and its quantity. */
export function job(rack, lines) {
  const pairs = lines.map((line) => (Array.isArray(line) ? { tips: line, quantity: 1 } : line));
  const isCounted = pairs.some(({ quantity }) => quantity !== 1);
  inRange("the number of lines", pairs.length, 65535);
  const step = isCounted ? 9 : 8;
  const file = new Uint8Array(8 + step * pairs.length);
  const view = new DataView(file.buffer);
  file.set([0x54, 0x49, 0x50, 0, isCounted ? 2 : 1, inRange("the rack size", rack, 255)]);
  view.setUint16(6, pairs.length);
  pairs.forEach(({ tips, quantity }, line) => {
    const set = [...tips].reduce((set, tip) => set | (1n << BigInt(inRange(`a tip of line ${line}`, tip, MOST_TIPS - 1))), 0n);
    view.setBigUint64(8 + step * line, set);
    if (isCounted) file[16 + step * line] = inRange(`the quantity of line ${line}`, quantity, 255);
  });
  return file;
}

const tipsOf = (set) => Array.from({ length: MOST_TIPS }, (_, tip) => tip).filter((tip) => (set >> BigInt(tip)) & 1n);

/** The rack size and the lines of a job file that the library has accepted or written. */
export function board(file) {
  const bytes = Uint8Array.from(file);
  const view = new DataView(bytes.buffer);
  const step = bytes[4] === 2 ? 9 : 8;
  const lines = Array.from({ length: view.getUint16(6) }, (_, line) => {
    const at = 8 + step * line;
    return { tips: tipsOf(view.getBigUint64(at)), quantity: step === 9 ? bytes[at + 8] : 1 };
  });
  return { rack: bytes[5], lines };
}

/** The bytes of a job file: as they are, or of a board. */
function bytesOf(file) {
  if (file instanceof Uint8Array) return file;
  if (Array.isArray(file)) return Uint8Array.from(file, (byte) => inRange("a byte of the file", byte, 255));
  return job(file.rack, file.lines);
}

/** The module's bytes, from beside this file. */
async function ownModule() {
  const url = new URL("tipshare.wasm", import.meta.url);
  if (url.protocol === "file:" && typeof process !== "undefined") {
    const { readFile } = await import("node:fs/promises");
    return readFile(url);
  }
  return (await fetch(url)).arrayBuffer();
}

/** The calls, once the module is there: that beside this file, or the bytes or the WebAssembly.Module that is handed over. */
export async function load(source) {
  const module = source instanceof WebAssembly.Module ? source : await WebAssembly.compile(source ?? (await ownModule()));
  return new Calls((await WebAssembly.instantiate(module, {})).exports);
}

class Calls {
  #of;

  constructor(exported) {
    this.#of = exported;
    this.version = this.#text(exported.tipshare_version());
  }

  /** A text of the module that ends in a zero byte. */
  #text(address) {
    const bytes = new Uint8Array(this.#of.memory.buffer, address);
    return new TextDecoder().decode(bytes.slice(0, bytes.indexOf(0)));
  }

  /** A refusal's number in words. */
  words(number) {
    return this.#text(this.#of.tipshare_words(number));
  }

  /**
   * A call: its arguments are numbers, and arrays of one type to be read or written, whose contents afterwards are the result.
   * They lie one behind the other in the module's memory, from where the module's own ends.
   */
  #call(name, ...given) {
    let end = (this.#of.__heap_base.value + 15) & ~15;
    const lent = given.map((array) => {
      if (!ArrayBuffer.isView(array)) return null;
      const address = end;
      end = (end + array.byteLength + 15) & ~15;
      return address;
    });
    const lacking = end - this.#of.memory.buffer.byteLength;
    if (lacking > 0) this.#of.memory.grow(Math.ceil(lacking / PAGE));
    const { buffer } = this.#of.memory;
    const inside = given.map((array, at) => lent[at] !== null && new array.constructor(buffer, lent[at], array.length));
    given.forEach((array, at) => inside[at] && inside[at].set(array));
    const words = given.flatMap((value, at) => (inside[at] ? [lent[at], BigInt(value.length)] : [value]));
    const returned = this.#of[`tipshare_${name}`](...words);
    return { returned, arrays: inside.filter((array) => array).map((array) => array.slice()) };
  }

  /** A call with an answer: the arrays and the answer, or Refused. */
  #answered(name, ...given) {
    const { returned, arrays } = this.#call(name, ...given, new BigUint64Array(ANSWER_PLACES));
    const answer = arrays.pop();
    if (returned !== 0) {
      const margin = Number(BigInt.asIntN(64, answer[1]));
      throw new Refused(returned, this.words(returned), Number(answer[0]), margin);
    }
    return { arrays, answer };
  }

  #mounted(tip) {
    // The number that stands for no tip in C is no tip here.
    return tip === undefined || tip === null ? NO_TIP : BigInt(inRange("the mounted tip", tip, Number.MAX_SAFE_INTEGER));
  }

  /** The rack size and the number of lines. */
  read(file) {
    const { answer } = this.#answered("read", bytesOf(file));
    return { rack: Number(answer[1]), count: Number(answer[2]) };
  }

  /** The most placements that one tip can take, the least number off it, and the tips that can take that many. */
  common(file) {
    const { answer } = this.#answered("common", bytesOf(file));
    return { top: Number(answer[1]), off: Number(answer[2]), tips: tipsOf(answer[3]) };
  }

  /** The job file without the tips that no plan within k placements uses, and the margin. */
  keep(file, k) {
    const out = new Uint8Array(LONGEST_FILE);
    const { arrays, answer } = this.#answered("keep", bytesOf(file), inRange("k", k, 65535), out);
    return { file: arrays[1].slice(0, Number(answer[2])), margin: Number(BigInt.asIntN(64, answer[1])) };
  }

  /** The job file without the tips that no plan with this many pairs uses. */
  goal(file, pairs) {
    const out = new Uint8Array(LONGEST_FILE);
    const { arrays, answer } = this.#answered("goal", bytesOf(file), inRange("the goal", pairs, MOST), out);
    return arrays[1].slice(0, Number(answer[1]));
  }

  /** The tip of each line in the quick plan, and its pairs. */
  quick(file, mounted) {
    const { count } = this.read(file);
    const { arrays, answer } = this.#answered("quick", bytesOf(file), this.#mounted(mounted), new Uint8Array(MOST_LINES));
    return { tips: [...arrays[1].slice(0, count)], pairs: Number(answer[1]) };
  }

  /** The tip of each line in the best plan, its pairs, and the table that shows that no plan has more. */
  best(file, mounted) {
    const { rack, count } = this.read(file);
    const lent = [new Uint8Array(MOST_LINES), new Uint32Array(rack * rack)];
    const { arrays, answer } = this.#answered("best", bytesOf(file), this.#mounted(mounted), ...lent);
    return { tips: [...arrays[1].slice(0, count)], pairs: Number(answer[1]), table: [...arrays[2]] };
  }

  /** The tip of each line in the plan with the fewest tip changes along the list, its changes, and its pairs. */
  along(file, mounted) {
    const { count } = this.read(file);
    const { arrays, answer } = this.#answered("along", bytesOf(file), this.#mounted(mounted), new Uint8Array(MOST_LINES));
    return { tips: [...arrays[1].slice(0, count)], changes: Number(answer[1]), pairs: Number(answer[2]) };
  }

  /**
   * The tip of each line in the plan with the most pairs less the price of each tip that it uses, its pairs, and its number of
   * tips; for lines that name 20 tips at most.
   */
  exact(file, price = 0, mounted = null) {
    const bytes = bytesOf(file);
    const { count } = this.read(bytes);
    const named = new Set(board(bytes).lines.flatMap(({ tips }) => tips)).size;
    // With more tips than these the call is refused, whatever the table.
    const lent = [new Uint8Array(MOST_LINES), new Uint32Array(2 * 2 ** Math.min(named, EXACT_TIPS))];
    const { arrays, answer } = this.#answered("exact", bytes, this.#mounted(mounted), inRange("the price", price, MOST), ...lent);
    return { tips: [...arrays[1].slice(0, count)], pairs: Number(answer[1]), used: Number(answer[2]) };
  }

  /** Checks a plan from other software, its pairs and its table: if nothing is thrown, it is a best plan. */
  check(file, tips, claim, table) {
    const plan = Uint8Array.from(tips, (tip) => inRange("a tip of the plan", tip, 255));
    const numbers = Uint32Array.from(table, (entry) => inRange("an entry of the table", entry, MOST));
    this.#answered("check", bytesOf(file), plan, inRange("the claim", claim, MOST), numbers);
  }

  /** The tip of each line in the plan for the Junior, its pairs, and its two tips. */
  junior(file) {
    const { count } = this.read(file);
    const { arrays, answer } = this.#answered("junior", bytesOf(file), new Uint8Array(MOST_LINES));
    return { tips: [...arrays[1].slice(0, count)], pairs: Number(answer[1]), carried: [Number(answer[2]), Number(answer[3])] };
  }

  /** The job file of two boards on one panel. */
  merge(first, second) {
    const { arrays, answer } = this.#answered("merge", bytesOf(first), bytesOf(second), new Uint8Array(LONGEST_FILE));
    return arrays[2].slice(0, Number(answer[1]));
  }

  /** Two boards, each planned alone. */
  alone(first, second) {
    const { arrays, answer } = this.#answered("alone", bytesOf(first), bytesOf(second), new Uint8Array(2 * MOST_LINES));
    const [count, others] = [this.read(first).count, this.read(second).count];
    return [
      { tips: [...arrays[2].slice(0, count)], pairs: Number(answer[1]) },
      { tips: [...arrays[2].slice(count, count + others)], pairs: Number(answer[2]) },
    ];
  }

  /** A good job file made of one that came back damaged, and its changes. */
  mend(file) {
    const lent = [new Uint8Array(LONGEST_FILE), new Uint8Array(LONGEST_CHANGES)];
    const { arrays, answer } = this.#answered("mend", bytesOf(file), ...lent);
    const told = arrays[2].slice(0, Number(answer[2]));
    const changes = Array.from({ length: told.length / 3 }, (_, change) => {
      const [high, low, what] = told.slice(3 * change);
      return { line: high * 256 + low, what };
    });
    return { file: arrays[1].slice(0, Number(answer[1])), changes };
  }

  /** Parts and rules as the header has them. */
  #placing(parts, rules) {
    const flat = parts.flatMap(([first, last, fine = false, tall = false]) => [first, last, Number(fine), Number(tall)]);
    const numbers = Uint32Array.from(flat, (value) => inRange("a number of a part", value, MOST));
    const pairs = Uint32Array.from(
      rules.flatMap(([earlier, later]) => [earlier, later]),
      (value) => inRange("a part of a rule", value, MOST),
    );
    return [numbers, pairs];
  }

  /** The order in which parts are placed: of each its first and last position, and whether it is fine, and tall. */
  order(parts, rules = []) {
    const { arrays, answer } = this.#answered("order", ...this.#placing(parts, rules), new Uint8Array(MOST_PARTS));
    return [...arrays[2].slice(0, Number(answer[1]))];
  }

  /** For each part the first and the last position that it has in any order that obeys. */
  windows(parts, rules = []) {
    const lent = [new Uint8Array(MOST_PARTS), new Uint8Array(MOST_PARTS)];
    const { arrays, answer } = this.#answered("windows", ...this.#placing(parts, rules), ...lent);
    return Array.from({ length: Number(answer[1]) }, (_, part) => [arrays[2][part], arrays[3][part]]);
  }

  /** The order in which parts are placed, on one tip as long as it can be, given the tip of each part; and its tip changes. */
  orderByTips(parts, tips, rules = [], mounted = null) {
    const plan = Uint8Array.from(tips, (tip) => inRange("a tip of the plan", tip, 255));
    const lent = [...this.#placing(parts, rules), plan, this.#mounted(mounted), new Uint8Array(MOST_PARTS)];
    const { arrays, answer } = this.#answered("order_by_tips", ...lent);
    return { order: [...arrays[3].slice(0, Number(answer[1]))], changes: Number(answer[2]) };
  }

  /** The text that the program tipshare prints for a job file. */
  report(file) {
    const { returned, arrays } = this.#call("report", bytesOf(file), new Uint8Array(REPORT_SPACE));
    return new TextDecoder().decode(arrays[1].slice(0, Number(returned)));
  }
}
