// Makes recorded calls again in a WebAssembly module, and compares every byte (compare/src/record.rs has the form of the file).
// node targets/replay.mjs MODULE FILE: exit status 0, no difference; 1, a call gave something else, or the file is not whole;
// 2, wrong arguments.
import { openSync, readFileSync, readSync } from "node:fs";

// Of each function the parameters: a buffer with its length, the first number, as a Number or a BigInt, or the price.
const FUNCTIONS = [
  ["read", "buffer buffer"],
  ["common", "buffer buffer"],
  ["keep", "buffer number buffer buffer"],
  ["goal", "buffer number buffer buffer"],
  ["quick", "buffer big buffer buffer"],
  ["best", "buffer big buffer buffer buffer"],
  ["along", "buffer big buffer buffer"],
  ["exact", "buffer big price buffer buffer buffer"],
  ["check", "buffer buffer number buffer buffer"],
  ["junior", "buffer buffer buffer"],
  ["merge", "buffer buffer buffer buffer"],
  ["alone", "buffer buffer buffer buffer"],
  ["mend", "buffer buffer buffer buffer"],
  ["report", "buffer buffer"],
  ["order", "buffer buffer buffer buffer"],
  ["windows", "buffer buffer buffer buffer buffer"],
  ["order_by_tips", "buffer buffer buffer big buffer buffer"],
].map(([name, parameters]) => ({ name, parameters: parameters.split(" "), calls: 0 }));
const END = 255;

if (process.argv.length !== 4) {
  console.error("usage: node targets/replay.mjs MODULE FILE");
  process.exit(2);
}
const [module, file] = process.argv.slice(2);
const { instance } = await WebAssembly.instantiate(readFileSync(module), {});
const { memory, __heap_base, ...exported } = instance.exports;

function fail(what) {
  console.error(`replay: ${what}`);
  process.exit(1);
}

// The record is read in blocks, for it may be larger than what node reads at once.
const descriptor = openSync(file);
let block = Buffer.alloc(0);
let at = 0;
function take(size) {
  while (block.length - at < size) {
    const more = Buffer.alloc(Math.max(size, 1 << 20));
    const count = readSync(descriptor, more, 0, more.length, null);
    if (count === 0) fail("the record is not whole");
    block = Buffer.concat([block.subarray(at), more.subarray(0, count)]);
    at = 0;
  }
  at += size;
  return block.subarray(at - size, at);
}
const byte = () => take(1)[0];
const number = () => take(4).readUInt32LE();
const big = () => take(8).readBigUInt64LE();

function takeBuffer() {
  const width = byte();
  const [cells, start, length] = [number(), number(), number()];
  const bytes = Buffer.from(take(cells * width));
  const expected = Buffer.from(bytes);
  for (let left = number(); left > 0; left--) {
    const first = number();
    const changed = take(number());
    if (first + changed.length > expected.length) fail("the record has a change outside its buffer");
    changed.copy(expected, first);
  }
  return { width, start, length, bytes, expected };
}

// Lays the buffers into the module's memory, one behind the other, and makes the call: whether all is as expected.
function isMet({ name, parameters }, which) {
  const [argument, price, expected] = [big(), big(), big()];
  const buffers = parameters.filter((what) => what === "buffer").map(takeBuffer);
  let end = (__heap_base.value + 15) & ~15;
  for (const buffer of buffers) {
    buffer.address = end;
    end = (end + buffer.bytes.length + 15) & ~15;
  }
  const lacking = end - memory.buffer.byteLength;
  if (lacking > 0) memory.grow(Math.ceil(lacking / 65536));
  for (const { address, bytes } of buffers) new Uint8Array(memory.buffer, address, bytes.length).set(bytes);
  const lent = buffers.values();
  const words = parameters.flatMap((what) => {
    if (what === "number") return [Number(argument)];
    if (what === "big") return [argument];
    if (what === "price") return [Number(price)];
    const { address, width, start, length } = lent.next().value;
    return [address + start * width, BigInt(length)];
  });
  const returned = exported[`tipshare_${name}`](...words);
  let met = true;
  const differs = (what) => {
    console.log(`DIFFERENCE: call ${which}, ${name}: ${what}`);
    met = false;
  };
  if (BigInt(returned) !== expected) differs(`returned ${returned}, expected ${expected}`);
  buffers.forEach(({ address, expected }, which) => {
    const found = Buffer.from(memory.buffer, address, expected.length);
    if (found.equals(expected)) return;
    const place = found.findIndex((byte, place) => byte !== expected[place]);
    differs(`buffer ${which}, byte ${place} is ${found[place]}, expected ${expected[place]}`);
  });
  return met;
}

if (take(8).toString() !== "TIPCALLS") fail("the file is no record");
let calls = 0;
for (let function_; (function_ = byte()) !== END; calls++) {
  if (function_ >= FUNCTIONS.length) fail("the record has a function that is not known");
  if (!isMet(FUNCTIONS[function_], calls)) process.exit(1);
  FUNCTIONS[function_].calls++;
}
if (big() !== BigInt(calls) || at !== block.length || readSync(descriptor, Buffer.alloc(1)) !== 0 || calls === 0) {
  fail("the record is not whole");
}
console.log(FUNCTIONS.map(({ name, calls }) => `${name} ${calls}`).join(", "));
console.log(`${calls} calls made again, no difference`);
