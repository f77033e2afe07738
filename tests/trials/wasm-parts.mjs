// The parts below bpfdb.wasm, each by itself: node wasm-parts.mjs PARTS.wasm, which has the heap, the calls and the arithmetic of share/wasm and the functions of
// tests/program/wasm/pointers.ll. What differs is a line 'FAILED: ..'; the last line counts the trials.
import fs from "node:fs";

const [, , path] = process.argv;
const module = new WebAssembly.Module(fs.readFileSync(path));
const HOST = Object.fromEntries(["read", "write", "open", "close", "isatty", "word", "variable"].map((name) => [name, () => -1]));
let count = 0, failures = 0;

function same(what, wanted, found) {
  count++;
  if (wanted === found) return;
  failures++;
  if (failures <= 20) console.log(`FAILED: ${what}\n  wanted: ${wanted}\n  found:  ${found}`);
}

// The parts with no more memory than these pages.
function parts(maximum) {
  const memory = new WebAssembly.Memory({ initial: 64, maximum });
  return { ...new WebAssembly.Instance(module, { host: HOST, env: { memory } }).exports, memory };
}

// Numbers below a bound that look as if by chance, the same each time.
let seed = 1;
function chance(bound) {
  seed = (Math.imul(seed, 1664525) + 1013904223) >>> 0;
  return Math.floor((seed / 2 ** 32) * bound);
}

// A large number, often near a power of two.
function wide() {
  const power = 1n << BigInt(chance(128)), near = BigInt(chance(5)) - 2n;
  return BigInt.asUintN(128, chance(2) ? power + near : (power * BigInt(chance(1 << 30))) ^ (power - 1n));
}

function pointers() {
  const here = parts(64);
  const wanted = { upper_half: 0n, upper_half_of_pair: 0n, behind: -1n, pair: 7n * 256n + 99n, through_static: 98n * 256n + 97n, apart: 8n };
  for (const [name, value] of Object.entries(wanted)) same(`pointers: ${name}`, value, here[name]());
  same("the status of main", 7, here.run());
}

function arithmetic() {
  const here = parts(64), mask = (1n << 64n) - 1n, place = here.heap_take(16n);
  const answer = (call, ...words) => {
    call(place, ...words);
    const [low, high] = new BigUint64Array(here.memory.buffer, place, 2);
    return (high << 64n) | low;
  };
  for (let i = 0; i < 2000; i++) {
    const a = wide(), b = wide(), by = chance(128);
    same(`${a} * ${b}`, BigInt.asUintN(128, a * b), answer(here.__multi3, a & mask, a >> 64n, b & mask, b >> 64n));
    same(`${a} << ${by}`, BigInt.asUintN(128, a << BigInt(by)), answer(here.__ashlti3, a & mask, a >> 64n, by));
    same(`${a} >> ${by}`, a >> BigInt(by), answer(here.__lshrti3, a & mask, a >> 64n, by));
  }
}

// What moves bytes, over places that overlap, against what JavaScript moves; and nothing else changes.
function moves() {
  const here = parts(64), size = 4096, at = here.heap_take(BigInt(size)), bytes = new Uint8Array(here.memory.buffer, at, size);
  for (let i = 0; i < 6000; i++) {
    const count = chance(i % 3 ? 40 : 1100), to = chance(size - count + 1), near = Math.max(0, Math.min(size - count, to + chance(40) - 20));
    const from = chance(2) ? near : chance(size - count + 1), overlap = Math.abs(from - to) < count, byte = chance(256);
    for (let j = 0; j < 64; j++) bytes[chance(size)] = chance(256);
    const copied = bytes.slice().copyWithin(to, from, from + count), filled = bytes.slice().fill(byte, to, to + count);
    const call = chance(2) ? "memset" : overlap ? "memmove" : chance(2) ? "memmove" : "memcpy";
    const answer = call === "memset" ? here.memset(at + to, byte - 256 * chance(2), count) : here[call](at + to, at + from, count);
    same(`${call} of ${count} bytes from ${from} to ${to}`, true, answer === at + to && Buffer.compare(bytes, call === "memset" ? filled : copied) === 0);
  }
}

// A heap with blocks, each full of a byte of its own. What is given twice, moved wrongly or too small is no longer full of it.
class Trial {
  constructor(pages) {
    this.here = parts(pages);
    this.blocks = [];
    this.byte = 0;
  }

  bytes({ at, size }) {
    return new Uint8Array(this.here.memory.buffer, at, size);
  }

  isFull(block, size = block.size) {
    return this.bytes(block).subarray(0, size).every((each) => each === block.byte);
  }

  place(at, size) {
    same('a block begins at a multiple of 16', 0, at % 16);
    this.byte = (this.byte + 1) % 256;
    const block = { at, size, byte: this.byte };
    this.bytes(block).fill(this.byte);
    this.blocks.push(block);
  }

  take(size) {
    const at = this.here.heap_take(BigInt(size));
    if (at) this.place(at, size);
    return at !== 0;
  }

  give() {
    const [block] = this.blocks.splice(chance(this.blocks.length), 1);
    same('a block is as it was left', true, this.isFull(block));
    this.here.heap_give(block.at);
  }

  resize(size) {
    const [block] = this.blocks.splice(chance(this.blocks.length), 1), at = this.here.heap_resize(block.at, BigInt(size));
    if (!at) return this.blocks.push(block);
    same('a block of another size has what was in it', true, this.isFull({ ...block, at }, Math.min(size, block.size)));
    return this.place(at, size);
  }

  size() {
    return 1 + chance(2 ** (1 + chance(16)));
  }

  // Many requests at random, of which those for too much are refused.
  go(steps) {
    for (let i = 0; i < steps; i++) {
      const which = this.blocks.length ? chance(this.blocks.length > 60 ? 4 : 3) : 0;
      if (which === 0) this.take(this.size());
      else if (which === 1) this.resize(this.size());
      else this.give();
    }
    for (const block of this.blocks) same('a block is as it was left, at the end', true, this.isFull(block));
  }
}

function heap() {
  new Trial(32768).go(4000);
  const small = new Trial(80);
  small.go(2000);
  while (small.blocks.length) small.give();
  same('more than there is room for is refused', false, small.take(6 << 20));
  same('more than half of what 32 bits reach is refused', 0, small.here.heap_take((1n << 31n) + 1n));
  same('what is too large for any machine is refused', 0, small.here.heap_take((1n << 63n) - 1n));
  same('after a refusal there is room for less', true, small.take(1 << 16));
  small.give();
}

// A text that grows alone moves once at most: it then is the last block.
function growing() {
  const here = parts(32768), first = here.heap_take(100n);
  let at = here.heap_take(1n), moves = 0;
  for (let size = 1n; size < 1n << 26n; size *= 2n) {
    const next = here.heap_resize(at, size);
    moves += next === at ? 0 : 1;
    at = next;
  }
  same('a block that grows alone stays where it is', 0, moves);
  same('and another one before it is another', true, at !== first);
}

pointers();
arithmetic();
moves();
heap();
growing();
console.log(`${count} trials, ${failures} failed`);
process.exit(failures ? 1 : 0);
