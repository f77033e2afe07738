"use strict";
// A run as bpfdb told it: its steps, read once, and the machine after any of them. Nothing here knows the page.

// Memory (docs/MACHINE.md): where regions begin, how far apart frames and maps are, and the bytes of a frame.
const CONTEXT = 0x100000000, STACK = 0x200000000, MAPS = 0x300000000;
const FRAME_STRIDE = 1024, MAP_STRIDE = 0x100000, FRAME = 512, FRAMES = 8;
const NOTHING = Object.freeze([]);
const SIZES = { b: 1, h: 2, w: 4, dw: 8, 32: 4, 64: 8 };

// A number as bpfdb writes it.
function hex(value) {
  return "0x" + value.toString(16);
}

// A word read as a signed number.
function signed(value) {
  return BigInt.asIntN(64, value);
}

// Bytes in one piece: what they hold, and by which step each was written (0: before the steps that are shown).
class Region {
  constructor(name, start, size) {
    this.name = name;
    this.start = start;
    this.bytes = new Uint8Array(size);
    this.writers = new Int32Array(size);
    this.end = start + size;
  }
}

// What an instruction reads of memory, by its text: the base and offset of an address, and how many bytes.
function accessOf(text) {
  const place = /\[r(\d+)([+-]\d+)\]/.exec(text);
  if (!place) return null;
  const width = /^(?:ldxs?|stx?)(dw|b|h|w) |^atomic_\w*?(32|64) /.exec(text);
  return {
    register: Number(place[1]), offset: BigInt(place[2]), size: SIZES[width[1] || width[2]],
    reads: !text.startsWith("st"), writes: !text.startsWith("ldx"),
  };
}

// The program: each instruction with its slot, its text and how often it ran in the whole run.
function programOf(profile) {
  return profile.split("\n").map((line) => {
    const [, count, slot, text] = /^(\d+) (\d+): (.*)$/.exec(line);
    const operation = text.split(" ")[0];
    return { slot: Number(slot), count: Number(count), text, operation, access: accessOf(text) };
  });
}

// A run. Position P is the machine after P of the steps that are shown; step numbers are those of the whole run.
class Run {
  constructor(told, trace) {
    this.told = told;
    this.program = programOf(told.program);
    this.at = new Map(this.program.map((instruction) => [instruction.slot, instruction]));
    this.end = told.end;
    this.before = told.first - 1;
    this.length = told.shown;
    this.goesOn = this.before + this.length < told.steps;
    this.regions = regionsOf(told);
    this.open(told.opening);
    this.slots = new Int32Array(this.length + 1);
    this.depths = new Uint8Array(this.length + 1);
    this.changes = new Array(this.length);
    this.reads = new Array(this.length + 1);
    this.record(trace);
  }

  // The machine before the first step that is shown.
  open(opening) {
    this.position = 0;
    this.registers = BigUint64Array.from(opening.registers, BigInt);
    this.writers = new Int32Array(11);
    this.words = opening.words.map((word) => ({ value: BigInt(word), by: 0 }));
    this.frames = opening.frames.map(([returns, ...saved]) => ({ returns, by: 0, saved: saved.map(BigInt), writers: [0, 0, 0, 0] })).reverse();
    for (const [address, digits] of opening.memory) {
      const start = Number(address), region = this.regionAt(start);
      for (let at = 0; at < digits.length / 2; at++) region.bytes[start - region.start + at] = parseInt(digits.substr(2 * at, 2), 16);
    }
  }

  // Runs the steps once, to know what each changes, and goes back.
  record(trace) {
    const lines = trace.split("\n");
    for (let at = 0; at < this.length; at++) {
      const line = lines[at], slot = parseInt(line.slice(line.indexOf(" ") + 1));
      this.slots[at] = slot;
      this.depths[at] = this.frames.length;
      this.reads[at] = this.readsOf(this.at.get(slot));
      this.changes[at] = this.changesOf(this.at.get(slot), line, at + 1 + this.before, at + 1 === this.length && !this.goesOn);
      this.move(at, true);
    }
    const last = this.goesOn ? / (\d+):/.exec(lines[this.length]) : /at (\d+)/.exec(this.end);
    this.slots[this.length] = Number(last[1]);
    this.depths[this.length] = this.frames.length;
    this.reads[this.length] = this.hasEnded() && !this.end.startsWith("fault") ? [] : this.readsOf(this.at.get(Number(last[1])));
    this.goTo(0);
  }

  // Whether the machine stands at the end of the run, and not before another step.
  hasEnded() {
    return this.position === this.length && !this.goesOn;
  }

  // The number of the present step: how many steps the whole run had made.
  get step() {
    return this.before + this.position;
  }

  // The region of an address, or undefined.
  regionAt(address) {
    return this.regions.find((region) => address >= region.start && address < region.end);
  }

  // Whether nothing wrote a byte of the stack since the call of its function, or, of the first one, since the start. It isn't where that lies before the steps
  // that are shown, as it isn't known then.
  isUnset(region, at) {
    if (region.start < STACK || region.start >= MAPS || region.writers[at]) return false;
    const depth = (region.start - STACK) / FRAME_STRIDE;
    return depth ? depth <= this.frames.length && this.frames[depth - 1].by > 0 : !this.before;
  }

  // What an instruction reads of memory, as addresses and numbers of bytes.
  readsOf(instruction) {
    const access = instruction.access, r = this.registers;
    if (access) return access.reads ? [[BigInt.asUintN(64, r[access.register] + access.offset), access.size]] : NOTHING;
    if (instruction.operation !== "call") return NOTHING;
    if (instruction.text === "call 1") return [[r[2], 4]];
    if (instruction.text === "call 2") return [[r[2], 4], [r[3], this.valueSize(r[1])]];
    return NOTHING;
  }

  // The bytes of a value of the map that a token names.
  valueSize(token) {
    const map = this.told.maps[Number(BigInt.asUintN(16, token))];
    return map ? map[0] : 0;
  }

  // What a step changes: registers, bytes, words, and calls that begin or end. Its place in C may follow.
  changesOf(instruction, said, by, isLast) {
    const changes = [], line = said.split("; in ", 1)[0];
    let calls = false;
    for (let start = line.indexOf("; "), end; start >= 0; start = end) {
      end = line.indexOf("; ", start + 2);
      const [place, value] = line.slice(start + 2, end < 0 ? line.length : end).split(" = ");
      if (place.startsWith("r")) changes.push(this.registerChange(parseInt(place.slice(1)), BigInt(value), by));
      else if (place.startsWith("word")) changes.push({ word: { value: BigInt(value), by } });
      else {
        calls = instruction.operation === "callf";
        changes.push(this.byteChange(place, value, calls, by));
      }
    }
    if (calls) this.addCall(changes, instruction, by);
    if (instruction.operation === "exit" && this.frames.length && !isLast) this.addReturn(changes, by);
    return changes.length ? changes : NOTHING;
  }

  registerChange(register, value, by) {
    return { register, value, old: this.registers[register], by, oldBy: this.writers[register] };
  }

  // Bytes that a step writes: a number, the zeros of a frame, or a value of a map that is copied from where r3 points.
  byteChange(place, value, calls, by) {
    const colon = place.indexOf(":"), start = Number(place.slice(0, colon)), size = Number(place.slice(colon + 1));
    const region = this.regionAt(start), at = start - region.start;
    const bytes = value !== undefined ? bytesOfWord(BigInt(value), size) : calls ? null : this.bytesAt(Number(this.registers[3]), size);
    return calls ? clearing(region) : writing(region, at, bytes, by);
  }

  // So many bytes of memory.
  bytesAt(start, size) {
    const region = this.regionAt(start);
    return region.bytes.slice(start - region.start, start - region.start + size);
  }

  // A call keeps r6 to r9 and where it returns to, and r10 rises.
  addCall(changes, instruction, by) {
    const kept = { returns: instruction.slot + 1, by, saved: [...this.registers.slice(6, 10)], writers: [...this.writers.slice(6, 10)], base: this.writers[10] };
    changes.push({ call: kept }, this.registerChange(10, this.registers[10] + BigInt(FRAME_STRIDE), by));
  }

  // A return takes them back.
  addReturn(changes, by) {
    const kept = this.frames[this.frames.length - 1];
    changes.push({ return: kept });
    kept.saved.forEach((value, index) => changes.push(this.registerChange(6 + index, value, kept.writers[index])));
    changes.push(this.registerChange(10, this.registers[10] - BigInt(FRAME_STRIDE), kept.base || 0));
  }

  // Makes the changes of a step, or takes them back.
  move(at, forward) {
    const changes = this.changes[at];
    if (forward) for (const change of changes) this.make(change);
    else for (let index = changes.length - 1; index >= 0; index--) this.takeBack(changes[index]);
    this.position = forward ? at + 1 : at;
  }

  make(change) {
    if (change.register !== undefined) {
      this.registers[change.register] = change.value;
      this.writers[change.register] = change.by;
    } else if (change.region) {
      change.region.bytes.set(change.bytes, change.at);
      change.region.writers.fill(change.by, change.at, change.at + change.bytes.length);
    } else if (change.word) this.words.push(change.word);
    else if (change.call) this.frames.push(change.call);
    else this.frames.pop();
  }

  takeBack(change) {
    if (change.register !== undefined) {
      this.registers[change.register] = change.old;
      this.writers[change.register] = change.oldBy;
    } else if (change.region) {
      change.region.bytes.set(change.old, change.at);
      change.region.writers.set(change.oldBy, change.at);
    } else if (change.word) this.words.pop();
    else if (change.call) this.frames.pop();
    else this.frames.push(change.return);
  }

  // Goes to a position, forwards or backwards.
  goTo(position) {
    while (this.position < position) this.move(this.position, true);
    while (this.position > position) this.move(this.position - 1, false);
  }

  // The nearest position after the present one (or before it, for direction -1) for which a question is answered by yes; undefined without one.
  find(direction, asks) {
    for (let at = this.position + direction; at >= 0 && at <= this.length; at += direction) if (asks(at)) return at;
    return undefined;
  }

  // Whether the step after a position writes a register, or one of the bytes from an address on.
  writes(at, place, size = 1) {
    return at < this.length && this.changes[at].some((change) => typeof place === "number"
      ? change.by && change.region && place + size > change.region.start + change.at && place < change.region.start + change.at + change.bytes.length
      : change.register === place.register && change.by === at + 1 + this.before);
  }

  // A register's value at every position.
  valuesOf(register) {
    const values = new BigUint64Array(this.length + 1), here = this.position;
    this.goTo(0);
    values[0] = this.registers[register];
    for (let at = 0; at < this.length; at++) {
      const change = this.changes[at].findLast((each) => each.register === register);
      values[at + 1] = change ? change.value : values[at];
    }
    this.goTo(here);
    return values;
  }
}

// The lowest bytes of a word.
const WORD = new DataView(new ArrayBuffer(8)), WORD_BYTES = new Uint8Array(WORD.buffer);
function bytesOfWord(word, size) {
  WORD.setBigUint64(0, word, true);
  return WORD_BYTES.slice(0, size);
}

// The regions of a machine.
function regionsOf(told) {
  const regions = [new Region("context", CONTEXT, told.opening.size)];
  for (let depth = 0; depth < FRAMES; depth++) regions.push(new Region(`stack, depth ${depth}`, STACK + FRAME_STRIDE * depth, FRAME));
  told.maps.forEach(([value, entries, name], index) => {
    regions.push(new Region(`map ${index}${name ? " " + name : ""}`, MAPS + MAP_STRIDE * index, value * entries));
  });
  return regions;
}

// What a step changes that writes bytes.
function writing(region, at, bytes, by) {
  const end = at + bytes.length;
  return { region, at, bytes, by, old: region.bytes.slice(at, end), oldBy: region.writers.slice(at, end) };
}

// What a call changes, which clears a frame: from the first byte that isn't clear to the last one, as few are used of most frames.
function clearing(region) {
  let start = 0, end = FRAME;
  const clear = (at) => !region.bytes[at] && !region.writers[at];
  while (start < end && clear(start)) start++;
  while (end > start && clear(end - 1)) end--;
  return writing(region, start, new Uint8Array(end - start), 0);
}

// The text that was compressed.
async function unpacked(text) {
  const packed = atob(text), bytes = new Uint8Array(packed.length);
  for (let at = 0; at < packed.length; at++) bytes[at] = packed.charCodeAt(at);
  return new Response(new Blob([bytes]).stream().pipeThrough(new DecompressionStream("deflate"))).text();
}
