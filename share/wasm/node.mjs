#!/usr/bin/env node
// bpfdb as a command of node, version 18 or later: node bpfdb.mjs WORD.. is bpfdb WORD.., over node's files and standard streams. bpfdb.wasm lies beside it.
// BPFDB_MEMORY is the most memory that it takes, in MiB: 4 to 2048.
//
// And for tests in JavaScript:
//
//   import { run } from "./bpfdb.mjs";
//   const { status, out, err } = await run(["run", "two.s"], { files: { "two.s": "mov r0, 2\nexit\n" } });
//
// Its files, its standard input (`input`) and what it wrote (`out`, `err`) are in memory: bytes, or texts on the way in. `memory` is the most that it takes, and `room` the
// most of standard output that is kept, in bytes. `execute` runs the command itself, over node's files.
import fs from "node:fs";
import tty from "node:tty";
import { fileURLToPath } from "node:url";
import v8 from "node:v8";
import { ERRORS, MemoryHost, MOST_MEMORY, start } from "./host.mjs";

let compiled;

// The module, which is compiled once.
function theModule() {
  compiled ??= new WebAssembly.Module(fs.readFileSync(new URL("bpfdb.wasm", import.meta.url)));
  return compiled;
}

/** What bpfdb comes to on these words, all in memory. */
export async function run(words, { files = {}, input = "", memory = MOST_MEMORY, room = Infinity } = {}) {
  const written = [undefined, [], []], inputs = [input];
  const tell = (file, bytes) => written[file].push(bytes);
  const host = new MemoryHost(words, { files: new Map(Object.entries(files)), next: () => inputs.shift() ?? null, tell, room });
  const status = start(theModule(), host, memory);
  const [out, err] = [1, 2].map((file) => new Uint8Array(Buffer.concat(written[file])));
  return { status, out, err };
}

/** bpfdb as the command runs it, over node's own files: its standard streams are these descriptors. Answers the status. */
export function execute(words, { streams = [0, 1, 2], memory = MOST_MEMORY } = {}) {
  return start(theModule(), new NodeHost(words, streams), memory);
}

/** What the module says of itself: of what it was made, and what of it is proved. */
export function about() {
  return new TextDecoder().decode(WebAssembly.Module.customSections(theModule(), "about")[0]);
}

// The number that Linux gives to what node could not do.
function refusal(error) {
  const number = ERRORS[error.code];
  if (!number) throw error;
  return -number;
}

// What an operation answers, or why it failed. One that isn't ready yet, as of a terminal that another program set so, is tried again after a while.
function tried(operation) {
  for (;;) {
    try {
      return operation();
    } catch (error) {
      if (error.code !== "EAGAIN") return refusal(error);
      pause(5);
    }
  }
}

function pause(milliseconds) {
  Atomics.wait(new Int32Array(new SharedArrayBuffer(4)), 0, 0, milliseconds);
}

// The host of the command: node's files, by the numbers of the system, but for the standard streams, which may be others.
class NodeHost {
  constructor(words, streams) {
    this.words = ["bpfdb", ...words].map((word) => Buffer.from(word));
    this.streams = streams;
  }

  descriptor(file) {
    return this.streams[file] ?? file;
  }

  word(number) {
    return this.words[number];
  }

  // Linux's library is the one that the environment names, or the one beside this file.
  variable(name) {
    const beside = fileURLToPath(new URL("bpfdb-linux.o", import.meta.url));
    const value = process.env[name] ?? (name === "BPFDB_LINUX" && fs.existsSync(beside) ? beside : undefined);
    return value === undefined ? undefined : Buffer.from(value);
  }

  open(path) {
    return tried(() => fs.openSync(Buffer.from(path), "r"));
  }

  read(file, to) {
    return tried(() => {
      try {
        return fs.readSync(this.descriptor(file), to, 0, to.length, null);
      } catch (error) {
        // (so Windows tells the end of a pipe)
        if (error.code === "EOF") return 0;
        throw error;
      }
    });
  }

  write(file, from) {
    return tried(() => fs.writeSync(this.descriptor(file), from, 0, from.length, null));
  }

  close(file) {
    return tried(() => fs.closeSync(file) ?? 0);
  }

  isTerminal(file) {
    return tty.isatty(this.descriptor(file));
  }
}

// The most memory that the environment allows, in bytes.
function allowed() {
  const text = process.env.BPFDB_MEMORY;
  if (text === undefined) return MOST_MEMORY;
  if (!/^\d{1,4}$/.test(text) || text < 4 || text > 2048) {
    process.stderr.write("BPFDB_MEMORY is not a number of MiB from 4 to 2048\n");
    process.exit(2);
  }
  return text * 1048576;
}

// Whether this file is the command, and not a module of another one.
function isCommand() {
  const [, command] = process.argv;
  return command !== undefined && fs.realpathSync(command) === fs.realpathSync(fileURLToPath(import.meta.url));
}

// The engine makes better code of a function that has run for some time, by a budget of bytes. A run of one step spent it (where wasn't looked for), and had half a second's
// work begun, for which node waits at its end. This budget is a hundred times as much. (Only node 20 was tried; one that doesn't know the option would write so.)
function delayBetterCode() {
  if (parseInt(process.versions.node) === 20) v8.setFlagsFromString("--wasm-tiering-budget=200000000");
}

if (isCommand()) {
  delayBetterCode();
  process.exit(execute(process.argv.slice(2), { memory: allowed() }));
}
