// How bpfdb.wasm is run: over a host, which has seven methods and knows nothing of the module's memory.
//
//   word(number)       the word of the command line, as bytes; the first one is the program's name; undefined where there is none
//   variable(name)     the value of the environment's variable of this name, as bytes; undefined where there is none. bpfdb asks for BPFDB_LINUX alone
//   open(path)         opens the file of this name (bytes) for reading, and answers its number
//   read(file, to)     fills `to` with the next bytes as far as there are any, and answers how many; 0 is the end. A host that waits answers a promise of that
//   write(file, from)  writes bytes, and answers how many; `from` is the module's memory, which it goes on to use
//   close(file)
//   isTerminal(file)
//
// Where one fails it answers the number that Linux gives to the error, as a negative one.
export const ERRORS = { EPERM: 1, ENOENT: 2, EIO: 5, ENXIO: 6, EBADF: 9, EAGAIN: 11, ENOMEM: 12, EACCES: 13, ENODEV: 19, ENOTDIR: 20, EISDIR: 21, EINVAL: 22,
  ENFILE: 23, EMFILE: 24, EFBIG: 27, ENOSPC: 28, EROFS: 30, EPIPE: 32, ENAMETOOLONG: 36, ELOOP: 40 };

// Memory comes in pages. The module begins with the fewest, and has room for no more than the most.
const PAGE = 65536;
const FEWEST_PAGES = 64, MOST_PAGES = 32768;
export const MOST_MEMORY = MOST_PAGES * PAGE;
// The status of a run that the engine itself ended, as a shell tells it of a program that aborted. No input is known that comes to this.
const ABORTED = 134;

/** Whether a run can wait for its input without holding up its thread. */
export function canWait() {
  return typeof WebAssembly.Suspending === "function" && typeof WebAssembly.promising === "function";
}

/** Runs the module once, over a host and with no more memory than these bytes. Answers the status, or a promise of it where the run waits. */
export function start(module, host, mostMemory = MOST_MEMORY, waits = false) {
  const maximum = Math.min(Math.floor(mostMemory / PAGE), MOST_PAGES);
  if (!(maximum >= FEWEST_PAGES)) throw new RangeError(`bpfdb needs ${FEWEST_PAGES * PAGE} bytes of memory at least`);
  const memory = new WebAssembly.Memory({ initial: FEWEST_PAGES, maximum });
  const instance = new WebAssembly.Instance(module, { host: functions(memory, host, waits), env: { memory } });
  if (waits) return WebAssembly.promising(instance.exports.run)().catch(aborted);
  try {
    return instance.exports.run();
  } catch (error) {
    return aborted(error);
  }

  function aborted(error) {
    host.write(2, new TextEncoder().encode(`bpfdb: the engine ended the run: ${error}\n`));
    return ABORTED;
  }
}

// What the module calls, by what the host answers. Its addresses are numbers without a sign.
function functions(memory, host, waits) {
  const bytes = (at, size) => new Uint8Array(memory.buffer, at >>> 0, size >>> 0);
  // A text of C, without the zero behind it.
  const text = (at) => {
    const from = bytes(at, memory.buffer.byteLength - (at >>> 0));
    return from.slice(0, from.indexOf(0));
  };
  // (a read of no bytes asks whether there is a file, and waits for nothing)
  const read = (file, at, size) => (size ? host.read(file, bytes(at, size)) : 0);
  return {
    read: waits ? new WebAssembly.Suspending(read) : read,
    write: (file, at, size) => host.write(file, bytes(at, size)),
    open(at, flags) {
      return flags & 3 ? -ERRORS.EROFS : host.open(text(at));
    },
    close: (file) => host.close(file),
    isatty: (file) => (host.isTerminal(file) ? 1 : 0),
    word: (number, at, room) => copied(host.word(number >>> 0), bytes(at, room)),
    variable: (at, to, room) => copied(host.variable(new TextDecoder().decode(text(at))), bytes(to, room)),
  };
}

// How many bytes a value has, which are put where there is room for them; -1 where there is no value, -2 where it has more.
function copied(value, room) {
  if (!value) return -1;
  room.set(value.subarray(0, room.length));
  return value.length > room.length ? -2 : value.length;
}

const asBytes = (value) => (typeof value === "string" ? new TextEncoder().encode(value) : value);

/** A host whose files are in memory: `files` has the bytes of each by its name, `next` gives the next bytes of standard input, null at its end, or a promise of these, and
 * `tell` takes what is written to standard output and standard error, as far as there is `room`. */
export class MemoryHost {
  constructor(words, { files = new Map(), next = () => null, tell = () => {}, room = Infinity } = {}) {
    this.words = ["bpfdb", ...words].map(asBytes);
    Object.assign(this, { files, next, tell, room });
    this.opened = new Map();
    this.given = new Uint8Array(0);
  }

  word(number) {
    return this.words[number];
  }

  // Linux's library is the file of its name, where there is one.
  variable(name) {
    return name === "BPFDB_LINUX" && this.files.has("bpfdb-linux.o") ? asBytes("bpfdb-linux.o") : undefined;
  }

  open(path) {
    const found = this.files.get(new TextDecoder().decode(path));
    if (!found) return -ERRORS.ENOENT;
    let file = 3;
    while (this.opened.has(file)) file++;
    this.opened.set(file, asBytes(found));
    return file;
  }

  read(file, to) {
    if (file === 0) return this.readInput(to);
    const rest = this.opened.get(file);
    if (!rest) return -ERRORS.EBADF;
    this.opened.set(file, rest.subarray(to.length));
    return put(rest, to);
  }

  readInput(to) {
    if (!this.given) return 0;
    if (!this.given.length) {
      const next = this.next();
      return next instanceof Promise ? next.then((bytes) => this.take(bytes, to)) : this.take(next, to);
    }
    return this.take(this.given, to);
  }

  // Standard input has these bytes, or ends. (After its end nothing is asked of it again.)
  take(bytes, to) {
    this.given = bytes && asBytes(bytes);
    if (!this.given) return 0;
    const count = put(this.given, to);
    this.given = this.given.subarray(count);
    return count || this.readInput(to);
  }

  write(file, from) {
    if (file !== 1 && file !== 2) return -ERRORS.EBADF;
    if (file === 1 && this.room === 0) return -ERRORS.ENOSPC;
    const count = file === 1 ? Math.min(from.length, this.room) : from.length;
    if (file === 1) this.room -= count;
    // (whoever is told may hand the bytes on, so that they are no longer here)
    this.tell(file, from.slice(0, count));
    return count;
  }

  close(file) {
    return this.opened.delete(file) ? 0 : -ERRORS.EBADF;
  }

  isTerminal() {
    return false;
  }
}

function put(bytes, to) {
  const count = Math.min(bytes.length, to.length);
  to.set(bytes.subarray(0, count));
  return count;
}
