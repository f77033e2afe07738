// The page: files in memory, a line of words, runs in threads of their own, and a prompt where one waits for lines.
import { canWait } from "./host.mjs";
import { kindOf, lines, quoted, split, subject, UNFINISHED } from "./words.mjs";

// What a run may take: memory, and bytes of output that are kept; the largest file that is taken; and how much of a run's output is shown.
const MEMORY = 1 << 30, ROOM = 1 << 26, LARGEST_FILE = 1 << 26, SHOWN = 200_000;
// From how many milliseconds on it is said that lines are run anew.
const SLOW = 2000;
const OWN_LISTING = "listing.s";
// What a reader doesn't see, or would see elsewhere than where it stands.
const UNSEEN = /[\x00-\x08\x0b-\x1f\x7f-\x9f\xad\u034f\u061c\u115f\u1160\u17b4\u17b5\u180b-\u180f\u200b-\u200f\u2028-\u202e\u2060-\u206f\u3164\ufe00-\ufe0f\ufeff\uffa0]/g;

const at = (id) => document.getElementById(id);
const encoder = new TextEncoder();
const kept = JSON.parse(at("kept").textContent);
const files = new Map();
let module, present;

/** An element with this text. */
function element(tag, text = "", properties = {}) {
  const made = Object.assign(document.createElement(tag), properties);
  made.textContent = text;
  return made;
}

/** A text in which each character can be seen. */
function plain(text) {
  return text.replace(UNSEEN, (each) => `\\x${each.codePointAt(0).toString(16).padStart(2, "0")}`);
}

function bytesOf(base64) {
  const text = atob(base64), bytes = new Uint8Array(text.length);
  for (let i = 0; i < text.length; i++) bytes[i] = text.charCodeAt(i);
  return bytes;
}

function sized(count) {
  if (count < 1024) return `${count} bytes`;
  const power = Math.min(3, Math.floor(Math.log2(count) / 10)), digits = (count / 1024 ** power).toFixed(1);
  return `${digits.replace(/\.0$/, "")} ${["", "KiB", "MiB", "GiB"][power]}`;
}

// --- Files.

function keep(name, bytes) {
  files.set(name, bytes);
  showFiles();
}

function showFiles() {
  const rows = [...files].map(([name, bytes]) => {
    const use = element("button", plain(name), { type: "button", className: "name offer", title: "makes it the file of the line of words" });
    use.onclick = () => propose(name);
    const save = element("button", "save", { type: "button", ariaLabel: `save ${name}` });
    save.onclick = () => download(name, bytes);
    const remove = element("button", "×", { type: "button", ariaLabel: `remove ${name}` });
    remove.onclick = () => files.delete(name) && showFiles();
    const row = element("li");
    row.append(use, element("span", sized(bytes.length), { className: "size" }), save, remove);
    return row;
  });
  at("files").replaceChildren(...rows);
}

function download(name, bytes) {
  const address = URL.createObjectURL(new Blob([bytes]));
  element("a", "", { href: address, download: name }).click();
  setTimeout(() => URL.revokeObjectURL(address), 60_000);
}

async function take(chosen) {
  for (const file of chosen) {
    if (file.size > LARGEST_FILE) say(`${file.name} has more than ${sized(LARGEST_FILE)}: it is not taken.`, "wrong");
    else keep(file.name, new Uint8Array(await file.arrayBuffer()));
  }
  if (chosen.length === 1 && files.has(chosen[0].name)) propose(chosen[0].name);
}

// --- The line of words.

function propose(name) {
  setWords(`${kindOf(name) === "tests" ? "test" : "debug"} ${quoted(name)}`);
  at("words").focus();
}

function setWords(line) {
  at("words").value = line;
  showSubcommands();
}

// The subcommands for the file that the line is about. Those that want a word more are only written, the others run.
function showSubcommands() {
  let about;
  try {
    about = subject(split(at("words").value).words);
  } catch {
    return;
  }
  const offers = about ? lines(about) : [];
  at("subcommands").replaceChildren(...offers.map(({ subcommand, line }) => {
    const button = element("button", subcommand, { type: "button", title: line });
    button.onclick = () => {
      setWords(UNFINISHED.has(subcommand) ? `${line} ` : line);
      if (UNFINISHED.has(subcommand)) at("words").focus();
      else begin(line);
    };
    return button;
  }));
}

// --- What is shown of runs.

/** The end of the output stays in sight, unless the reader has gone back. */
function append(where, ...nodes) {
  const output = at("output"), follows = output.scrollHeight - output.scrollTop - output.clientHeight < 40;
  where.append(...nodes);
  if (follows) output.scrollTop = output.scrollHeight;
}

function say(text, kind = "told") {
  append(at("output"), element("pre", plain(text), { className: kind }));
}

/** What one run wrote: as much as can be shown, and all of standard output as bytes. */
class Shown {
  constructor(line) {
    this.pre = element("pre");
    append(at("output"), this.pre);
    this.add(`$ bpfdb ${line}\n`, "typed");
    this.decoders = [undefined, new TextDecoder(), new TextDecoder()];
    this.bytes = [];
    this.characters = [0, 0, 0];
  }

  add(text, kind = "") {
    append(this.pre, kind ? element("span", plain(text), { className: kind }) : document.createTextNode(plain(text)));
  }

  write(file, bytes, isShown) {
    if (file === 1) this.bytes.push(bytes);
    if (!isShown) return;
    const text = this.decoders[file].decode(bytes, { stream: true }), room = SHOWN - this.characters[file];
    this.characters[file] += text.length;
    if (room > 0) this.add(text.slice(0, room), file === 2 ? "wrong" : "");
    if (room > 0 && text.length >= room) this.add("\n… the rest is not shown: keep the output to have it.\n", "told");
  }

  whole() {
    const all = new Uint8Array(this.bytes.reduce((sum, each) => sum + each.length, 0));
    this.bytes.reduce((place, each) => (all.set(each, place), place + each.length), 0);
    return all;
  }

  // A button that keeps the output as a file.
  offer() {
    if (!this.bytes.length) return;
    const button = element("button", "keep the output as a file", { type: "button", className: "kept" });
    button.onclick = () => {
      let number = 1;
      while (files.has(`output-${number}.txt`)) number++;
      keep(`output-${number}.txt`, this.whole());
      button.remove();
    };
    append(this.pre, button);
  }
}

// --- Runs.

/** A run: its words, where its output goes, and the lines that it was given. Where the engine can't wait for a line, a run that wants one is begun anew with all lines. */
class Run {
  constructor(line, words, to) {
    Object.assign(this, { words, to, lines: [], typed: [], waits: canWait(), seen: [0, 0, 0] });
    this.shown = new Shown(line);
    this.start();
  }

  start() {
    this.worker?.terminate();
    this.told = [0, 0, 0];
    this.asked = this.wanted = false;
    this.began = performance.now();
    const address = URL.createObjectURL(new Blob([kept.worker], { type: "text/javascript" }));
    const worker = new Worker(address), { words, lines, waits } = this;
    // (what one said that was begun anew since is old)
    worker.onmessage = ({ data }) => worker === this.worker && this.hear(data);
    worker.onerror = (event) => worker === this.worker && this.end(`the thread ended: ${event.message}`);
    this.worker = worker;
    worker.postMessage({ run: { module, words, files: [...files], lines, waits, memory: MEMORY, room: ROOM } });
    URL.revokeObjectURL(address);
  }

  hear({ file, bytes, asks, status }) {
    if (bytes) this.write(file, bytes);
    if (asks) this.wanted = true;
    if (asks && this.waits) this.ask();
    if (status === undefined) return;
    if (this.wanted && !this.waits && !this.closed) this.rest();
    else this.end(status ? `status ${status}` : "", status);
  }

  // What comes once more, where lines are run anew, isn't written again.
  write(file, bytes) {
    const known = Math.max(0, Math.min(bytes.length, this.seen[file] - this.told[file]));
    this.told[file] += bytes.length;
    this.seen[file] = Math.max(this.seen[file], this.told[file]);
    if (known < bytes.length) this.shown.write(file, bytes.subarray(known), file === 2 || this.to === undefined);
  }

  // Standard input is wanted: a line that was typed before that is given now.
  ask() {
    this.asked = true;
    if (this.typed.length) this.give(this.typed.shift());
    else if (!this.closed) setPrompt(true, !this.isOpen);
    this.isOpen = true;
  }

  // A session that isn't waiting, but would go on with another line.
  rest() {
    const took = performance.now() - this.began;
    if (took > SLOW) this.shown.add(`this browser can't let a run wait, so each line runs the session anew: ${Math.round(took / 1000)} s\n`, "told");
    this.ask();
  }

  // A line of standard input, or its end.
  feed(line) {
    if (this.asked) this.give(line);
    else this.typed.push(line);
  }

  give(line) {
    this.asked = false;
    this.closed = line === null;
    if (!this.closed) this.shown.add(`> ${line}\n`, "typed");
    const bytes = this.closed ? null : encoder.encode(`${line}\n`);
    if (this.waits) return this.worker.postMessage({ line: bytes });
    if (bytes) this.lines.push(bytes);
    this.start();
  }

  stop() {
    this.end("stopped");
  }

  end(told, status) {
    this.worker.terminate();
    this.worker = undefined;
    if (told) this.shown.add(`(${told})\n`, "told");
    if (this.to !== undefined && status === 0) {
      keep(this.to, this.shown.whole());
      this.shown.add(`${sized(files.get(this.to).length)} in ${this.to}\n`, "well");
    } else {
      this.shown.offer();
    }
    if (present === this) present = undefined;
    setPrompt(false);
    at("stop").disabled = true;
  }
}

function begin(line, offers = []) {
  let words, to;
  try {
    ({ words, to } = split(line));
  } catch (error) {
    return say(`${line}: ${error.message}`, "wrong");
  }
  present?.stop();
  remember("words", line);
  if (at("listing").value) files.set(OWN_LISTING, encoder.encode(at("listing").value.replace(/\n?$/, "\n")));
  showFiles();
  at("offered").replaceChildren(...offers);
  at("stop").disabled = false;
  present = new Run(line, words, to);
  at("output").scrollIntoView({ block: "nearest" });
}

function setPrompt(isOpen, takesFocus = false) {
  const line = at("line");
  for (const id of ["line", "send", "end"]) at(id).disabled = !isOpen;
  line.placeholder = isOpen ? "a command, as continue or reverse-stepi" : "no session is open";
  if (takesFocus) line.focus();
  if (!isOpen) at("offered").replaceChildren();
}

function feed(line) {
  if (!present || at("line").disabled) return;
  if (line !== null) remember("line", line);
  at("line").value = "";
  present.feed(line);
}

// --- What was typed before, by the arrows up and down.

const typed = { words: [], line: [] }, place = { words: 0, line: 0 };

function remember(id, line) {
  if (typed[id].at(-1) !== line) typed[id].push(line);
  place[id] = typed[id].length;
}

function recall(id, event) {
  const by = { ArrowUp: -1, ArrowDown: 1 }[event.key], to = place[id] + by;
  if (!by || to < 0 || to > typed[id].length) return;
  event.preventDefault();
  place[id] = to;
  at(id).value = typed[id][to] ?? "";
  if (id === "words") showSubcommands();
}

// --- Examples.

// The buttons below a session of an example: its own lines, and other lines of words about its files.
function offers(example) {
  const button = (text, title, does) => Object.assign(element("button", text, { type: "button", className: "offer", title }), { onclick: does });
  const own = example.script.map((line) => button(line, "a line of the session", () => feed(line)));
  const others = example.others.map((line) => button(`$ ${line}`, "another look at it", () => (setWords(line), begin(line, offers(example)))));
  return [...own, ...others];
}

function showExamples() {
  at("examples").replaceChildren(...kept.examples.map((example) => {
    const button = element("button", "", { type: "button", title: example.about });
    button.append(element("b", example.name), element("span", example.about));
    button.onclick = () => {
      for (const [name, base64] of Object.entries(example.files)) files.set(name, bytesOf(base64));
      setWords(example.words);
      begin(example.words, offers(example));
    };
    const row = element("li");
    row.append(button);
    return row;
  }));
}

// --- The page itself.

function listen() {
  at("command").onsubmit = (event) => (event.preventDefault(), module && begin(at("words").value));
  at("prompt").onsubmit = (event) => (event.preventDefault(), feed(at("line").value));
  at("end").onclick = () => feed(null);
  at("stop").onclick = () => present?.stop();
  at("words").oninput = showSubcommands;
  for (const id of ["words", "line"]) at(id).onkeydown = (event) => recall(id, event);
  document.addEventListener("keydown", (event) => event.key === "Escape" && present?.stop());
  at("chosen").onchange = () => take([...at("chosen").files]);
  document.ondragover = (event) => (event.preventDefault(), document.body.classList.add("dropping"));
  document.ondragleave = () => document.body.classList.remove("dropping");
  document.ondrop = (event) => {
    event.preventDefault();
    document.body.classList.remove("dropping");
    take([...event.dataTransfer.files]);
  };
}

async function unpack() {
  const packed = new Blob([bytesOf(kept.module)]).stream().pipeThrough(new DecompressionStream("gzip"));
  return WebAssembly.compile(await new Response(packed).arrayBuffer());
}

async function open() {
  const began = performance.now();
  listen();
  showExamples();
  showSubcommands();
  at("bounds").textContent = `A run takes at most ${sized(MEMORY)} of memory and writes at most ${sized(ROOM)}; a file has at most ${sized(LARGEST_FILE)}.`;
  try {
    module = await unpack();
  } catch (error) {
    at("state").textContent = `This browser lacks what bpfdb needs, WebAssembly of 2022 and DecompressionStream: ${error}`;
    at("state").className = "trouble";
    return;
  }
  at("about").textContent = new TextDecoder().decode(WebAssembly.Module.customSections(module, "about")[0]);
  at("run").disabled = false;
  at("state").textContent = `${kept.version}, ready in ${Math.round(performance.now() - began)} ms`;
  window.page = { files, keep };
}

open();
