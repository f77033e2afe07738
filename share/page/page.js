"use strict";
// The page: it shows the machine after the steps that were chosen, and takes keys, clicks and questions.

class Page {
  constructor(run) {
    this.run = run;
    this.names = new Names(run.told);
    this.jumps = 0;
    this.most = run.program.reduce((most, { count }) => Math.max(most, count), 0);
    this.file = -1;
    this.curve = new Curve(run, this.names, $("curve"), (position) => this.goTo(position));
    this.source = new Rows($("lines"), (line, way) => this.findLine(line, way));
    this.listing = new Rows($("instructions"), (slot, way) => this.findSlot(slot, way));
    $("panels").hidden = false;
    $("panels").classList.toggle("sourceless", !run.told.files.length);
    $("source").hidden = !run.told.files.length;
    this.tellEnd();
    this.fillListing();
    this.fillFiles();
    this.fillRegisters();
    this.memory = new MemoryView(run, this.names, $("memory"), (address) => this.goToWriterOf(address));
    this.listen();
    $("slider").max = run.length;
    $("made").textContent = `Made by bpfdb-page of ${run.told.version}.`;
    this.goTo(this.asked() ?? run.length);
  }

  // The position that the page's address asks for; undefined where it asks for none of those that are shown.
  asked() {
    const found = /[#&]step=(\d+)/.exec(location.hash), position = found ? Number(found[1]) - this.run.before : -1;
    return position >= 0 && position <= this.run.length ? position : undefined;
  }

  // How the run ended, and at a bad access where its address lies.
  tellEnd() {
    const { run, names } = this, fault = /^fault (\w+)(?: (0x[0-9a-f]+))? at (\d+)/.exec(run.end);
    const line = tellsPlace(run.end) ? "" : names.lineOf(run.goesOn ? -1 : run.slots[run.length]);
    let text = run.end + (line ? ` (${line})` : "");
    if (fault && fault[1] === "access") text += `: ${whereabouts(run, BigInt(fault[2]))}`;
    if (run.told.shown < run.told.steps) text += `; shown: steps ${run.told.first} to ${run.told.first + run.told.shown - 1} of ${run.told.steps}`;
    tell($("end"), text);
    $("end").className = fault ? "bad" : run.end.startsWith("exited") ? "good" : "cut";
  }

  fillListing() {
    const rows = [], { functions, labels } = this.names;
    for (const { slot, count, text } of this.run.program) {
      if (labels.has(slot)) rows.push([null, () => element("div", functions.has(slot) ? "function" : "label", `${labels.get(slot)}:`)]);
      rows.push([slot, () => row("p", slot, count, slot, element("code", "", text))]);
    }
    this.listing.fill(rows, this.most);
  }

  fillFiles() {
    const files = this.run.told.files;
    $("files").replaceChildren(...files.map(({ name }, index) => {
      const option = element("option", "", name);
      option.value = index;
      return option;
    }));
    $("files").hidden = files.length < 2;
    $("file").hidden = files.length > 1;
    const known = [...this.run.told.functions, ...this.run.told.labels].slice(0, 500).map(([, name]) => name);
    $("known").replaceChildren(...[...new Set(known)].map((name) => {
      const option = element("option", "");
      option.value = name;
      return option;
    }));
    if (files.length) this.openFile(0);
  }

  // Shows a source: each line with the most runs of one of its instructions.
  openFile(index) {
    if (index === this.file) return;
    this.file = index;
    const { name, text } = this.run.told.files[index], counts = new Map();
    for (const { slot, count } of this.run.program) {
      const found = this.names.lines.get(slot);
      if (found && found.file === index) counts.set(found.line, Math.max(counts.get(found.line) || 0, count));
    }
    $("files").value = index;
    tell($("file"), name);
    const numbers = text.length ? text.map((_, at) => at + 1) : [...counts.keys()].sort((one, other) => one - other);
    if (text.length && text[text.length - 1] === "") numbers.pop();
    this.source.fill(numbers.map((line) => [line, () => row("l", line, counts.get(line), line, element("code", "", text[line - 1] || (text.length ? " " : "(the source wasn't there)")))]), this.most);
  }

  fillRegisters() {
    const body = $("registers").tBodies[0];
    for (let register = 0; register <= 10; register++) {
      const writer = element("button", "writer");
      writer.type = "button";
      const made = element("tr", "", element("th", "", `r${register}`), element("td", "hex"), element("td", "signed"), element("td", "meaning"), element("td", "", writer));
      made.firstChild.scope = "row";
      made.addEventListener("click", () => this.goToWriterOf({ register }));
      body.append(made);
    }
  }

  listen() {
    $("slider").addEventListener("input", (event) => this.goTo(Number(event.target.value)));
    for (const button of document.querySelectorAll("[data-key]")) button.addEventListener("click", () => this.press(button.dataset.key));
    $("files").addEventListener("change", (event) => this.openFile(Number(event.target.value)));
    $("search").addEventListener("submit", (event) => {
      event.preventDefault();
      this.search(Number(event.submitter.dataset.way));
    });
    $("query").addEventListener("keydown", (event) => this.typed(event));
    document.addEventListener("keydown", (event) => this.key(event));
    addEventListener("popstate", () => this.goTo(this.asked() ?? this.run.position));
  }

  typed(event) {
    event.stopPropagation();
    if (event.key === "Escape") $("slider").focus();
    if (event.key !== "Enter") return;
    event.preventDefault();
    this.search(event.shiftKey ? -1 : 1);
  }

  // A key anywhere but where text is typed, or where the key has a meaning of its own.
  key(event) {
    if (event.ctrlKey || event.altKey || event.metaKey || event.defaultPrevented || $("help").open) return;
    const target = event.target;
    if (target === $("slider") && /^(Arrow|Home|End|Page)/.test(event.key) || target === $("files")) return;
    if (this.press(event.key)) event.preventDefault();
  }

  // Does what a key says; whether there is such a key.
  press(key) {
    const { run } = this, depth = run.depths[run.position];
    const keys = {
      ArrowLeft: () => this.goTo(run.position - 1),
      ArrowRight: () => this.goTo(run.position + 1),
      n: () => this.goNear(1, (at) => run.depths[at] <= depth),
      N: () => this.goNear(-1, (at) => run.depths[at] <= depth),
      f: () => this.goOut(1, depth),
      F: () => this.goOut(-1, depth),
      s: () => this.findSlot(run.slots[run.position], 1),
      S: () => this.findSlot(run.slots[run.position], -1),
      l: () => this.findHere(1),
      L: () => this.findHere(-1),
      Home: () => this.jump(0, "the first step that is shown"),
      End: () => this.jump(run.length, "the end"),
      b: () => this.jumps && history.back(),
      "/": () => $("query").select(),
      "?": () => $("help").showModal(),
    };
    if (!Object.hasOwn(keys, key)) return false;
    keys[key]();
    return true;
  }

  // Goes to the nearest position of a kind, or as far as there are steps.
  goNear(way, asks) {
    this.goTo(this.run.find(way, asks) ?? (way > 0 ? this.run.length : 0));
  }

  // Goes out of the present function.
  goOut(way, depth) {
    if (depth) this.goNear(way, (at) => this.run.depths[at] < depth);
    else this.say("this is the outermost function");
  }

  findSlot(slot, way) {
    this.follow({ asks: (at) => this.run.slots[at] === slot, told: `slot ${slot}` }, way);
  }

  findLine(line, way) {
    this.follow(lineQuestion(this.run, this.names, this.run.told.files[this.file].name, line), way);
  }

  // The present line's next run, or the one before.
  findHere(way) {
    const found = this.names.lines.get(this.run.slots[this.run.position]);
    if (!found) return this.say("no line is known here");
    this.openFile(found.file);
    this.findLine(found.line, way);
  }

  search(way) {
    const text = $("query").value.trim();
    if (text) this.follow(questionOf(this.run, this.names, text), way);
  }

  // Goes to the next position that answers a question; behind the last one it begins again.
  follow({ asks, told, fault, position }, way) {
    const { run } = this;
    if (fault) return this.say(fault);
    if (position !== undefined) return this.jump(position, told);
    let count = 0, before = 0, found = run.find(way, asks), around = "";
    for (let at = 0; at <= run.length; at++) if (asks(at)) {
      count++;
      before += at <= (found ?? -1) ? 1 : 0;
    }
    if (!count) return this.say(`${told}: no step that is shown`);
    if (found === undefined) {
      for (found = way > 0 ? 0 : run.length; !asks(found);) found += way;
      before = way > 0 ? 1 : count;
      around = way > 0 ? ", from the start again" : ", from the end again";
    }
    this.jump(found, `${told}: ${before} of ${count}${around}`);
  }

  // Goes to the step that wrote a register or a byte: to the machine before it.
  goToWriterOf(place) {
    const { run } = this, what = typeof place === "number" ? this.names.place(run, BigInt(place)) || hex(place) : `r${place.register}`;
    const region = typeof place === "number" ? run.regionAt(place) : null;
    if (region === undefined) return this.say(`${hex(place)}: there is no memory`);
    const by = region ? region.writers[place - region.start] : run.writers[place.register];
    this.memory.selected = region ? place : null;
    this.curve.marked = [];
    for (let at = 0; at < run.length; at++) if (run.writes(at, place)) this.curve.marked.push(at);
    if (!by) {
      this.say(`${what}: not written ${run.before ? `in the steps that are shown, from ${run.told.first} on` : "before this: as at the opening"}`);
      this.show();
    } else this.jump(by - 1 - run.before, `${what} is written by step ${by}, which is next here`);
  }

  // Goes to a position from which 'back' leads here again.
  jump(position, told) {
    if (position !== this.run.position) {
      this.keep();
      try {
        history.pushState({ jumps: this.jumps + 1 }, "");
      } catch { /* (too many in a short time: then there is no way back by 'back') */ }
      this.goTo(position);
      this.keep();
    } else this.show();
    this.say(told);
  }

  // Keeps the step in the page's address.
  keep() {
    clearTimeout(this.timer);
    try {
      history.replaceState(history.state, "", `#step=${this.run.step}`);
    } catch { /* (a browser may refuse many in a short time) */ }
  }

  goTo(position) {
    this.run.goTo(Math.max(0, Math.min(this.run.length, position)));
    this.jumps = history.state ? history.state.jumps : 0;
    this.say("");
    this.show();
    clearTimeout(this.timer);
    this.timer = setTimeout(() => this.keep(), 250);
  }

  say(text) {
    tell($("said"), text);
  }

  // Shows the present state.
  show() {
    const { run, names } = this, slot = run.slots[run.position], line = names.lines.get(slot);
    $("slider").value = run.position;
    $("slider").setAttribute("aria-valuetext", `step ${run.step} of ${run.told.steps}, ${names.functionOf(slot)} ${names.lineOf(slot)}`);
    $("back").disabled = !this.jumps;
    this.showNow(slot);
    if (line) this.openFile(line.file);
    this.source.show(line ? line.line : null);
    this.listing.show(slot);
    this.showRegisters();
    this.showFrames(slot);
    this.showWords();
    this.memory.show();
    this.curve.draw();
  }

  // The line that says where the run is, and what the next step will write.
  showNow(slot) {
    const { run, names } = this, next = run.position < run.length ? run.changes[run.position] : [];
    const place = [names.functionOf(slot), names.lineOf(slot)].filter(Boolean).join(" · ");
    const pieces = [element("b", "", `step ${run.step.toLocaleString("en")}`), ` of ${run.told.steps.toLocaleString("en")}`];
    if (run.hasEnded()) pieces.push(element("span", $("end").className, run.end));
    else pieces.push(element("span", "next", "next ", element("code", "", `${slot}: ${run.at.get(slot).text}`)));
    const told = next.filter((change) => change.register !== undefined && change.by === run.step + 1 || change.region && change.by || change.word).map((change) => changeText(change));
    if (told.length) pieces.push(element("code", "effect", `→ ${told.join(", ")}`));
    if (place && !(run.hasEnded() && tellsPlace(run.end))) pieces.push(element("span", "place", place));
    $("now").replaceChildren(...pieces);
    $("now").classList.toggle("ended", run.hasEnded());
  }

  showRegisters() {
    const { run, names } = this, rows = $("registers").tBodies[0].rows, instruction = run.at.get(run.slots[run.position]);
    const next = run.position < run.length ? run.changes[run.position] : [];
    run.registers.forEach((value, register) => {
      const [, hexadecimal, number, meaning, writer] = rows[register].cells, by = run.writers[register];
      tell(hexadecimal, hex(value));
      tell(number, `${signed(value)}`);
      tell(meaning, names.meaning(run, value));
      meaning.title = meaning.textContent;
      tell(writer.firstChild, by ? `step ${by}` : run.before ? "before" : "opening");
      writer.firstChild.setAttribute("aria-label", by ? `r${register} was written by step ${by}: go there` : `r${register} was not written`);
      const used = instruction && !run.hasEnded() && new RegExp(`\\br${register}\\b`).test(instruction.text);
      const writes = next.some((change) => change.register === register && change.by === run.step + 1);
      rows[register].className = [by === run.step && by ? "wrote" : "", writes ? "writes" : used ? "reads" : ""].filter(Boolean).join(" ");
    });
  }

  // The frames, the innermost first, each with where it is and a button to its call.
  showFrames(slot) {
    const { run, names } = this, made = [];
    for (let depth = run.frames.length; depth >= 0; depth--) {
      const here = depth === run.frames.length ? slot : run.frames[depth].returns - 1, frame = depth ? run.frames[depth - 1] : null;
      const line = names.lineOf(here), item = element("li", "", element("b", "", names.functionOf(here) || `depth ${depth}`), ` at ${here}`, element("span", "place", line ? ` ${line}` : ""));
      if (frame) {
        const button = element("button", "writer", frame.by ? `called by step ${frame.by}` : "called before");
        button.type = "button";
        button.disabled = !frame.by;
        button.addEventListener("click", () => this.jump(frame.by - 1 - run.before, `the call of ${names.functionOf(here)}`));
        item.append(" ", button);
        item.title = `returns to ${frame.returns}; then ${frame.saved.map((value, index) => `r${6 + index} = ${hex(value)}`).join(", ")}`;
      }
      made.push(item);
    }
    $("frames").replaceChildren(...made);
  }

  showWords() {
    const { run } = this;
    $("traced").hidden = !run.words.length;
    $("words").replaceChildren(...run.words.map(({ value, by }) => {
      const button = element("button", "writer", by ? `step ${by}` : "before");
      button.type = "button";
      button.disabled = !by;
      button.addEventListener("click", () => this.jump(by - 1 - run.before, "the step that traced this word"));
      return element("li", "", element("code", "", `${hex(value)} (${signed(value)})`), " ", button);
    }));
  }
}

// Whether bpfdb's line of how a run ended tells where that is in C.
function tellsPlace(end) {
  return end.includes("; in ");
}

// What a change writes, as bpfdb says it.
function changeText(change) {
  if (change.word) return `traces ${hex(change.word.value)}`;
  if (change.register !== undefined) return `r${change.register} = ${hex(change.value)}`;
  const start = hex(change.region.start + change.at), size = change.bytes.length;
  const value = [...change.bytes].reverse().reduce((sum, byte) => sum << 8n | BigInt(byte), 0n);
  return size > 8 ? `${start}:${size}` : `${start}:${size} = ${hex(value)}`;
}

// Where the address of a bad access lies: behind which region, by how many bytes.
function whereabouts(run, address) {
  const regions = run.regions.filter((region) => region.bytes.length), at = Number(address);
  const inside = address <= BigInt(Number.MAX_SAFE_INTEGER) ? run.regionAt(at) : undefined;
  if (inside && inside.start >= STACK && inside.start < MAPS && (inside.start - STACK) / FRAME_STRIDE > run.depths[run.length]) return `the stack of a call that isn't there (${inside.name})`;
  if (inside) return `only ${several(inside.end - at, "byte")} before the end of ${inside.name}`;
  const below = regions.findLast((region) => BigInt(region.end) <= address);
  if (!below) return address < 4096n ? "a null pointer, or near it" : `below all memory, which begins at ${hex(regions[0].start)}`;
  const far = address - BigInt(below.end);
  return far > 1n << 40n ? "far behind all memory" : `${several(Number(far), "byte")} behind the end of ${below.name} (${hex(below.start)} to ${hex(below.end - 1)})`;
}

async function begin() {
  try {
    if (typeof DecompressionStream === "undefined") throw new Error("this browser is too old for it (of 2023 or later is new enough)");
    const told = JSON.parse($("run").textContent);
    window.page = new Page(new Run(told, await unpacked($("steps").textContent)));
  } catch (fault) {
    $("panels").before(element("p", "trouble", `This page can't show its run: ${fault.message}.`));
    throw fault;
  }
}

begin();
