"use strict";
// The memory of a run, as rows of bytes.

// The memory that the run touched: rows of bytes, of which those in sight are in the page.
class MemoryView {
  constructor(run, names, box, goToWriter) {
    Object.assign(this, { run, names, box, goToWriter, cursor: null, width: 0, selected: null });
    this.touched = touchedBy(run);
    this.inner = element("div", "inner");
    box.append(this.inner);
    box.addEventListener("scroll", () => this.draw());
    box.addEventListener("click", (event) => this.go(event.target.dataset.address));
    box.addEventListener("keydown", (event) => this.key(event));
    new ResizeObserver(() => this.measure()).observe(box);
    this.measure();
  }

  // How many bytes a row has room for, and the rows that follow.
  measure() {
    const width = this.box.clientWidth < 500 ? 8 : 16;
    if (width !== this.width) {
      this.width = width;
      this.rows = memoryRows(this.run, this.names, this.touched, width);
    }
    this.inner.style.height = `${this.rows.length * ROW}px`;
    this.draw();
  }

  // Shows the present state, and what the last step wrote and the next one touches.
  show() {
    const run = this.run, last = run.position ? run.changes[run.position - 1] : [], next = run.position < run.length ? run.changes[run.position] : [];
    this.wrote = bytesOf(last.filter((change) => change.by));
    this.writes = bytesOf(next.filter((change) => change.by));
    this.reads = new Set(run.reads[run.position].flatMap(([start, size]) => Array.from({ length: size }, (_, at) => Number(start) + at)));
    const seen = [...this.writes, ...this.reads, ...this.wrote][0];
    if (seen !== undefined) this.bring(seen);
    this.draw();
  }

  rowOf(address) {
    return this.rows.findIndex((each) => each.start !== undefined && address >= each.start && address < each.start + this.width);
  }

  bring(address) {
    const at = this.rowOf(address), top = at * ROW, room = this.box.clientHeight;
    if (at < 0 || top >= this.box.scrollTop + ROW && top + ROW <= this.box.scrollTop + room) return;
    this.box.scrollTop = Math.max(0, top - (room - ROW) / 2);
  }

  draw() {
    if (!this.wrote) return;
    const first = Math.max(0, Math.floor(this.box.scrollTop / ROW) - 4), last = Math.min(this.rows.length, first + Math.ceil(this.box.clientHeight / ROW) + 9);
    const drawn = [];
    for (let at = first; at < last; at++) {
      const made = this.rows[at].start === undefined ? headingRow(this.rows[at]) : this.byteRow(this.rows[at]);
      made.style.top = `${at * ROW}px`;
      made.setAttribute("aria-rowindex", at + 1);
      drawn.push(made);
    }
    this.inner.replaceChildren(...drawn);
    this.box.setAttribute("aria-rowcount", this.rows.length);
    if (this.cursor !== null && $(`m${this.cursor}`)) this.box.setAttribute("aria-activedescendant", `m${this.cursor}`);
    else this.box.removeAttribute("aria-activedescendant");
  }

  byteRow({ start, region, label: [name, offset] }) {
    // (where there is no room for all of it, a part of the name is left out, and never the offset)
    const head = element("span", "address", hex(start), element("i", "name", name && ` ${name}`), element("i", "", name ? offset : offset && ` ${offset}`));
    head.setAttribute("role", "rowheader");
    head.title = head.textContent;
    const made = element("div", "bytes", head), text = element("span", "text");
    made.setAttribute("role", "row");
    for (let address = start; address < start + this.width; address++) {
      const at = region ? address - region.start : -1, has = at >= 0 && at < region.bytes.length;
      const writer = has ? region.writers[at] : 0, isUnset = has && this.run.isUnset(region, at);
      const cell = element("span", this.classes(address, writer, has && region.bytes[at], isUnset), has ? region.bytes[at].toString(16).padStart(2, "0") : "  ");
      if (has || this.reads.has(address)) this.describe(cell, address, writer, isUnset);
      made.append(cell);
      text.append(element("span", has && region.bytes[at] ? "" : "zero", has ? character(region.bytes[at]) : " "));
    }
    text.setAttribute("aria-hidden", "true");
    made.append(text);
    return made;
  }

  classes(address, writer, value, isUnset) {
    const marks = [["zero", !value], ["own", writer], ["unset", isUnset], ["wrote", this.wrote.has(address)], ["writes", this.writes.has(address)],
      ["reads", this.reads.has(address)], ["cursor", this.cursor === address], ["selected", this.selected === address]];
    return marks.filter(([, holds]) => holds).map(([name]) => name).join(" ");
  }

  // What is said of a byte: its address, its place, and which step wrote it.
  describe(cell, address, writer, isUnset) {
    cell.id = `m${address}`;
    cell.dataset.address = address;
    cell.setAttribute("role", "gridcell");
    const place = this.names.place(this.run, BigInt(address));
    const wrote = writer ? `written by step ${writer}: ${this.run.slots[writer - 1 - this.run.before]}: ${this.run.at.get(this.run.slots[writer - 1 - this.run.before]).text}` : isUnset ? "not written since the call" : "not written";
    cell.title = `${hex(address)}${place ? ` (${place})` : ", no memory"}; ${wrote}`;
    cell.setAttribute("aria-label", `${cell.textContent}, ${cell.title}`);
  }

  go(address) {
    if (address === undefined) return;
    this.cursor = Number(address);
    this.goToWriter(Number(address));
  }

  key(event) {
    const by = { ArrowLeft: -1, ArrowRight: 1, ArrowUp: -this.width, ArrowDown: this.width }[event.key];
    if (event.key === "Enter" && this.cursor !== null) this.go(this.cursor);
    else if (by) this.moveCursor(by);
    else return;
    event.preventDefault();
    event.stopPropagation();
  }

  // Moves the cursor to the next byte that is shown.
  moveCursor(by) {
    const rows = this.rows.filter((each) => each.start !== undefined);
    if (!rows.length) return;
    const at = this.cursor === null ? -1 : rows.findIndex((each) => this.cursor >= each.start && this.cursor < each.start + this.width);
    if (at < 0) this.cursor = rows[0].start;
    else {
      const column = this.cursor - rows[at].start + (Math.abs(by) === 1 ? by : 0);
      const next = rows[at + (Math.abs(by) > 1 ? Math.sign(by) : Math.floor(column / this.width))];
      if (next) this.cursor = next.start + (column + this.width) % this.width;
    }
    this.bring(this.cursor);
    this.draw();
  }
}

// The height of a row of memory, in pixels.
const ROW = 19;

// The addresses of bytes that changes write.
function bytesOf(changes) {
  const found = new Set();
  for (const change of changes) if (change.region) for (let at = 0; at < change.bytes.length; at++) found.add(change.region.start + change.at + at);
  return found;
}

// Eight bytes at a time, what the run wrote or read in the steps that are shown, and what was there before them and isn't zero.
function touchedBy(run) {
  const touched = new Set(), touch = (start, size) => {
    for (let at = Math.floor(start / 8); at <= Math.floor((start + size - 1) / 8); at++) touched.add(8 * at);
  };
  for (const region of run.regions) region.bytes.forEach((byte, at) => byte && touch(region.start + at, 1));
  for (let at = 0; at < run.length; at++) {
    for (const [start, size] of run.reads[at]) if (start <= Number.MAX_SAFE_INTEGER) touch(Number(start), size);
    for (const change of run.changes[at]) if (change.region && change.by) touch(change.region.start + change.at, change.bytes.length);
  }
  for (const [start, size] of run.reads[run.length]) if (start <= Number.MAX_SAFE_INTEGER) touch(Number(start), size);
  return touched;
}

// The rows of memory: a heading for each region, and rows of bytes; what lies between two rows and wasn't touched is left out.
function memoryRows(run, names, touched, width) {
  const starts = [...new Set([...touched].map((address) => Math.floor(address / width) * width))].sort((one, other) => one - other), rows = [];
  let region = null;
  for (const start of starts) {
    const here = run.regions.find((each) => start < each.end && start + width > each.start);
    if (here !== region || !here) rows.push(headingOf(run, names, here));
    region = here;
    rows.push({ start, region: here, label: here ? labelOf(run, here, start) : ["", ""] });
  }
  return rows;
}

// What stands beside an address, a name and an offset: how far it is from r10, or within its variable or region.
function labelOf(run, region, start) {
  if (region.start >= STACK && region.start < MAPS) return ["", `r10${start - region.end}`];
  const variable = run.told.variables.findLast(([place, size]) => start >= place && start < place + size);
  if (variable) return [variable[2], start > variable[0] ? `+${start - variable[0]}` : ""];
  return ["", region.bytes.length > 16 ? `+${start - region.start}` : ""];
}

// The heading of a region.
function headingOf(run, names, region) {
  if (!region) return { heading: "no memory", small: "where an access failed" };
  if (region.start >= MAPS) {
    const [value, entries, name] = run.told.maps[(region.start - MAPS) / MAP_STRIDE];
    // (a section of data is one piece, whatever values bpfdb has it as)
    const isData = name.startsWith(".") || run.told.variables.some(([start]) => start >= region.start && start < region.end);
    return { heading: region.name, small: isData ? `${several(region.bytes.length, "byte")} of data` : `${several(entries, "value")} of ${several(value, "byte")}` };
  }
  if (region.start >= STACK) return { heading: region.name, small: "r10 is its end" };
  return { heading: region.name, small: `${several(region.bytes.length, "byte")}${run.told.context ? " of " + run.told.context : ""}` };
}

function headingRow({ heading, small }) {
  const made = element("div", "region", heading, element("small", "", small || ""));
  made.setAttribute("role", "row");
  return made;
}
