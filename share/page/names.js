"use strict";
// What slots, addresses and values are called.

class Names {
  constructor(told) {
    this.told = told;
    this.functions = new Map(told.functions);
    this.labels = new Map([...told.labels, ...told.functions]);
    this.lines = new Map(told.lines.map(([slot, file, line]) => [slot, { file, line }]));
    this.starts = told.functions.map(([slot]) => slot);
  }

  // The function of a slot.
  functionOf(slot) {
    const start = this.starts.findLast((each) => each <= slot);
    return this.functions.get(start) || "";
  }

  // The line of a slot, as FILE:LINE; empty where none is known.
  lineOf(slot) {
    const found = this.lines.get(slot);
    return found ? `${this.told.files[found.file].name}:${found.line}` : "";
  }

  // An address by its region, counted as a reader would; empty outside of all regions.
  place(run, address) {
    const at = Number(address), region = at <= Number.MAX_SAFE_INTEGER ? run.regionAt(at) : undefined;
    if (!region) {
      const below = run.regions.find((each) => each.end === at && each.bytes.length);
      return below ? below.start >= STACK && below.start < MAPS ? this.stackPlace(run, below, at) : `end of ${below.name}` : "";
    }
    if (region.start >= STACK && region.start < MAPS) return this.stackPlace(run, region, at);
    const variable = this.told.variables.findLast(([start, size]) => at >= start && at < start + Math.max(size, 1));
    const [start, name] = variable ? [variable[0], variable[2]] : [region.start, region.name];
    return at === start && variable ? name : `${name}+${at - start}`;
  }

  stackPlace(run, region, at) {
    const depth = (region.start - STACK) / FRAME_STRIDE;
    const place = at === region.end ? "r10" : `r10${at - region.end}`;
    return depth === run.frames.length ? place : `${place} at depth ${depth}`;
  }

  // What a word may mean: a place in memory, or characters.
  meaning(run, value) {
    const place = this.place(run, value);
    if (place) return place;
    const text = [];
    for (let rest = value; rest; rest >>= 8n) text.push(Number(rest & 255n));
    return text.length && text.every((byte) => byte >= 32 && byte < 127) ? JSON.stringify(String.fromCharCode(...text)) : "";
  }
}
