"use strict";
// What can be searched for: a question over positions of the run, made of what was typed.

const COMPARISONS = {
  "<": (one, other) => one < other, "<=": (one, other) => one <= other, ">": (one, other) => one > other, ">=": (one, other) => one >= other,
  "==": (one, other) => one === other, "=": (one, other) => one === other, "!=": (one, other) => one !== other,
};

// A number as bpfdb reads it, with a minus sign or without; null for none.
function numberIn(text) {
  if (!/^-?(0x[0-9a-f]+|\d+)$/i.test(text)) return null;
  const value = BigInt(text.replace("-", ""));
  return value >= 1n << 64n ? null : text.startsWith("-") ? -value : value;
}

// The question of a text, {asks, told}: whether a position answers it, and what it is about; or {fault}, why there is none.
function questionOf(run, names, text) {
  const compared = /^(r10|r\d)\s*(<=|>=|==|!=|=|<|>)\s*(\S+)$/.exec(text);
  if (compared) return comparison(run, Number(compared[1].slice(1)), compared[2], numberIn(compared[3]));
  if (/^(r10|r\d)$/.test(text)) return writersOf(run, { register: Number(text.slice(1)) }, text);
  if (/^0x[0-9a-f]+$/i.test(text) && Number(text) >= CONTEXT) return writersOf(run, Number(text), text);
  const step = /^(?:step |#|@)\s*(\d+)$/.exec(text);
  if (step) return stepQuestion(run, Number(step[1]));
  const slot = /^(?:slot )?(0x[0-9a-f]+|\d+)$/i.exec(text);
  if (slot) return slotQuestion(run, Number(slot[1]));
  const line = /^(.+):(\d+)$/.exec(text);
  if (line) return lineQuestion(run, names, line[1], Number(line[2]));
  for (const [start, name] of [...names.told.functions, ...names.told.labels]) if (name === text) return at(run, new Set([start]), text);
  const variable = names.told.variables.find(([, , name]) => name === text);
  if (variable) return writersOf(run, variable[0], text, variable[1]);
  return { fault: `nothing is called ${text}` };
}

// Positions at which a register holds what was asked, where it didn't at the one before: signed where the number is negative.
function comparison(run, register, sign, number) {
  if (number === null) return { fault: "that is no number" };
  const values = run.valuesOf(register), compare = COMPARISONS[sign];
  const holds = (position) => compare(number < 0n ? signed(values[position]) : values[position], number);
  return { asks: (position) => holds(position) && (position === 0 || !holds(position - 1)), told: `r${register} ${sign} ${number}` };
}

// Positions before a step that writes a register, or one of some bytes.
function writersOf(run, place, told, size = 1) {
  return { asks: (position) => run.writes(position, place, size), told: `a step that writes ${told}` };
}

function at(run, slots, told) {
  return { asks: (position) => slots.has(run.slots[position]), told };
}

function stepQuestion(run, step) {
  const position = step - run.before;
  return position < 0 || position > run.length ? { fault: `step ${step} isn't shown` } : { position, told: `step ${step}` };
}

function slotQuestion(run, slot) {
  return run.at.has(slot) ? at(run, new Set([slot]), `slot ${slot}`) : { fault: `no instruction begins at slot ${slot}` };
}

// Positions at which a line begins: its first slot of several in a row.
function lineQuestion(run, names, file, line) {
  const index = names.told.files.findIndex(({ name }) => name === file);
  if (index < 0) return { fault: `there is no source ${file}` };
  const holds = (position) => {
    const found = names.lines.get(run.slots[position]);
    return found && found.file === index && found.line === line;
  };
  if (![...names.lines.values()].some((each) => each.file === index && each.line === line)) return { fault: `line ${line} of ${file} has no instruction` };
  return { asks: (position) => holds(position) && (position === 0 || !holds(position - 1)), told: `${file}:${line}` };
}
