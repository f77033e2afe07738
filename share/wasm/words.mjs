// The line of words: what a line says, and what it says of the same file with another subcommand.

// Options with a value, those of linking, and which subcommands take a context, maps and the kinds of files.
const WITH_VALUE = new Set(["-m", "--mem", "--packet", "--maps", "--regs", "--journal", "--steps", "--registers", "--section", "--entry", "--entries", "--helper", "--stub", "--with", "--struct", "--fields", "--script",
  "--other-mem", "--other-packet", "--trace", "--lines", "--from", "--count", "--only", "--show", "-o", "--output"]);
const LINKING = new Set(["--section", "--entry", "--entries", "--helper", "--stub", "--as-compiled", "--fields", "--struct", "--with"]);
const RUNS = ["run", "debug", "trace", "origin", "whynot", "diff"];
const OFFERED = {
  listing: [...RUNS, "check", "load", "asm", "lines", "disasm"],
  object: [...RUNS, "check", "load", "link", "lines", "disasm"],
  words: [...RUNS, "check", "load", "disasm"],
  tests: ["test"],
};
// Those that want one more word: a place, or a second program or context.
export const UNFINISHED = new Set(["whynot", "diff"]);

/** The words of a line, and the name behind `>` at its end, if there is one: blanks part words, and quotes keep them. Throws what is wrong with it. */
export function split(line) {
  const words = [];
  let rest = line.trim(), to;
  while (rest) {
    const word = /^(?:[^\s"'>]|"[^"]*"|'[^']*')+/.exec(rest)?.[0];
    if (word) words.push(word.replace(/"([^"]*)"|'([^']*)'/g, (_, double, single) => double ?? single));
    else if (rest[0] !== ">") throw new Error("a quote is not closed");
    rest = rest.slice(word?.length ?? 1).trimStart();
    if (!word) {
      to = split(rest);
      if (to.words.length !== 1 || to.to !== undefined) throw new Error("one name stands behind >");
      return { words, to: to.words[0] };
    }
  }
  return { words, to };
}

/** A word as it is written in a line. */
export function quoted(word) {
  if (word && !/[\s"'>]/.test(word)) return word;
  return word.includes("'") ? `"${word}"` : `'${word}'`;
}

/** What a file is by its name. */
export function kindOf(name) {
  if (name.endsWith(".s")) return "listing";
  if (name.endsWith(".o")) return "object";
  return name.endsWith(".test") ? "tests" : "words";
}

/** The file that a command line is about, what it is, and the options that others may take over; nothing where it names no file. */
export function subject([subcommand, ...rest]) {
  const options = [];
  let file;
  while (rest.length) {
    const word = rest.shift(), [name] = word.split("=", 1);
    if (!word.startsWith("-")) file ??= word;
    else options.push({ name, words: WITH_VALUE.has(word) && rest.length ? [word, rest.shift()] : [word] });
  }
  if (file === undefined) return undefined;
  const has = (name) => options.some((option) => option.name === name);
  if (has("--listing") || subcommand === "asm") return { file, options, kind: "listing" };
  if (has("--object") || subcommand === "link") return { file, options, kind: "object" };
  return { file, options, kind: subcommand === "test" ? "tests" : kindOf(file) };
}

/** The subcommands for a file, and for each the line that is about it. */
export function lines({ file, options, kind }) {
  const of = (...names) => options.filter((option) => names.includes(option.name)).flatMap((option) => option.words);
  const linking = options.filter((option) => LINKING.has(option.name)).flatMap((option) => option.words);
  const line = (subcommand) => {
    const words = [subcommand];
    if (RUNS.includes(subcommand)) words.push(...of("-m", "--mem", "--packet", "--regs"));
    if ([...RUNS, "check", "load", "disasm"].includes(subcommand)) words.push(...of("--maps"));
    if (kind === "listing" && kindOf(file) !== kind && !["asm", "lines"].includes(subcommand)) words.push("--listing");
    if (kind === "object") words.push(...(kindOf(file) === kind || subcommand === "link" ? [] : ["--object"]), ...linking);
    const text = [...words, file].map(quoted).join(" ");
    return ["asm", "link"].includes(subcommand) ? `${text} > ${quoted(file.replace(/\.[so]$/, "") + ".bin")}` : text;
  };
  return OFFERED[kind].map((subcommand) => ({ subcommand, line: line(subcommand) }));
}
