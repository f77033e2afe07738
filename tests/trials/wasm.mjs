// Runs bpfdb.mjs in the place of many short processes: node wasm.mjs BPFDB.mjs FOLDER. A process that wants a run (asks.c) writes its number as a line to the pipe
// FOLDER/asked, and reads the status from the pipe FOLDER/NUMBER. Its words, its folder and its standard streams are those that the system tells of it.
import fs from "node:fs";
import { pathToFileURL } from "node:url";

const [, , command, folder] = process.argv;
const { execute } = await import(pathToFileURL(command));
// (its first word is the program)
const OWN_WORDS = 1;

// The words of a process, as bytes.
function wordsOf(asking) {
  const text = fs.readFileSync(`/proc/${asking}/cmdline`), words = [];
  for (let at = 0, end; (end = text.indexOf(0, at)) >= 0; at = end + 1) words.push(text.subarray(at, end));
  return words.slice(OWN_WORDS);
}

// A standard stream of a process, anew; -1 where it is closed. A file's place is the other process's: so it is written at its end, where that process moves its own place
// behind the run, and read from its beginning.
function stream(asking, number) {
  try {
    return fs.openSync(`/proc/${asking}/fd/${number}`, number ? "a" : "r");
  } catch {
    return -1;
  }
}

function serve(asking) {
  const streams = [0, 1, 2].map((number) => stream(asking, number));
  process.chdir(fs.readlinkSync(`/proc/${asking}/cwd`));
  const status = execute(wordsOf(asking), { streams });
  for (const each of streams) if (each >= 0) fs.closeSync(each);
  fs.writeFileSync(`${folder}/${asking}`, `${status}\n`);
}

const asked = fs.openSync(`${folder}/asked`, "r+"), room = Buffer.alloc(4096);
for (let rest = ""; ; ) {
  rest += room.toString("latin1", 0, fs.readSync(asked, room, 0, room.length, null));
  const lines = rest.split("\n");
  rest = lines.pop();
  for (const line of lines) {
    if (line === "end") process.exit(0);
    serve(line);
  }
}
