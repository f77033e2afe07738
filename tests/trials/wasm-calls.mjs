// bpfdb.mjs as a module: node wasm-calls.mjs BPFDB.mjs EXAMPLES. What differs is a line 'FAILED: ..'; the last line counts the trials.
import fs from "node:fs";
import { pathToFileURL } from "node:url";

const [, , path, examples] = process.argv;
const { about, run } = await import(pathToFileURL(path));
let count = 0, failures = 0;

function same(what, wanted, found) {
  count++;
  if (wanted === found) return;
  failures++;
  console.log(`FAILED: ${what}\n  wanted: ${JSON.stringify(wanted)}\n  found:  ${JSON.stringify(found)}`);
}

const text = (bytes) => new TextDecoder().decode(bytes);
// What a run came to: its status, standard output and standard error, between bars.
const told = async (words, options) => {
  const { status, out, err } = await run(words, options);
  return `${status}|${text(out)}|${text(err)}`;
};
const file = (name) => new Uint8Array(fs.readFileSync(`${examples}/${name}`));

const two = { "two.s": "mov r0, 2\nexit\n" };
same("a listing", "0|0x2\n|", await told(["run", "--listing", "two.s"], { files: two }));
same("a session", "0|1 forward; done; at 1: exit\n|", await told(["debug", "--listing", "two.s"], { files: two, input: "stepi\n" }));
same("a file that is not there", "2||cannot read none.s\n", await told(["run", "--listing", "none.s"], { files: two }));
same("a name with a letter of two bytes", "0|0x2\n|", await told(["run", "--listing", "zwölf.s"], { files: { "zwölf.s": two["two.s"] } }));

// The story of README: its session and its question.
const overrun = { "overrun.bin": file("overrun/program.bin"), "context.bin": file("overrun/context.bin") };
same("where the address came from", `0|fault access 0x10077656d at 25
-2 r1 = 0x10077656d; 24: ldxdw r1, [r1+8]; from 0x2000001f8:8
-8 0x2000001fa:1 = 0x77; 20: stxb [r5+0], r0; from r0
-9 r0 = 0x77; 19: ldxb r0, [r0+0]; from 0x10000000c:1
cut: there are more lines
|`.replace("0|", "1|"), await told(["origin", "--lines", "3", "-m", "context.bin", "overrun.bin"], { files: overrun }));

// And the other one: the packet that passes, and why one of IPv6 does not come to a line of C.
const hex = (name) => new Uint8Array(Buffer.from(fs.readFileSync(`${examples}/${name}`, "latin1").replace(/\s/g, ""), "hex"));
const firewall = { "firewall.bin": file("firewall/program.bin"), "context.bin": file("firewall/context.bin"), "ipv6.bin": file("firewall/ipv6.bin"),
  "firewall.o": hex("firewall/object.hex") };
same("a packet that should be dropped", "0|0x2\n|", await told(["run", "--maps", "8x5", "-m", "context.bin", "firewall.bin"], { files: firewall }));
same("why not", "0|exited at 12: r0 0x2\n-14 31: jne r5, 8, L52; r5 = 0xdd86; jumped to 52; in firewall (firewall.c:47)\n|", await told(
  ["whynot", "--alone", "--object", "-m", "ipv6.bin", "firewall.o", "firewall.c:54"], { files: firewall }));

// 64 bits, to their last one.
const large = { "large.s": "lddw r0, 0xfedcba9876543210\nlddw r1, 0x8000000000000003\nmul r0, r1\nexit\n" };
same("a product of 64 bits", "0|0xfc962fc962fc9630\n|", await told(["run", "--listing", "large.s"], { files: large }));

// The largest context, and the longest line of standard input.
const last = { "last.s": "add r1, r2\nldxb r0, [r1-1]\nexit\n", context: new Uint8Array(65536).fill(1, 0, 65535).fill(7, 65535) };
same("the last byte of the largest context", "0|0x7\n|", await told(["run", "-m", "context", "--listing", "last.s"], { files: last }));
same("a context that is too large", "2||", (await told(["run", "-m", "context", "--listing", "last.s"], { files: { ...last, context: new Uint8Array(65537) } })).slice(0, 3));

// What has no room is refused in bpfdb's own words: memory, and output.
const journal = ["origin", "--journal", "16777216", "--listing", "two.s"];
same("little memory", "2||refused J2: out of memory\n", await told(journal, { files: two, memory: 5 << 20 }));
same("enough memory", "0", (await told(journal, { files: two, memory: 64 << 20 })).slice(0, 1));
same("too little to begin", "bpfdb needs 4194304 bytes of memory at least", await run(["--version"], { memory: 1 << 20 }).catch((error) => error.message));
same("output that is full", "2|0x|cannot write output\n", await told(["run", "--listing", "two.s"], { files: two, room: 2 }));

// One run leaves nothing to the next.
for (let i = 0; i < 20; i++) same("again", "0|0x2\n|", await told(["run", "--listing", "two.s"], { files: two }));
same("what the module says of itself", true, about().startsWith("bpfdb ") && about().includes("Trusted besides"));
console.log(`${count} trials, ${failures} failed`);
process.exit(failures ? 1 : 0);
