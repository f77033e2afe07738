"""What `--json` prints, held against the lines that are printed without it: each line is read by Python's json, and compared with the object
that a table of regular expressions makes of the line; and what `origin --dot` does (dots.py). jsons.py PROGRAM FOLDER [SEED COUNT]: the programs of FOLDER are tried, and so many at random."""
import json
import os
import random
import re
import subprocess
import sys

import dots

PART = r"(?:r\d+(?: at depth \d)?|0x[0-9a-f]+(?::\d+)?|word \d+)"
COUNT = {"step", "slot", "moves", "limit", "steps", "count", "instructions", "slots", "line", "tests", "test", "map", "index", "more", "ran",
         "both", "branches", "to", "byte", "context", "after", "caller_line"}


def row(kind, pattern, **given):
    return kind, re.compile(pattern, re.S), given


IN_C = r"(?:; in (?P<function>.*?) \((?P<file>.*?):(?P<line>[0-9]{1,15})\))?"
CALLED = r"(?:; called by (?P<caller>.*?) \((?P<caller_file>.*?):(?P<caller_line>[0-9]{1,15})\))?"
PLACES = [
    row("at", r"at (?P<slot>\d+): (?P<insn>[^;]*)" + IN_C),
    row("exited", r"exited at (?P<slot>\d+): r0 (?P<r0>0x[0-9a-f]+)" + IN_C),
    row("fault", r"fault (?P<fault>access 0x[0-9a-f]+|token 0x[0-9a-f]+|depth) at (?P<slot>\d+)" + IN_C),
    row("limit", r"step limit (?P<limit>\d+) reached at (?P<slot>\d+)" + IN_C),
    row("unwritten", r"read of (?P<address>0x[0-9a-f]+) at (?P<slot>\d+): not written since the call" + IN_C + CALLED),
]
RUN = PLACES + [
    row("reached", r"it was reached (?P<moves>\d+) moves back"),
    row("same", r"same for (?P<steps>\d+) steps"),
    row("parting", r"step (?P<step>\d+) (?P<how>wrote otherwise|went elsewhere|is in one run alone|is told otherwise|is not in the trace)"),
    row("entry", r"(?P<entry>slot|r\d+): (?P<here>\w+) here, (?P<there>\w+) there; here by step (?P<step>\d+), (?P<slot>\d+): (?P<insn>.*)"),
    row("entry", r"(?P<entry>slot|r\d+): (?P<here>\w+) here, (?P<there>\w+) there(?:; here since the start)?"),
]
REPORT = [
    row("plan", r"1\.\.(?P<tests>\d+)"),
    row("passed", r"ok (?P<test>\d+)(?: - (?P<name>.*))?"),
    row("failed", r"not ok (?P<test>\d+)(?: - (?P<name>.*))?"),
    row("place", r"# the test in line (?P<line>\d+)"),
    row("came", r"# came: (?P<came>.*)"),
    row("wanted", r"# wanted: (?P<wanted>.*)"),
    row("debug", r"# debug: (?P<debug>.*)"),
    row("byte", r"# byte (?P<byte>\d+) came: (?P<came>.*)"),
    row("byte", r"# byte (?P<byte>\d+) wanted: (?P<wanted>.*)"),
    row("length", r"# bytes of the context: (?P<context>\d+), of mem-after: (?P<after>\d+)"),
    row("cell", r"# cell (?P<map>\d+) (?P<index>\d+) came: (?P<came>.*)"),
    row("cell", r"# cell (?P<map>\d+) (?P<index>\d+) wanted: (?P<wanted>.*)"),
    row("cells", r"# more wrong cells: (?P<more>\d+)"),
    row("cover", r"# cover of the program in line (?P<line>\d+): (?P<ran>\d+) of (?P<instructions>\d+) instructions, "
                 r"(?P<both>\d+) of (?P<branches>\d+) branches both ways"),
    row("missed", r"# never (?P<never>ran|jumped|went on): (?P<slot>\d+): (?P<insn>.*)"),
]
TABLES = {
    "run": [row("result", r"(?P<r0>[^ ]*) (?P<verdict>.*)"), row("result", r"(?P<r0>.*)")],
    "profile": [row("ran", r"(?P<count>\d+) (?P<slot>\d+): (?P<insn>.*)")] + PLACES,
    "check": [row("ok", r"ok (?P<instructions>\d+) instructions in (?P<slots>\d+) slots")],
    "disasm": [row("label", r"(?P<label>L\d+):"), row("insn", r"(?P<insn>.*)")],
    "sources": [row("line", r"(?P<slot>\d+) - (?P<function>.*)"), row("line", r"(?P<slot>\d+) (?P<file>[^:]*):(?P<line>\d+) (?P<function>.*)")],
    "test": REPORT,
}


def fields(pattern, line):
    found = pattern.fullmatch(line)
    return found and {k: int(v) if k in COUNT else v for k, v in found.groupdict().items() if v is not None}


def by(rows, line):
    for kind, pattern, given in rows:
        found = fields(pattern, line)
        if found is not None:
            return {"kind": kind, **found, **given}
    return {"kind": "text", "text": line}


def moved(text):
    """What is told of a move, by its pieces."""
    told, parts = {}, []
    for piece in text.split("; ") if text else []:
        part = re.fullmatch(rf"({PART})(?: = (0x[0-9a-f]+))?", piece)
        if part:
            parts.append({"part": part[1], **({"value": part[2]} if part[2] else {})})
        elif m := re.fullmatch(r"(\d+): (.*)", piece):
            told |= {"slot": int(m[1]), "insn": m[2]}
        elif piece.startswith("from "):
            told["from"] = re.findall(PART, piece)
        elif m := re.fullmatch(r"in (.*?) \((.*?):([0-9]{1,15})\)", piece):
            told |= {"function": m[1], "file": m[2], "line": int(m[3])}
        elif m := re.fullmatch(r"then at (\d+)", piece):
            told["to"] = int(m[1])
        elif m := re.fullmatch(r"jumped to (\d+)", piece):
            told |= {"way": "jumped", "to": int(m[1])}
        elif m := re.fullmatch(r"in (.*)", piece):
            told["name"] = m[1]
        elif m := re.fullmatch(r"initial value of (.*)", piece):
            told["initial"] = m[1]
        elif m := re.fullmatch(r"byte (\d+) of the context", piece):
            told["byte"] = int(m[1])
        elif m := re.fullmatch(r"(?:at|before|not written since) the (.*)", piece):
            told["since"] = m[1]
        else:
            told["way"] = piece
    return {**told, "parts": parts}


def of_run(line):
    if line[:2] in ("< ", "> "):
        return {"side": line[0], **of_run(line[2:])}
    if m := re.fullmatch(r"(\d+) (\d+): ([^;]*)(?:; (.*))?", line):
        return {"kind": "step", "step": int(m[1]), "slot": int(m[2]), "insn": m[3], **moved(m[4])}
    if m := re.fullmatch(r"-(\d+) (.*)", line):
        return {"kind": "move", "moves": int(m[1]), **moved(m[2])}
    if m := re.fullmatch(r"kept: -(\d+) (.*)", line):
        return {"kind": "kept", "moves": int(m[1]), **moved(m[2])}
    if m := re.fullmatch(r"made: -(\d+) (.*)", line):
        return {"kind": "made", "moves": int(m[1]), **moved(m[2])}
    if m := re.fullmatch(r"overwritten: -(\d+) (.*)", line):
        return {"kind": "overwritten", "moves": int(m[1]), **moved(m[2])}
    if m := re.fullmatch(r"left (.*)", line):
        return {"kind": "left", **moved(m[1])}
    if m := re.fullmatch(r"(\d+) (.*)", line):
        return {"kind": "registers", "slot": int(m[1]), "registers": m[2].split(" ")}
    return by(RUN, line)


def of_lines(line):
    words = line.split(" ")
    return {"kind": "line", "slot": int(words[0]), "line": int(words[1]), "labels": words[2:]}


def model(asked, line):
    if asked in ("trace", "origin", "whynot", "diff"):
        return of_run(line)
    if asked == "lines":
        return of_lines(line)
    return by(TABLES[asked], line)


class Trial:
    def __init__(self, program):
        self.program, self.lines, self.runs, self.edges, self.kinds = program, 0, 0, 0, {}

    def told(self, words):
        return subprocess.run([self.program] + words, stdin=subprocess.DEVNULL, capture_output=True, timeout=60)

    def hold(self, asked, words):
        plain, objects = self.told(words), self.told([words[0], "--json"] + words[1:])
        wrong = f"{' '.join(words)}: "
        if (plain.returncode, plain.stderr) != (objects.returncode, objects.stderr):
            sys.exit(f"{wrong}another status or standard error: {objects}")
        if objects.stdout and not objects.stdout.endswith(b"\n"):
            sys.exit(wrong + "no line feed at the end")
        was, is_now = plain.stdout.decode().split("\n"), objects.stdout.decode().split("\n")
        if len(was) != len(is_now):
            sys.exit(f"{wrong}{len(was)} lines, and {len(is_now)} objects")
        for line, told in zip(was[:-1], is_now[:-1]):
            read = json.loads(told)
            if read != model(asked, line):
                sys.exit(f"{wrong}{line!r} is told as {told}, and not as {json.dumps(model(asked, line))}")
            if json.dumps(read, separators=(",", ":"), ensure_ascii=False) != told:
                sys.exit(f"{wrong}{told} isn't as it would be written: {json.dumps(read)}")
            self.kinds[read["kind"]] = self.kinds.get(read["kind"], 0) + 1
        self.lines += len(was) - 1
        self.runs += 1

    def hold_graph(self, words):
        plain, graph = self.told(words), self.told([words[0], "--dot"] + words[1:])
        if (plain.returncode, plain.stderr) != (graph.returncode, graph.stderr):
            sys.exit(f"{' '.join(words)}: another status or standard error: {graph}")
        wanted = dots.model(plain.stdout.decode())
        if dots.graph(graph.stdout.decode()) != wanted:
            sys.exit(f"{' '.join(words)} is told as {graph.stdout.decode()}, and not as {wanted}")
        self.edges += len(wanted[1])


def listing(rng):
    """A small program: jumps forwards and back, a call, stores and loads."""
    lines, n = [], rng.randrange(3, 12)
    for i in range(n):
        reg = f"r{rng.randrange(0, 7)}"
        lines.append(rng.choice([
            f"mov {reg}, {rng.randrange(0, 9)}", f"add {reg}, r{rng.randrange(0, 3)}", f"stxdw [r10-{8 * rng.randrange(1, 4)}], r{rng.randrange(0, 3)}",
            f"ldxdw {reg}, [r10-{8 * rng.randrange(1, 4)}]", f"ldxb {reg}, [r1+{rng.randrange(0, 4)}]", "atomic_fetch_add64 [r10-8], r2",
            f"jeq r{rng.randrange(0, 3)}, {rng.randrange(0, 4)}, l{rng.randrange(0, n)}", f"jlt r2, r{rng.randrange(0, 7)}, l{rng.randrange(0, n)}",
            "callf f", f"ja l{rng.randrange(i, n)}"]))
    text = "".join(f"l{i}: {line}\n" for i, line in enumerate(lines))
    return text + "exit\nf: mov r6, r2\nadd r6, 1\nmov r0, r6\nexit\n", n


def at_random(trial, folder, seed):
    rng = random.Random(seed)
    text, n = listing(rng)
    path, ctx, other = (os.path.join(folder, name) for name in ("p.s", "ctx", "other"))
    for name, data in (path, text.encode()), (ctx, rng.randbytes(rng.randrange(0, 5))), (other, rng.randbytes(rng.randrange(0, 5))):
        with open(name, "wb") as f:
            f.write(data)
    of = ["--listing", "--steps", str(rng.choice([5, 60])), "-m", ctx, path]
    trial.hold("run", ["run"] + of)
    trial.hold("trace", ["trace"] + of)
    trial.hold("trace", ["trace", "--branches"] + of)
    trial.hold("trace", ["trace", "--strict"] + of)
    trial.hold("profile", ["trace", "--profile"] + of)
    trial.hold("origin", ["origin", "--lines", str(rng.choice([1, 1000]))] + of)
    trial.hold("origin", ["origin", "--branches", "--addresses"] + of + [rng.choice(["r0", "r1", "r6", "0x2000001f8:8", "0x2000001e0:32"])])
    trial.hold_graph(["origin", "--branches", "--addresses", "--lines", str(rng.choice([2, 1000]))] + of + [rng.choice(["r0", "r6", "0x2000001e0:32"])])
    trial.hold("whynot", ["whynot"] + of + [rng.choice([f"l{rng.randrange(0, n)}", "f", str(n)])])
    trial.hold("diff", ["diff"] + of[:-1] + ["--other-mem", other, path])
    trial.hold("check", ["check", "--listing", path])
    trial.hold("disasm", ["disasm", "--listing", path])
    trial.hold("lines", ["lines", path])
    script, trace = os.path.join(folder, "script"), os.path.join(folder, "trace")
    with open(script, "w") as f:
        f.write(f"stepi 2\nset reg r2 {rng.randrange(9)}\nset pc {rng.randrange(n)}\nset mem 0x2000001f8 01\nstepi {rng.randrange(1, 40)}\n")
    trial.hold("origin", ["origin", "--script", script, "--branches"] + of)
    trial.hold("whynot", ["whynot", "--script", script] + of + [str(rng.randrange(n))])
    steps = trial.told(["trace"] + of).stdout.decode()
    with open(trace, "w") as f:
        f.write(steps.replace(" = 0x1\n", " = 0x2\n", 1))
    trial.hold("diff", ["diff", "--trace", trace] + of)
    rows = [f"{m[1]} " + " ".join(rng.choice(["-", "0x0", "1", "0x200000200"]) for _ in range(11)) for m in re.finditer(r"^\d+ (\d+):", steps, re.M)]
    with open(trace, "w") as f:
        f.write("\n".join(rows[:rng.randrange(1, 1 + max(1, len(rows)))]) + "\n")
    trial.hold("diff", ["diff", "--trace", trace] + of)


def main():
    program, folder = sys.argv[1:3]
    seed, count = (int(n) for n in sys.argv[3:5]) if len(sys.argv) > 3 else (1, 100)
    trial = Trial(program)
    for name in sorted(os.listdir(folder)):
        path = os.path.join(folder, name)
        if name.endswith(".s"):
            for asked in "run", "trace", "origin", "check", "disasm":
                trial.hold(asked, [asked, "--listing", path])
            trial.hold("profile", ["trace", "--profile", "--listing", path])
            trial.hold("lines", ["lines", path])
            trial.hold_graph(["origin", "--addresses", "--listing", path])
        elif name.endswith(".test"):
            trial.hold("test", ["test", path])
            trial.hold("test", ["test", "--cover", path])
        elif name.endswith(".o"):
            trial.hold("sources", ["lines", "--object", path])
            for asked in "run", "trace", "origin", "check", "disasm":
                trial.hold(asked, [asked, "--object", path])
            trial.hold_graph(["origin", "--addresses", "--object", path])
    with_random = os.path.join(folder, "random")
    os.makedirs(with_random, exist_ok=True)
    for n in range(seed, seed + count):
        at_random(trial, with_random, n)
    print(f"{trial.runs} answers, {trial.lines} lines, {trial.edges} edges, of kinds {' '.join(f'{k} {n}' for k, n in sorted(trial.kinds.items()))}")


main()
