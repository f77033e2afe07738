#!/usr/bin/env python3
"""rests.py NAME..: how many definitions of specs/ each of these rests on, as a table: a crate, definitions, their lines.

A NAME is CRATE.FILE.DEFINITION. Comments and empty lines don't count; types that src/ declares have no definition of their own."""
import collections, glob, os, re, sys

WORD = re.compile(r"[^\s(){}\[\],;λ.]+")
HEAD = re.compile(r"^(?:abbrev |unfoldable |irrelevant )?(?:pub )?(?:record |data )?([^\s(){}:]+)")


class File:
    """The items of a file of specs/, and what its imports name."""

    def __init__(self, path):
        crate, name = re.search(r"crates/(\w+)/specs/(.*)\.antt$", path).groups()
        self.module = f"Rattle.{crate}.specs.{name.replace('/', '.')}"
        self.items, self.imports, self.aliases = collections.OrderedDict(), {}, {}
        item = None
        for line in open(path, encoding="utf8"):
            code = line.split("--")[0].rstrip()
            if not code:
                continue
            used = re.match(r"(?:pub )?use (Rattle\.[\w.]+?)(?:\.\{(.*)\}| as (\w+))?$", code)
            if used:
                self.imported(*used.groups())
                continue
            text = code.strip()
            if re.match(r"(  )?(abbrev|unfoldable|pub|record|data)\b", code) and not re.match(r"pub mod", text):
                if not re.match(r"pub \w+ :", text) or not item or not self.items[item][0].lstrip().startswith(("pub record", "record")):
                    item = HEAD.match(text).group(1)
                    self.items.setdefault(item, [])
            if item and not text.startswith("module "):
                self.items[item].append(code)

    def imported(self, module, names, alias):
        if alias:
            self.aliases[alias] = module
        for name in (names or "").split(","):
            name, _, other = name.strip().partition(" as ")
            self.imports[other or name] = (module, name)


def rests(files, start):
    todo, seen = [start], set()
    while todo:
        module, name = todo.pop()
        file = files.get(module)
        if not file or (module, name) in seen:
            continue
        if name not in file.items:
            if name in file.imports:
                todo.append(file.imports[name])
            continue
        seen.add((module, name))
        for line in file.items[name]:
            for word in WORD.findall(line):
                if word in file.items and word != name:
                    todo.append((module, word))
                elif word in file.imports:
                    todo.append(file.imports[word])
            for alias, word in re.findall(r"\b(\w+)\.(\w+)", line):
                if alias in file.aliases:
                    todo.append((file.aliases[alias], word))
    return seen


def main():
    files = {f.module: f for f in map(File, glob.glob("crates/*/specs/**/*.antt", recursive=True))}
    for name in sys.argv[1:]:
        print("| Crate | Definitions | Lines |\n|---|---|---|")
        crate, file, item = name.split(".")
        seen = rests(files, (f"Rattle.{crate}.specs.{file}", item))
        count = collections.Counter()
        lines = collections.Counter()
        for module, item in seen:
            crate = module.split(".")[1]
            count[crate] += 1
            lines[crate] += len(files[module].items[item])
        for crate, n in sorted(count.items(), key=lambda row: (-row[1], row[0])):
            print(f"| `{crate}` | {n} | {lines[crate]} |")
        print(f"| in all | {sum(count.values())} | {sum(lines.values())} |")


main()
