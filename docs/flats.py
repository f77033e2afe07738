#!/usr/bin/env python3
"""flats.py [--check]: writes what lists the tags of flat codes in crates/bpf_steps, made from the operations of crates/bpf_isa/src/instruction.rt.

A tag is an operation with its width and its form (K: a number, X: a register). Its five places: the enum `FlatOp` and the matches that give
an instruction its tag (src/flat.rt), `stands_for` (specs/Flat.antt), the arms of a step (src/run/step.rt) and their answers
(proofs/run/step/step/Answers.antt). With --check nothing is written, and a file that differs is named."""
import os, re, sys

CRATE = os.path.join(os.path.dirname(os.path.abspath(__file__)), "..", "crates")
OPERANDS = {"K": "(imm_in f)", "X": "(Register f.src)"}
FORMS = [(width, form) for width in ("64", "32") for form in "KX"]


def variants(name):
    """The names of an enum of the instruction set."""
    with open(f"{CRATE}/bpf_isa/src/instruction.rt", encoding="utf8") as file:
        body = re.search(r"pub enum %s \{\n(.*?)\n\}" % name, file.read(), re.S)[1]
    return re.findall(r"^    (\w+),", body, re.M)


class Tags:
    """Tags whose steps one function does: of each its name, the instruction that it stands for, and what tells it to that function."""

    def __init__(self, arm, rows, kind="set", maker="", keeps="h.1"):
        self.arm, self.rows, self.kind, self.maker, self.keeps = arm, rows, kind, maker, keeps

    def calls(self):
        """The call in each arm, as the prover names it: the first by the function alone."""
        return [self.arm + (f"-in-{tag}" if n else "") for n, (tag, _, _) in enumerate(self.rows)]


def binary(width, form):
    maker = {"K": "immediate", "X": "register"}[form] + width
    rows = [(f"{name}{width}{form}", f"Binary binary_op.{name} Bits{width} f.dst {OPERANDS[form]}", [f"BinaryOp::{name}"]) for name in variants("BinaryOp")]
    return Tags(maker, rows, maker=maker)


def jump_if(width, form):
    maker = {"K": "if_immediate", "X": "if_register"}[form] + width
    rows = [(f"If{name}{width}{form}", f"JumpIf condition.{name} Bits{width} f.dst {OPERANDS[form]} (pos f.target)", [f"Condition::{name}"])
            for name in variants("Condition")]
    return Tags(maker, rows, "jump", maker)


def load(signed):
    of, sizes, kind, arm = [("Plain", "Size", "size", "load"), ("Signed", "SignedSize", "signed_size", "load_signed")][signed]
    rows = [(f"Load{of * signed}{name}", f"Load ({of} {kind}.{name}) f.dst (address_in f)", [f"{sizes}::{name}"]) for name in variants(sizes)]
    return Tags(arm, rows, "memory")


def store(form):
    arm, tail = {"K": ("store_immediate", "K"), "X": ("store_register", "")}[form]
    rows = [(f"Store{name}{tail}", f"Store size.{name} (address_to f) {OPERANDS[form]}", [f"Size::{name}"]) for name in variants("Size")]
    return Tags(arm, rows, "memory", arm, keeps="h")


def swaps():
    rows = []
    for order in variants("ByteOrder"):
        for width in variants("SwapWidth"):
            rows.append((order + width[4:], f"SwapBytes order.{order} swap_width.{width} f.dst", [f"ByteOrder::{order}", f"SwapWidth::{width}"]))
    return Tags("swap", rows, maker="swapped")


GROUPS = [
    *[binary(*form) for form in FORMS],
    *[Tags(f"negate{width}", [(f"Neg{width}", f"Negate Bits{width} f.dst", [])]) for width in ("64", "32")],
    Tags("sign_extend", [(f"Extend{name}", f"SignExtend extension.{name} f.dst f.src", [f"Extension::{name}"]) for name in variants("Extension")],
         maker="sign_extended"),
    swaps(),
    Tags("load_wide", [("Wide", "LoadWide f.dst (Number f.value)", [])]),
    *[jump_if(*form) for form in FORMS],
    Tags("jump", [("Jump", "Jump (pos f.target)", [])], keeps="h"),
    load(False), load(True), store("X"), store("K"),
]


def answer(kind, tag, call, keeps):
    """The answer of an arm: by its call, the step is that of the instruction for which the tag stands, and what is left is as it was."""
    of = f"c.requires.can.flat c.in-{tag}.is refl refl"
    some, left = {
        "set": (f"set_arm {of} c.args.len c.args.bytes.now (λ h. {keeps}) c.{call}.ensures", f"left_set c.{call}.ensures"),
        "jump": (f"jump_arm {of} c.{call}.result c.args.len c.args.bytes.now (λ h. h) c.{call}.ensures", f"left_jump c.{call}.result c.{call}.ensures"),
        "memory": (f"memory_arm {of} _ _ c.{call}.result c.requires.can.mapped.same (λ h. {keeps}) c.{call}.ensures.done", f"c.{call}.ensures.left"),
    }[kind]
    return f"\npub returns-in-{tag} : goal.returns-in-{tag}\nreturns-in-{tag} g c = record {{ some = {some}; left = {left} }}\n"


def between(text, first, last, lines):
    """A text with these lines between what ends with `first` and the next `last`."""
    begin = text.index(first) + len(first)
    return text[:begin] + "".join(lines) + text[text.index(last, begin):]


def flat(text):
    text = between(text, "    Exit,\n", "}\n", [f"    {tag},\n" for group in GROUPS for tag, _, _ in group.rows])
    for group in GROUPS:
        if group.maker:
            rows = [f"        {of[0] if len(of) == 1 else '(' + ', '.join(of) + ')'} => FlatOp::{tag},\n" for tag, _, of in group.rows]
            head = re.search(r"\nfn %s\(.*?\n    match .*? \{\n" % group.maker, text, re.S)[0]
            text = between(text, head, "    }\n}", rows)
    return text


def stands_for(text):
    rows = [f"stands_for op.{tag} f = insn.{insn}\n" for group in GROUPS for tag, insn, _ in group.rows]
    return between(text, "stands_for op.Exit f = insn.Exit\n", "\n-- ", rows)


def step(text):
    rows = []
    for group in GROUPS:
        macro = "access" if group.kind == "memory" else "arm"
        rows += [f"        FlatOp::{tag} => {macro}!({', '.join([group.arm, *of])}),\n" for tag, _, of in group.rows]
    return between(text, "    match flat.op {\n", "        FlatOp::Rare ", rows)


def answers(text):
    rows = [answer(group.kind, tag, call, group.keeps) for group in GROUPS for (tag, _, _), call in zip(group.rows, group.calls())]
    return text[:text.index("\npub ")] + "".join(rows)


def main():
    wrong = []
    for name, made in {"src/flat.rt": flat, "specs/Flat.antt": stands_for, "src/run/step.rt": step, "proofs/run/step/step/Answers.antt": answers}.items():
        path = f"{CRATE}/bpf_steps/{name}"
        with open(path, encoding="utf8") as file:
            text = file.read()
        new = made(text)
        if new != text and "--check" in sys.argv:
            wrong.append(name)
        elif new != text:
            with open(path, "w", encoding="utf8") as file:
                file.write(new)
    for name in wrong:
        print(f"docs/flats.py: crates/bpf_steps/{name} isn't what is made: run it")
    sys.exit(bool(wrong))


main()
