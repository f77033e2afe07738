"""The branches that decided that the value of r0 came about, and that a program came to where it stands, and those that kept r0 as it was: small
programs at random, each run or script, against a model.

branches.py BPFDB COUNT [SEED]: so many programs of two to six slots. Tells where an answer is another than the model's; the last line counts. The
model lists each way of a function that comes to no slot twice, from both ways out of a branch, and sees which of them come to the slot. It gathers
what is to be explained, as a set: where the program stands, each move of the value, and of each of these the latest branch of its call that decided
it, or else what explains the call. A branch kept r0 if from the other side of it a way leads to an instruction that writes r0 and comes first to no
slot that is told next of the same call, and from where it went none does. It asks bpfdb for nothing but what it compares."""
import os
import sys
import tempfile

sys.dont_write_bytecode = True
from whynot import CONDITIONS, run, some_machine, trials


def ways_on(program, slot):
    """Where a function may go on from a slot; a call comes back."""
    kind, _, distance = program.insns[slot]
    if kind == 'exit':
        return []
    if kind == 'ja':
        return [slot + 1 + distance]
    if kind in CONDITIONS:
        return [slot + 1, slot + 1 + distance]
    return [slot + program.size(slot)]


def ways(program, slot, goal, before=()):
    """Each way from a slot without a slot that comes twice, up to the goal or to an end of the function."""
    if slot in before:
        return
    way = before + (slot,)
    if slot == goal or program.insns[slot][0] == 'exit':
        yield way
        return
    for on in ways_on(program, slot):
        yield from ways(program, on, goal, way)


def is_sure(program, slot, goal):
    ends = [way[-1] for way in ways(program, slot, goal)]
    return bool(ends) and all(end == goal for end in ends)


def decides(program, slot, goal):
    kind = program.insns[slot][0]
    return kind in CONDITIONS and len({is_sure(program, on, goal) for on in ways_on(program, slot)}) == 2


def calls(states):
    """To which call of a function each state belongs: calls are numbered by the state in which they begin."""
    standing, found = [], []
    for number, (_, returns, _, _) in enumerate(states):
        while len(standing) <= len(returns):
            standing.append(number)
        del standing[len(returns) + 1:]
        found.append(standing[-1])
    return found


def values(machine):
    """The moves that r0 came about by: the latest one that wrote it, and as long as that adds to it the one before."""
    number = len(machine.moves)
    while number > 0:
        number -= 1
        (slot, _, _, _), is_step, what = machine.moves[number]
        kind = machine.program.insns[slot][0] if is_step else what
        if kind in ('add', 'mov', 'wide', 'reg'):
            yield number
            if kind != 'add':
                return


def branches(machine):
    """The moves that decided, by their numbers from 0, the newest first."""
    program, moves = machine.program, machine.moves
    states = [before for before, _, _ in moves] + [machine.state]
    call = calls(states)
    to_explain, explained, found = {len(moves), *values(machine)}, set(), set()
    while to_explain:
        number = to_explain.pop()
        explained.add(number)
        goal = states[number][0]
        deciding = [m for m in range(call[number], number) if call[m] == call[number]
                    and (decides(program, states[m][0], goal) if moves[m][1] else states[m + 1][0] != states[m][0])]
        if deciding:
            found.add(deciding[-1])
        reason = deciding[-1] if deciding else call[number] - 1
        if reason >= 0 and reason not in explained:
            to_explain.add(reason)
    return sorted(found, reverse=True)


def comes_to_write(program, slot, wall, before=()):
    """A way without a slot that comes twice leads to an instruction that writes r0, and not over the wall."""
    if slot in before or slot == wall:
        return False
    kind = program.insns[slot][0]
    return kind in ('mov', 'add', 'load', 'wide') or any(comes_to_write(program, on, wall, before + (slot,)) for on in ways_on(program, slot))


def kept(machine, decided):
    """The moves that kept r0, by their numbers from 0. Of each call the wall is the oldest slot that is told."""
    program, moves = machine.program, machine.moves
    states = [before for before, _, _ in moves] + [machine.state]
    call = calls(states)
    wall, found, made = {call[-1]: states[-1][0]}, [], list(values(machine))
    last = made[-1] if made and not adds(machine, made[-1]) else -1
    for number in range(len(moves) - 1, -1, -1):
        slot, went, here = states[number][0], states[number + 1][0], call[number]
        begins = call[number + 1] == number + 1 and call[number + 1] in wall
        others = [slot] if not moves[number][1] else [on for on in ways_on(program, slot) if on != went] if program.insns[slot][0] in CONDITIONS else []
        keeps = (number > last and any(comes_to_write(program, on, wall.get(here)) for on in others)
                 and not comes_to_write(program, went, wall.get(here)))
        if number in made or begins or number in decided:
            wall[here] = slot
        elif keeps:
            found.append(number)
            wall[here] = slot
    return found


def adds(machine, number):
    (slot, _, _, _), is_step, _ = machine.moves[number]
    return is_step and machine.program.insns[slot][0] == 'add'


def text(machine, number):
    slot, _, r0, _ = machine.moves[number][0]
    after = machine.moves[number + 1][0] if number + 1 < len(machine.moves) else machine.state
    back = len(machine.moves) - number
    if not machine.moves[number][1]:
        return f'-{back} edit; then at {after[0]}\n'
    went = 'went on' if after[0] == slot + 1 else f'jumped to {after[0]}'
    return f'-{back} {machine.program.text(slot)}; r0 = {r0:#x}; {went}\n'


def main():
    bpfdb, count = sys.argv[1], int(sys.argv[2])
    failed = told = 0
    with tempfile.TemporaryDirectory() as folder:
        words, path = os.path.join(folder, 'words'), os.path.join(folder, 'script')
        for seed, chance in trials(sys.argv):
            machine, how, _ = some_machine(chance, words, path, 0.6)
            decided = branches(machine)
            lines = {number: text(machine, number) for number in decided} | {number: 'kept: ' + text(machine, number) for number in kept(machine, decided)}
            told += len(lines)
            branches_told = ''.join(lines[number] for number in sorted(lines, reverse=True))
            wanted = run(bpfdb, 'origin', *how, words, 'r0') + branches_told + 'no other branch; at the opening\n'
            answer = run(bpfdb, 'origin', '--branches', *how, words, 'r0')
            if answer != wanted:
                failed += 1
                print(f'FAILED: branches, seed {seed}: {how} {machine.program.insns}\n{wanted!r}\n{answer!r}')
    print(f'{count} answers of {told} branches: {failed} failed')
    sys.exit(failed > 0)


if __name__ == '__main__':
    main()
