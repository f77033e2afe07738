"""What linking takes out is never come to: objects with bytes changed are linked, and the words followed from slot 0 on.

reach.py BPFDB COUNT OBJECT..: so many changes of each object, which has one code section besides `.text`. Tells where the words lead to a slot that is an `exit`
though the object has something else there; the last line counts. The flow is written here by RFC 9669, sections 4.3 and 5.1, alone."""
import os
import random
import struct
import subprocess
import sys
import tempfile

EXIT = bytes([0x95]) + bytes(7)


def code(content):
    """The slots of an object as they stand there: those of its section, then those of `.text`; none where its tables are damaged."""
    try:
        table, (count, names) = struct.unpack_from('<Q', content, 40)[0], struct.unpack_from('<HH', content, 60)
        headers = [struct.unpack_from('<IIQQQQ', content, table + 64 * at) for at in range(count)]
        strings = headers[names][4]
        parts = [(content[strings + name:].startswith(b'.text\0'), content[at:at + size])
                 for name, kind, flags, _, at, size in headers if kind == 1 and flags & 4 and size]
    except (struct.error, IndexError, OverflowError):
        return None
    return b''.join(slots for _, slots in sorted(parts, key=lambda part: part[0])) if sum(not text for text, _ in parts) < 2 else None


def leads(words, slot):
    """The slots that may follow one."""
    opcode, registers, offset, imm = struct.unpack_from('<BBhi', words, 8 * slot)
    if opcode == 0x95:
        return
    if opcode not in (0x05, 0x06):
        yield slot + 1
    if opcode == 0x85:
        if registers >> 4 == 1:
            yield slot + 1 + imm
    elif opcode % 8 in (5, 6):
        yield slot + 1 + (imm if opcode == 0x06 else offset)


def reached(words):
    found, open_ones = {0}, [0]
    while open_ones:
        for slot in leads(words, open_ones.pop()):
            if 0 <= slot < len(words) // 8 and slot not in found:
                found.add(slot)
                open_ones.append(slot)
    return found


def begins(words, slots):
    """The slot of the words at which the code begins: 0, or 1 behind a jump."""
    def same(lead, at):
        word, slot = words[8 * (lead + at):8 * (lead + at) + 8], slots[8 * at:8 * at + 8]
        # (a call that is answered is a mov)
        return word == EXIT or word[:1] == slot[:1] or (word[:1], slot[:1]) == (b'\xb7', b'\x85')
    return next((lead for lead in (0, 1) if all(same(lead, at) for at in range(min(len(slots), len(words) - 8 * lead) // 8))), None)


def main():
    program, count, objects = sys.argv[1], int(sys.argv[2]), sys.argv[3:]
    chance, linked, failed = random.Random(1), 0, 0
    with tempfile.TemporaryDirectory() as folder:
        changed = os.path.join(folder, 'changed.o')
        for name in objects:
            with open(name, 'rb') as file:
                whole = file.read()
            for _ in range(count):
                at = chance.randrange(len(whole))
                content = whole[:at] + bytes([chance.choice((whole[at] ^ 1 << chance.randrange(8), chance.randrange(256), 0x85, 0x10))]) + whole[at + 1:]
                with open(changed, 'wb') as file:
                    file.write(content)
                done = subprocess.run([program, 'link', '--helper=5=7', changed], stdin=subprocess.DEVNULL, capture_output=True)
                slots = code(content)
                lead = begins(done.stdout, slots) if done.returncode == 0 and slots else None
                if lead is None:
                    continue
                linked += 1
                for slot in reached(done.stdout):
                    at_slot = 8 * (slot - lead)
                    if 0 <= at_slot < len(slots) and done.stdout[8 * slot:8 * slot + 8] == EXIT and slots[at_slot] != 0x95:
                        failed += 1
                        print(f'FAILED: {name} with a byte at {at}: slot {slot} is taken out, and come to')
                        break
    print(f'{linked} trials, {failed} failed')


main()
