"""What steered.c does, by what the kernel's documentation says of its maps: 'model.py SEED CONTEXT' writes random calls to CONTEXT, and prints the
result of each as 16 hexadecimal digits, the lowest byte first. (Of LRU tables it knows that the entry goes that wasn't used for longest.)"""

import collections
import random
import sys

NOENT, TOOBIG, EXISTS, INVALID, NOSPACE, NOTHING = -2, -7, -17, -22, -28, -1000
CALLS, WHATS = 2500, 15
ANY, NOEXIST, EXIST = 0, 1, 2
# Longest prefix, and the most entries of each map.
LONGEST, MOST_HASH, MOST_RECENT, MOST_TRIE, MOST_QUEUE, ENTRIES = 32, 8, 8, 12, 3, 5


def update(table, key, value, flags, most, full):
    """An update of a table that has at most so many entries."""
    if flags > EXIST:
        return INVALID
    if key in table and flags == NOEXIST:
        return EXISTS
    if key not in table:
        if flags == EXIST:
            return NOENT
        if len(table) >= most:
            if full:
                return full
            table.popitem(last=False)
    table[key] = value
    if not full:
        table.move_to_end(key)
    return 0


def push(values, value, flags):
    if flags not in (ANY, EXIST):
        return INVALID
    if len(values) >= MOST_QUEUE:
        if flags != EXIST:
            return TOOBIG
        values.pop(0)
    values.append(value)
    return 0


class Maps:
    def __init__(self):
        self.hash, self.recent, self.trie = {}, collections.OrderedDict(), {}
        self.queue, self.stack, self.array = [], [], [0] * ENTRIES

    def found(self, bits, text):
        """The value of the longest prefix that a text of so many bits begins with."""
        for length in range(bits, -1, -1):
            if text[:length] in self.trie:
                return self.trie[text[:length]]
        return NOTHING

    def done(self, what, key, value, flags):
        """The result of a call."""
        bits, text = value % 34, f'{key & 0xc3:08b}{key << 3 & 0xff:08b}{0:016b}'
        key, mode, what = key % 12, flags % 4, what % WHATS
        if what == 0:
            return update(self.hash, key, value, mode, MOST_HASH, TOOBIG)
        if what == 1:
            return self.hash.get(key, NOTHING)
        if what in (2, 5):
            return NOENT if (self.hash, self.recent)[what == 5].pop(key, None) is None else 0
        if what == 3:
            if key in self.recent and mode <= EXIST:
                # (a look at the key, whatever comes of it)
                self.recent.move_to_end(key)
            return update(self.recent, key, value, mode, MOST_RECENT, 0)
        if what == 4:
            if key in self.recent:
                self.recent.move_to_end(key)
            return self.recent.get(key, NOTHING)
        if what in (6, 8) and bits > LONGEST:
            return INVALID
        if what == 6:
            return update(self.trie, text[:bits], value, mode, MOST_TRIE, NOSPACE)
        if what == 7:
            return NOTHING if bits > LONGEST else self.found(bits, text)
        if what == 8:
            return NOENT if self.trie.pop(text[:bits], None) is None else 0
        if what in (9, 10):
            return push((self.queue, self.stack)[what - 9], value, mode)
        if what in (11, 12):
            values, place = ((self.queue, 0), (self.stack, -1))[what - 11]
            if not values:
                return NOENT
            return values.pop(place) if flags & 1 else values[place]
        if what == 14:
            return self.array[key] if key < ENTRIES else NOTHING
        if mode > EXIST:
            return INVALID
        if key >= ENTRIES:
            return TOOBIG
        if mode == NOEXIST:
            return EXISTS
        self.array[key] = value
        return 0


def main(seed, context):
    source, maps = random.Random(int(seed)), Maps()
    # (of flags most are none; of prefixes few, so that they meet)
    calls = [(source.randrange(WHATS), source.choice((0x00, 0x01, 0x40, 0x80, 0x81, 0xc0, 0xc3, source.randrange(256))), source.randrange(256),
              source.choice((0, 0, 0, 1, 1, 2, 3))) for _ in range(CALLS)]
    with open(context, 'wb') as file:
        file.write(bytes(byte for call in calls for byte in call))
    for call in calls:
        print((maps.done(*call) % (1 << 64)).to_bytes(8, 'little').hex())


if __name__ == '__main__':
    main(*sys.argv[1:])
