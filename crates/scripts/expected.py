#!/usr/bin/env python3
"""What the program `scripts` has to write, by document 01 alone.

crates/scripts/stdout was made by

    python3 crates/scripts/expected.py > crates/scripts/stdout

and the program is held to it by `rt ci`. Nothing here is taken from the program's output or from the Rattle code. The model knows
what was written into each slot and how the slot was damaged, so it decodes nothing. Whether a damaged slot still reads follows from the flipped
bits alone, since the code is linear: their least distance from any word is computed, and where it is within six, that the word written is the
only nearest one.
"""


def crc(data):
    """CRC-16, polynomial 0x5935, start 0xFFFF, no reflection, no final xor."""
    r = 0xFFFF
    for byte in data:
        r ^= byte << 8
        for _ in range(8):
            r = (r << 1) ^ (0x15935 if r & 0x8000 else 0)
    return r


assert [crc(b""), crc(b"A"), crc(b"123456789")] == [0xFFFF, 0x206E, 0x772B]


def two(n):
    return [n >> 8, n & 255]


def rising(first, step, count):
    return [(first + step * i) % 256 for i in range(count)]


# ---- damage

BITS = {"header": 240, "stream": 144, "packet": 206}


def sends(kind, t):
    """Which of g1 and g2 step t sends."""
    if kind == "header":
        r = t % 61
        return [0, 1] if r % 2 == 0 else [1] if r < 30 else [0]
    if kind == "stream":
        return [0] if t % 6 == 5 else [0, 1]
    return [0] if t % 4 == 3 else [0, 1]


def least(kind, flips):
    """The least distance of the flipped coded bits from a word, and how many words have it."""
    best, place = {(0, 0, 0, 0): (0, 1)}, 0
    for t in range(BITS[kind] + 4):
        sent, new = sends(kind, t), {}
        for (b1, b2, b3, b4), (cost, ways) in best.items():
            for b in (0, 1):
                g = [b ^ b3 ^ b4, b ^ b1 ^ b2 ^ b4]
                here = cost + sum(g[s] != ((place + i) in flips) for i, s in enumerate(sent))
                state = (b, b1, b2, b3)
                was, many = new.get(state, (here, 0))
                if here < was:
                    new[state] = (here, ways)
                else:
                    new[state] = (was, many + ways if here == was else many)
        best, place = new, place + len(sent)
    assert place == (272 if kind == "stream" else 368)
    distance = min(cost for cost, _ in best.values())
    return distance, sum(ways for cost, ways in best.values() if cost == distance)


def reads(kind, flips):
    """Does a coded body with these bits flipped read as what was written? If not, it must be refused."""
    distance, words = least(kind, flips)
    if distance > 6:
        return False
    assert (distance, words) == (len(flips), 1)
    return True


def damaged(kind, said, flips):
    """What a slot says after its coded bits at these places were flipped: 3 comes before 4 and 5."""
    if not flips:
        return said
    if kind == "stream":
        if not reads(kind, {f - 96 for f in flips if f >= 96}):
            return ("unread", 3)
        words = [sum(f // 24 == w for f in flips) for w in range(4)]
        assert max(words) <= 4  # four flips are within three of no codeword, since any two differ in eight places
        return said if max(words) <= 3 else ("unread", 4)
    return said if reads(kind, flips) else ("unread", 3)


# ---- what is sent

PACKET, STREAM = 2, 5


def header(sender, kind, spoil=0):
    data = rising(sender, 7, 28)
    data[12:14] = [0, kind]
    high, low = two(crc(data))
    return data + [high, low ^ spoil]


def packet(total):
    """A packet with its CRC in its last two bytes, if there is room, and other bytes after it. All but the CRC are even, so that over 0xA5 each
    shows."""
    s = rising(2 * total % 256, 6, 825)
    if total >= 2:
        s[total - 2:total] = two(crc(s[:total - 2]))
    return s


def hexed(data):
    return "".join("%02x" % b for b in data)


# ---- the receiver

class Run:
    def __init__(self, label, total=0):
        print("# " + label + (" of %d bytes" % total if total else ""))
        self.phase, self.count, self.kept = "idle", 0, [0] * 30
        self.memory, self.sent = [0xA5] * 825, packet(total)
        self.flips, self.twist = set(), 0

    # what is open

    def enter(self, phase, count=0, parts=()):
        self.phase, self.count = phase, count
        self.kept = list(parts) + [0] * (30 - len(parts))

    def shown(self):
        known = " " + hexed(self.kept) if self.phase == "gathering" or any(self.kept) else ""
        return self.phase + ("" if self.phase == "idle" else " %d" % self.count) + known

    # one slot

    def receive(self, said, slot=48, room=825):
        """The answer; the state and memory are changed."""
        if slot != 48 or room != 825:
            return "refused 1"
        if self.count > {"idle": 0, "packet": 32, "gathering": 5}[self.phase]:
            return "refused 12"
        phase, n, parts = self.phase, self.count, self.kept
        self.enter("idle")
        what = said[0]
        if what == "unread":
            return "refused %d" % said[1]
        if what == "end":
            return "end"
        if what == "head":
            if not said[1][13] & 1:
                self.enter("packet", 0)
            return "header " + hexed(said[1])
        if what == "stream":
            return self.stream_slot(n if phase == "gathering" else 0, parts, *said[1:])
        if phase != "packet":
            return "refused 8"
        if what == "piece":
            return self.piece_slot(n, *said[1:])
        return self.final_slot(n, *said[1:])

    def piece_slot(self, n, k, data):
        if k != n:
            return "refused 8"
        self.memory[25 * n:25 * n + 25] = data
        self.enter("packet", n + 1)
        return "stored %d" % n

    def final_slot(self, n, length, data):
        total = 25 * n + length
        whole = self.memory[:25 * n] + data[:length]
        if not 1 <= length <= 25:
            return "refused 9"
        if total < 3:
            return "refused 10"
        if crc(whole):
            return "refused 11"
        self.memory[:total] = whole
        return "packet of %d %s" % (total, hexed(whole))

    def stream_slot(self, k, parts, counter, part, number, closing, content):
        answer = "fields %d %s number %04x %s" % (counter, hexed(part), number, hexed(content))
        answer += " last" if closing else ""
        gathered = part if counter == 0 else parts[:5 * k] + part
        if counter == 0 or counter == k:
            if counter < 5:
                self.enter("gathering", counter + 1, gathered)
            elif crc(gathered):
                answer += " spoiled"
            else:
                answer += " late header " + hexed(gathered)
        return answer

    # one line

    def line(self, name, said, slot=48, room=825):
        notes = "%d flips, " % len(self.flips) if self.flips else ""
        notes += "twist %03x, " % self.twist if self.twist else ""
        old = list(self.memory)
        answer = self.receive(said, slot, room)
        changed = [i for i in range(825) if old[i] != self.memory[i]]
        places = "%d to %d" % (changed[0], changed[-1]) if changed else "-"
        print("%s%s: %s | %s | %s" % (notes, name, answer, self.shown(), places))
        self.flips, self.twist = set(), 0
        return self

    def flipped(self, first, step, flips):
        self.flips = {(first + step * j) % 368 for j in range(flips)}
        assert len(self.flips) == flips
        return self

    def twisted(self, value):
        self.twist = value
        return self

    def send(self, total):
        self.sent = packet(total)
        return self

    def state(self, phase, count, kept, fill):
        self.phase, self.count = phase, count
        self.kept = self.kept[:kept] + [fill] * (30 - kept)
        print("state by hand | " + self.shown())
        return self

    def header(self, sender, kind, spoil=0):
        h = header(sender, kind, spoil)
        return self.line("header", damaged("header", ("unread", 5) if crc(h) else ("head", h), self.flips))

    def open(self):
        """Sender 1's packet header."""
        return self.header(1, PACKET)

    def frame(self, k):
        return self.sent[25 * k:25 * k + 25]

    def piece(self, k):
        return self.line("piece %d" % k, damaged("packet", ("piece", k, self.frame(k)), self.flips))

    def pieces(self, start, end):
        for k in range(start, end):
            self.piece(k)
        return self

    def last(self, k, length, how=""):
        return self.line("final %s%d" % (how, length), damaged("packet", ("final", length, self.frame(k)), self.flips))

    def hand(self, k, length):
        return self.last(k, length, "by hand ")

    def packet(self, total):
        n = (total - 1) // 25
        return self.pieces(0, n).last(n, total - 25 * n)

    def part(self, h, i, end=False):
        c = i % 6
        counter = c ^ (self.twist >> 5 & 7)  # the three counter bits of the word's twelve; the five below them are not looked at
        said = ("stream", counter, h[5 * c:5 * c + 5], i, end, rising(i % 256 ^ h[0], 17, 16))
        return self.line("stream %d" % i, damaged("stream", said, self.flips))

    def parts(self, h, start, end):
        for i in range(start, end):
            self.part(h, i)
        return self

    def stream(self, sender, i):
        return self.part(header(sender, STREAM), i)

    def streams(self, sender, start, end):
        return self.parts(header(sender, STREAM), start, end)

    def zeros(self, sync):
        said = {0x55F7: ("unread", 5), 0x75FF: ("piece", 0, [0] * 25), 0xFF5D: ("stream", 0, [0] * 5, 0, False, [0] * 16), 0x555D: ("end",)}
        return self.line("zeros %04x" % sync, said[sync])

    def sync(self, word):
        return self.line("sync %04x" % word, ("end",) if word == 0x555D else ("unread", 7))

    def cut(self, k, slot, room):
        return self.line("piece %d in %d bytes, memory of %d" % (k, slot, room), ("piece", k, self.frame(k)), slot, room)


# ---- the scripts

def packets():
    for total in (1, 2, 3, 25, 26, 800, 824, 825):
        Run("a clean packet", total).open().packet(total)
    Run("frame 1 lost, then the whole packet", 77).open().piece(0).piece(2).last(3, 2).open().packet(77)
    Run("frame 1 twice in a packet", 77).open().piece(0).piece(1).piece(1).piece(2).last(3, 2)
    Run("frames 1 and 2 swapped in a packet", 77).open().piece(0).piece(2).piece(1).last(3, 2)
    Run("the header lost of a packet", 27).piece(0).last(1, 2)
    Run("the final frame lost of a packet", 53).open().pieces(0, 2).send(28).header(2, PACKET).packet(28)
    run = Run("frames out of turn of a packet", 77).piece(0).last(0, 3).piece(31).open().piece(1)
    run.open().piece(31).open().piece(0).piece(0)
    Run("one of 28 bytes after a packet", 77).open().packet(77).send(28).header(2, PACKET).packet(28).last(1, 3)
    run = Run("a header inside a packet", 77).open().piece(0).header(2, PACKET).piece(1)
    run.open().pieces(0, 2).header(2, PACKET).send(26).packet(26)
    Run("a piece of another packet inside a packet", 77).open().piece(0).send(78).piece(1).send(77).piece(2).last(3, 2)
    run = Run("a wrong CRC in a packet", 77).open().pieces(0, 3).send(78).last(3, 2).last(3, 2)
    run.send(3).open().last(0, 4).open().last(0, 3)
    run = Run("final lengths that are none, and rubbish after a length, in a packet", 30).open().piece(0).last(1, 0)
    for length in range(26, 32):
        run.open().piece(0).hand(1, length)
    run.open().piece(0).hand(1, 0).open().piece(0).hand(1, 5)
    run = Run("frame 31 stored, and then no frame but a final one, in a packet", 825).open().pieces(0, 32).hand(32, 0)
    for last in (lambda: run.piece(31), lambda: run.piece(0), lambda: run.last(32, 25)):
        run.state("packet", 32, 0, 0)
        last()


def damage():
    run = Run("six flips in each slot of a packet", 27).flipped(3, 50, 6).open().flipped(10, 41, 6).piece(0)
    run.flipped(7, 60, 6).last(1, 2).flipped(100, 40, 6).stream(1, 0)
    run = Run("seven flips in a slot of a packet", 77).flipped(3, 50, 7).open().piece(0)
    run.open().piece(0).flipped(10, 50, 7).piece(1).piece(2).open().pieces(0, 3).flipped(10, 50, 7).last(3, 2)
    run.last(3, 2).flipped(100, 40, 7).stream(1, 0)
    run = Run("three flips in each word of a LICH and six beside it, then four in one word")
    run.stream(1, 0).flipped(4, 8, 18).stream(1, 1).flipped(0, 1, 4).stream(1, 2)
    run.stream(1, 0).flipped(24, 7, 4).stream(1, 1).stream(1, 2).stream(1, 0).flipped(48, 5, 4).stream(1, 1)
    run.stream(1, 0).flipped(72, 3, 4).stream(1, 1).flipped(0, 6, 62).stream(1, 0)
    run = Run("which refusal comes first, in a packet", 3).open().last(0, 0).open().hand(0, 26).open().last(0, 1)
    run.open().last(0, 2).open().last(0, 4).open().last(0, 3).hand(0, 31).flipped(10, 50, 7).hand(0, 31)


def headers():
    run = Run("a stream header, also inside a packet", 27).header(1, STREAM).piece(0).open().piece(0)
    run.header(2, STREAM).last(1, 2)
    run = Run("a header with a bad CRC, also inside a packet", 27).header(1, PACKET, 1).piece(0).open().piece(0)
    run.header(2, PACKET, 0x80).last(1, 2).streams(1, 0, 2).header(1, STREAM, 1).stream(1, 2)
    run.flipped(3, 50, 7).header(1, PACKET, 1)
    run = Run("the body of all-zero fields under each sync, in a packet", 27).zeros(0x55F7).zeros(0x75FF).open()
    run.zeros(0x75FF).zeros(0xFF5D).zeros(0x555D).zeros(0x55F7)


def streams():
    for counter in range(6):
        Run("eleven slots of a stream").streams(1, counter, counter + 11)
    run = Run("two senders in turn, then half and half, then one")
    run.stream(1, 0).stream(2, 0).stream(1, 1).stream(2, 1).stream(1, 2).stream(2, 2)
    run.streams(1, 6, 9).streams(2, 3, 6).streams(2, 6, 12)
    run = Run("a stream slot lost, one doubled, and six lost").streams(1, 0, 3).streams(1, 4, 12)
    run.streams(1, 12, 15).streams(1, 14, 18).streams(1, 18, 21).streams(1, 27, 30)
    run = Run("other slots between the parts, with a packet", 27)
    run.streams(1, 0, 3).flipped(100, 40, 7).stream(1, 3).streams(1, 3, 6)
    run.streams(1, 6, 9).sync(0x5555).streams(1, 9, 12).streams(1, 12, 15).piece(0).streams(1, 15, 18)
    run.streams(1, 18, 23).sync(0x555D).stream(1, 23).streams(1, 24, 29).header(1, STREAM).stream(1, 29)
    run = Run("six parts whose CRC is not zero, then a packet header's parts").parts(header(1, STREAM, 1), 0, 6)
    run.parts(header(3, PACKET), 6, 12).piece(0)
    run = Run("counters 6 and 7, and the five bits after a counter").streams(1, 0, 4).twisted(0x040).stream(1, 4)
    run.stream(1, 5).streams(1, 6, 11).twisted(0x040).stream(1, 11)
    run.streams(1, 12, 14).twisted(0x01F).stream(1, 14).streams(1, 15, 18)
    run = Run("stream slots inside a packet", 53).open().piece(0).stream(1, 0).piece(1).stream(1, 1)
    run.open().piece(0).stream(1, 1).piece(1).stream(1, 0).last(2, 3)
    h, run = header(1, STREAM), Run("end marks, and the greatest frame number").streams(1, 32760, 32765)
    run.part(h, 32765, True).part(h, 32767).part(h, 32767, True)


def syncs():
    run = Run("unknown syncs, also inside a packet", 53)
    for word in (0, 0xFFFF, 0x55F6, 0xFF5C, 0x75FE, 0x555F, 0xF755, 0x5DFF, 0xDF55):
        run.sync(word)
    run.open().piece(0).sync(0x5555).piece(1).last(2, 3)
    run = Run("end of transmission with any body, also inside a packet", 53).sync(0x555D).sync(0x555D).open().piece(0)
    run.sync(0x555D).piece(1).stream(1, 0).sync(0x555D).stream(1, 1)


def states():
    run = Run("slots and memories of other lengths inside a packet", 53).cut(0, 47, 825).open().piece(0)
    for slot, room in ((47, 825), (49, 825), (0, 825), (48, 824), (48, 826), (47, 824), (48, 0)):
        run.cut(1, slot, room)
    run.piece(1).cut(2, 48, 826).last(2, 3)
    run = Run("slots and memories of other lengths between the parts, with a packet", 53)
    run.streams(1, 0, 3).cut(0, 47, 825).cut(0, 48, 826).streams(1, 3, 6)
    run = Run("a state with n over 32, and a packet", 3).state("packet", 33, 0, 0).piece(0).last(0, 3).open()
    run.stream(1, 0).sync(0x555D).sync(0).cut(0, 47, 825).cut(0, 48, 824)
    run.state("packet", 2 ** 64 - 1, 0, 0x77).sync(0).state("idle", 0, 0, 0x77).open().packet(3)
    run = Run("a state with k over 5, and a packet", 3).state("gathering", 6, 0, 0x77).stream(1, 0).sync(0).piece(0)
    run.open().cut(0, 49, 825).state("gathering", 0, 0, 0x77).stream(1, 1)
    run.state("gathering", 0, 0, 0x77).streams(1, 0, 6)
    run = Run("a state with rubbish beyond its parts, and a packet", 28).streams(1, 0, 3)
    run.state("gathering", 3, 15, 0x77).cut(0, 47, 825).streams(1, 3, 6).streams(1, 6, 11)
    run.state("gathering", 5, 25, 0x77).stream(1, 11).open().piece(0).state("packet", 1, 0, 0x77).last(1, 3)


packets()
damage()
headers()
streams()
syncs()
states()
