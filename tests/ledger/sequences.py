"""Random sequences of calls. What is asked follows what the model holds, so that all that SPEC speaks of comes about often."""
import struct

import inputs
import rules
from calls import Script
from driver import GUARD_WORDS
from inputs import LONGEST, OTHER_BAYS, OTHER_COUNTS_OF_BAYS, OTHER_EDITIONS, TOP
from ledger import UNSOUND, Entry
from rules import BAY, EDITIONS, HEADER, Wrong


class Maker:
    """Adds steps to a script. Most calls go to a few bays, so that these have long histories side by side."""

    def __init__(self, rng, script):
        self.rng, self.script, self.model = rng, script, script.model
        self.words = script.words
        self.few, self.records, self.lists = range(64), [], []
        for number in rng.sample(range(1, 7), 2):
            self.lists.append((number, inputs.some_entries(rng, EDITIONS[number].digest)))

    def call(self, name, *args):
        answer = self.script.call(name, *args)
        if name == "save" and answer.number == 0:
            self.records = self.records[-7:] + [answer.wrote]
        return answer

    def lent(self):
        return self.words

    def bays(self):
        return self.model.bays_in(self.words)

    def most(self):
        """The most bays that the run has room for."""
        return max(0, min(64, (self.words - HEADER) // BAY))

    def some_bay(self):
        bays, kind = self.bays(), self.rng.randrange(100)
        if kind < 5 or not bays:
            return self.rng.choice((bays, bays + 1, self.rng.randrange(64), *OTHER_BAYS))
        return self.rng.choice(self.few) % bays if kind < 92 else self.rng.randrange(bays)

    def held(self, bay):
        return self.model.look(bay) if bay < self.bays() else None

    # ---- calls

    def lay_out(self, bays=None):
        rng = self.rng
        if bays is None:
            bays = rng.choice(OTHER_COUNTS_OF_BAYS) if rng.randrange(4) == 0 else rng.randint(1, self.most() + 1)
        self.call("lay_out", self.lent(), bays)
        self.few = rng.sample(range(64), rng.choice((1, 2, 3, 3, 4, 5, 8, 64)))

    def on_bay(self):
        bay = self.some_bay()
        held = self.held(bay)
        if held is None:
            weights = (42, 9, 6, 5, 28, 5, 5)
        elif held is UNSOUND:
            weights = (14, 14, 14, 14, 14, 14, 16)
        else:
            weights = (4, 50, 14, 10, 8, 10, 4)
        name = self.rng.choices(("open", "add", "close", "save", "load", "ask", "drop"), weights)[0]
        self.call(name, self.lent(), bay, *self.arguments(name, held))

    def arguments(self, name, held):
        """What follows the bay."""
        rng, entry = self.rng, isinstance(held, Entry)
        if name == "open":
            return (inputs.some_edition(rng),)
        if name == "add":
            return (inputs.some_piece(rng, held),)
        if name == "close":
            digest = held.edition.digest if entry else rng.choice((28, 32, 48, 64))
            return *inputs.some_closing(rng), inputs.some_output(rng, digest)
        if name == "save":
            return (inputs.some_output(rng, held.record_length() if entry else rng.choice((56, 88, 119, 215))),)
        if name == "load":
            return (self.some_record(),)
        return ()

    def some_record(self):
        rng = self.rng
        data = rng.choice(self.records) if self.records and rng.randrange(2) else rules.record(*inputs.some_state(rng))
        return inputs.damaged_record(rng, data) if rng.randrange(100) < 45 else data

    def at_once(self):
        rng = self.rng
        name = rng.choices(("hash", "tree", "judge", "lookup"), (40, 18, 24, 18))[0]
        if name == "hash":
            number = inputs.some_edition(rng)
            edition = EDITIONS.get(number, EDITIONS[2])
            output = inputs.some_output(rng, edition.digest)
            self.call(name, number, inputs.some_message(rng, edition.block), *inputs.some_closing(rng), output)
        elif name == "tree":
            self.call(name, inputs.some_map(rng), inputs.some_output(rng, 32))
        else:
            question = inputs.some_question(rng, *rng.choice(self.lists))
            self.call(name, *question[: 3 if name == "judge" else 2])

    def restart(self):
        """Saves what every bay holds, lays out anew, maybe over memory that was lost, and loads into maybe other bays."""
        rng, saved = self.rng, []
        for bay in range(self.bays()):
            held = self.held(bay)
            if isinstance(held, Entry):
                output = held.record_length() + rng.choice((0, 0, 1, 30)), rng.randrange(256)
                saved.append(self.call("save", self.words, bay, output).wrote)
        if rng.randrange(2):
            self.script.write(0, [rng.getrandbits(64) for _ in range(self.words)])
        most = self.most()
        bays = rng.randint(min(len(saved), most) or 1, most or 1)
        self.lay_out(bays)
        rng.shuffle(saved)
        places = rng.sample(range(bays), min(bays, len(saved)))
        for bay, data in zip(places, saved):
            self.call("load", self.words, bay, data)
        self.few = places + rng.sample(range(64), 1)

    # ---- steps

    def step(self):
        kind = self.rng.randrange(1000)
        if kind < 130:
            self.at_once()
        elif kind < 136 or not self.bays() and kind < 400:
            self.lay_out()
        elif kind < 146:
            self.restart()
        elif kind < 152:
            self.write_past_bays()
        else:
            self.on_bay()

    def write_past_bays(self):
        past = HEADER + BAY * self.bays()
        if past < self.words:
            self.script.write(self.rng.randrange(past, self.words), [self.rng.getrandbits(64)])


class Damager(Maker):
    """The same calls over a table whose words are changed in between, and sometimes over less of the run."""

    def lent(self):
        """All of the run, or a part of it, about what the header asks for."""
        rng = self.rng
        if rng.randrange(20):
            return self.words
        near = HEADER + BAY * min([64, *self.model.memory[:1]])
        return min(self.words, rng.choice((0, 1, 2, 3, 4, 5, 29, 30, 31, near - 1, near, near + 1)))

    def damage(self):
        """One word, or a few, of the header or of a bay."""
        rng, bays = self.rng, self.bays()
        for _ in range(rng.choice((1, 1, 1, 1, 2, 3))):
            if rng.randrange(5) == 0 or not bays:
                place = rng.randrange(HEADER)
            else:
                bay = rng.choice(self.few) % bays if rng.randrange(4) else rng.randrange(bays)
                place = HEADER + BAY * bay + rng.choice((0, 1, rng.randrange(BAY), rng.randrange(BAY)))
            if place < self.words:
                self.script.write(place, [self.other_value(place)])
                self.script.coverage.damage(place)

    def other_value(self, place):
        rng, was = self.rng, self.model.memory[place]
        values = (
            rng.getrandbits(64),
            was ^ 1 << rng.randrange(64),
            was ^ 1 << rng.randrange(32),
            (was + rng.choice((-1, 1, 64, 128, -64, -128, 2**32, 2**40))) % TOP,
            rng.randrange(70),
            LONGEST + rng.choice((0, 1, 64, 128)),
            rng.choice(self.model.memory),
            0,
        )
        return rng.choice(values)

    def write_bay(self):
        """A bay that is sound, or that breaks one rule."""
        rng, bays = self.rng, self.bays()
        if not bays:
            return
        number, count, chain, tail = inputs.some_state(rng)
        width, block, _, _ = EDITIONS[number]
        words = rules.bay_words(number, count, chain, tail)
        kind = rng.randrange(10)
        if kind == 0:
            words[0] = rng.choice(OTHER_EDITIONS)
        elif kind == 1:
            words[1] = count % block + LONGEST + block * rng.randrange(1, 2**16)
        elif kind == 2:
            words[rng.randrange(2, 10)] = 2 ** rng.randrange(32, 64)
        elif kind == 3:
            after = rng.randrange(count % block, 128)
            words[10 + after // 8] |= 1 << 8 * (7 - after % 8) + rng.randrange(8)
        elif kind == 4:
            words[1] = count % block
        elif kind == 5:
            words = [0] * BAY
            words[rng.randrange(1, BAY)] = 1 << rng.randrange(64)
        self.script.write(HEADER + BAY * (rng.choice(self.few) % bays), words)

    def write_header(self):
        """As it must be, with any N, or with one word wrong."""
        rng, most = self.rng, max(1, self.most())
        header = [rng.randint(1, most), HEADER, BAY, 0]
        if rng.randrange(4) == 0:
            place = rng.randrange(4)
            header[place] = rng.choice((0, 1, header[place] + 1, 65, most + 1, rng.getrandbits(64)))
        self.script.write(0, header[: self.words])

    def step(self):
        kind = self.rng.randrange(1000)
        if not self.bays() and kind < 350:
            self.write_header() if kind < 300 else self.lay_out()
        elif kind < 80:
            self.damage()
        elif kind < 130:
            self.write_bay()
        elif kind < 135:
            self.write_header()
        elif kind < 140:
            self.lay_out()
        elif kind < 145:
            self.restart()
        elif kind < 165:
            self.at_once()
        else:
            self.on_bay()


def some_run(rng):
    """A count of bays to lay out first, and a count of words to lend: as many as are needed, more, or too few."""
    bays = rng.choice((1, 1, 2, 2, 3, 3, 4, 5, 6, 8, rng.randint(1, 16), rng.randint(1, 64), rng.choice((63, 64))))
    need, kind = HEADER + BAY * bays, rng.randrange(24)
    if kind == 0:
        return bays, rng.choice((0, 1, 3, 4, 29, 30, 31))
    return bays, need + (-1, 0, 0, 0, 1, 1, 25, 26, rng.randrange(2, 60))[(kind - 1) % 9]


def some_memory(rng, words):
    """Guard words, the run and guard words. No table begins with 0 or with 2^64-1."""
    total, kind = words + 2 * GUARD_WORDS, rng.randrange(6)
    if kind < 2:
        return [(0, TOP - 1)[kind]] * total
    return list(struct.unpack(f"<{total}Q", rng.randbytes(8 * total)))


def finish(maker, length):
    """Steps until there are so many calls; few where the run has no room for a bay."""
    while len(maker.script.replies) < (length if maker.most() else 20):
        maker.step()
    return maker.script


def ledger_sequence(rng, length, coverage):
    """Over memory that held anything, with calls before the first layout."""
    bays, words = some_run(rng)
    maker = Maker(rng, Script("ledger", some_memory(rng, words), coverage, rng))
    for _ in range(rng.choice((0, 0, 1, 3, 8))):
        maker.on_bay()
    maker.lay_out(bays)
    return finish(maker, length)


def words_sequence(rng, length, coverage):
    """Over a table that is damaged again and again, and that may have been no layout's to begin with."""
    bays, words = some_run(rng)
    memory = some_memory(rng, words)
    if rng.randrange(2):
        memory[GUARD_WORDS : GUARD_WORDS + min(4, words)] = [bays, HEADER, BAY, 0][:words]
    maker = Damager(rng, Script("words", memory, coverage, rng))
    if rng.randrange(4):
        maker.lay_out(bays)
    return finish(maker, length)


def samples(rng, coverage):
    """SPEC, "Samples", as far as they are calls, with its own numbers, to which the model is held too; and the longest map, and one
    byte less and more."""
    script = Script("ledger", some_memory(rng, 1668), coverage, rng)

    def expect(told, name, *args):
        answer = script.call(name, *args)
        if answer.number != told:
            raise Wrong(f"{script.steps[-1]} is {told} in the samples, and {answer.number} by the model")
        return answer

    # one bay fits 30 words and not 29, and 64 bays 1,668 and not 1,667
    expect(11, "lay_out", 29, 1)
    expect(0, "lay_out", 30, 1)
    expect(11, "lay_out", 1667, 64)
    expect(0, "lay_out", 1668, 64)
    # a bay at the length limit takes an add of no bytes, refuses one of a byte, and still closes with 7 bits
    for number, edition in EDITIONS.items():
        chain = [rng.getrandbits(edition.width.bits) for _ in range(8)]
        expect(0, "load", 1668, number, rules.record(number, 2**40, chain, b""))
        expect(0, "add", 1668, number, b"")
        expect(7, "add", 1668, number, b"a")
        expect(0, "ask", 1668, number)
        expect(0, "close", 1668, number, 0xAA, 7, (edition.digest, 0))
    # a set bit below the closing bits is judged before an output that is a byte too short
    expect(0, "open", 1668, 0, 2)
    expect(0, "add", 1668, 0, b"abc")
    record = expect(0, "save", 1668, 0, (59, 0)).wrote
    expect(8, "close", 1668, 0, 0x68, 4, (32, 0))
    expect(9, "close", 1668, 0, 0, 0, (31, 0))
    expect(8, "close", 1668, 0, 0x68, 4, (31, 0))
    expect(0, "close", 1668, 0, 0x68, 5, (32, 0))
    # the record of edition 2 after `abc`, but for its starting words; the list of edition 2 with no entries
    if record[:24].hex() != "0002000800180038" + "00" * 7 + "03" + "0003003b00000000" or record[56:] != b"abc":
        raise Wrong("the record after abc is not the one of the samples")
    expect(13, "lookup", bytes.fromhex("00020000" + 3 * "00000010"), b"yard.map")
    for more, told in ((-1, 0), (0, 0), (1, 7)):
        expect(told, "tree", rng.randbytes(1_048_576 + more), (32, 0))
    return script
