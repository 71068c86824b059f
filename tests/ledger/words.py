"""The calls by SPEC's rules for the words themselves, for tables that anything may have happened to: the header and the bay are
looked at anew at every call. A sound bay is what its record would load as. Answers are as in ledger.py."""
import struct

import rules
from ledger import UNSOUND, Calls, Entry, no_layout
from rules import BAY, EDITIONS, HEADER


class Words(Calls):
    def __init__(self, memory):
        self.memory = list(memory)

    def bays_in(self, words):
        """N, or 0 where the header or the count of words lent is not as it must be."""
        if words < HEADER:
            return 0
        bays, *rest = self.memory[:HEADER]
        return bays if rest == [HEADER, BAY, 0] and not no_layout(words, bays) else 0

    def bay(self, bay):
        at = HEADER + BAY * bay
        return self.memory[at : at + BAY]

    def look(self, bay):
        words = self.bay(bay)
        if not any(words):
            return None
        if rules.bay_faults(words):
            return UNSOUND
        number, count, chain = words[0], words[1], tuple(words[2:10])
        tail = struct.pack(">16Q", *words[10:])[: count % EDITIONS[number].block]
        return Entry(number, chain, count - len(tail), tail)

    def find(self, words, bay):
        """2 is told even where 1 is, if there is a first word to compare with."""
        bays = self.bays_in(words)
        beyond = words > 0 and bay >= self.memory[0]
        there = bays > 0 and not beyond
        return there, self.look(bay) if there else None, ((1, not bays), (2, beyond))

    def overwrite(self, place, values):
        self.memory[place : place + len(values)] = values
        return place, values

    def put(self, bay, entry):
        return self.overwrite(HEADER + BAY * bay, entry.bay() if entry else [0] * BAY)

    def anew(self, bays):
        return self.overwrite(*super().anew(bays))
