"""said.py OUTPUT: what the program outside wrote, against docs/SPEC.md, crates/answers and the file VERSION. Each fault is a line; the exit
status is 1 where there is one."""
import hashlib
import hmac
import re
import struct
import sys
from pathlib import Path

root = Path(__file__).resolve().parents[2]
spec = (root / "docs/SPEC.md").read_text(encoding="utf-8")


def rows(heading, first):
    """The rows of the table under a heading whose first row begins so."""
    part = spec[spec.index(f"\n{heading}\n") :]
    lines = part[part.index(f"\n| {first}") + 1 :].splitlines()
    table = []
    for line in lines[2:]:
        if not line.startswith("|"):
            return table
        table.append([cell.strip() for cell in line.strip("|").split("|")])
    return table


def camel(name):
    return re.sub(r"(?<=[a-z])(?=[A-Z])|(?<=A)(?=List)", "_", name).upper()


expected = [f"version {(root / 'VERSION').read_text().strip()}"]
texts = {int(row[0]): row[1] for row in rows("## Calls and their numbers", "no. |") if row[0]}
assert sorted(texts) == list(range(18))
expected += [f"answer {n} {texts.get(n, 'no such answer')}" for n in range(20)] + ["answer 2^64-1 no such answer"]
answers = (root / "crates/answers/src/lib.rt").read_text(encoding="utf-8")
expected += [f"name DW_{camel(name)} {n}" for name, n in [("Done", "0")] + re.findall(r"Refusal::(\w+) => (\d+),", answers)]
editions = rows("## Editions", "no. |")
expected += [f"name DW_{re.sub('-', '', row[1]).replace('/', '_')} {row[0]}" for row in editions]
sizes = {int(row[0]): int(row[4]) for row in editions}
expected += [f"edition {n} {sizes.get(n, 0)}" for n in range(8)]
words = next(row[1] for row in rows("## Limits", "what |") if row[0].startswith("words of a table"))
expected += ["table {} {}".format(*(n.replace(",", "") for n in re.search(r"([\d,]+) for one bay, ([\d,]+) for 64", words).groups()))]
record = next(row[2] for row in rows("## Limits", "what |") if row[0].startswith("bytes of a record"))
whole = next(row[2] for row in rows("## Limits", "what |") if row[0].startswith("bytes of a list")).split()[0].replace(",", "")
expected += [f"longest {max(sizes.values())} " + max(re.findall(r"\d+(?= \()", record), key=int) + f" {whole}"]
limits = {row[0]: row for row in rows("## Limits", "what |")}
power = re.match(r"2\^(\d+)", limits["bytes of a map that a stream takes"][2]).group(1)
expected += [f"stream {limits['words of a stream'][1]} {2 ** int(power)}"]
expected += [f"keyed {limits['words of a keyed hash'][1]}"]
expected += ["digest " + hashlib.sha512(b"m" * 300).hexdigest()]
entries = struct.pack(">II", 96, 9) + hashlib.sha256(b"abc").digest() + struct.pack(">II", 105, 8) + hashlib.sha256(b"").digest()
listed = struct.pack(">HHIII", 2, 2, 16, 96, 113) + entries + b"fleet.cfg" + b"yard.map"
expected += [f"list {listed.hex()}"] * 2


def tree(chunks):
    """RFC 6962, section 2.1: split at the largest power of two below the number of chunks."""
    if len(chunks) == 1:
        return hashlib.sha256(b"\0" + chunks[0]).digest()
    k = 1 << (len(chunks) - 1).bit_length() - 1
    return hashlib.sha256(b"\1" + tree(chunks[:k]) + tree(chunks[k:])).digest()


stream = tree([b"m" * n for n in (1024, 1024, 1024, 1024, 1024, 880)]).hex()
assert f"`{stream[:32]}`" in spec and f"`{stream[32:]}`" in spec, "SPEC's sample of a stream has another root"
expected += ["root " + stream]
names = {1: "sha224", 2: "sha256", 3: "sha384", 4: "sha512", 5: "sha512_224", 6: "sha512_256"}
tags = {n: hmac.new(b"Jefe", b"what do ya want for nothing?", names[n]).hexdigest() for n in names}
assert f"`{tags[2][:32]}`" in spec and f"`{tags[2][32:]}`" in spec, "SPEC's sample of a tag is another"
expected += [f"tag {n} {tags[n]}" for n in tags]

said = Path(sys.argv[1]).read_text().splitlines()
faults = [f"not said: {line}" for line in expected if line not in said] + [f"said: {line}" for line in said if line not in expected]
if not faults and said != expected:
    faults = ["said in another order"]
print("\n".join(faults), end="\n" if faults else "")
sys.exit(1 if faults else 0)
