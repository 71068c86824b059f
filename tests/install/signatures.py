"""signatures.py FILE: what a compiled program knows of the library. Of a header: each size, each number of an enum and each function's
type, a line each, without comments and the names of parameters. Of Rattle's source: the types of its functions with C names, as C has
them."""
import re
import sys
from pathlib import Path

C_TYPES = {
    "u8": "uint8_t",
    "u64": "uint64_t",
    "&[u8]": "const uint8_t*, size_t",
    "&mut [u8]": "uint8_t*, size_t",
    "&[u64]": "const uint64_t*, size_t",
    "&mut [u64]": "uint64_t*, size_t",
    "&mut u64": "uint64_t*",
    "&mut usize": "size_t*",
}


def of_rattle(text):
    for name, parameters, answer in re.findall(r'^pub extern "C" fn (\w+)\(([^)]*)\) -> (\w+)', text, re.M):
        types = [C_TYPES[p.split(":")[1].strip()] for p in parameters.split(",") if p.strip()]
        yield f"function {C_TYPES[answer]} {name} {', '.join(types)}"


def of_header(text):
    text = re.sub(r"/\*.*?\*/", " ", text, flags=re.S).replace("\\\n", " ")
    for name, value in re.findall(r"^#define (DW_\w+(?:\([^)]*\))?) +(.+)$", text, re.M):
        if name not in ("DW_VERSION", "DW_STACK", "DW_KEYED_STACK", "DW_STREAM_STACK", "DW_TREE_STACK"):
            yield f"size {name} {' '.join(value.split())}"
    for body in re.findall(r"enum \w+ \{(.*?)\};", text, re.S):
        yield from (f"number {' '.join(number.split())}" for number in body.split(","))
    for answer, name, parameters in re.findall(r"^([\w ]+[ *])(dw_\w+)\(([^)]*)\);", text, re.M):
        types = [re.sub(r"\w+$", "", " ".join(p.split())).replace(" *", "*").strip() for p in parameters.split(",")]
        yield f"function {answer.replace(' *', '*').strip()} {name} {', '.join(types)}"


path = Path(sys.argv[1])
print(*(of_rattle if path.suffix == ".rt" else of_header)(path.read_text(encoding="utf-8")), sep="\n")
