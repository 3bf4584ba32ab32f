"""Shows on the machine code that the library's product has no conditional jump (C-14).

    machinecode.py ARCHIVE

Disassembles mezgaudre_product in the static library, and all that it calls or
jumps to, and stops with an error exit at a conditional jump (an index check would
be one), at a jump or call that cannot be followed, and, since no test for 0 is
wanted, at a comparison, a conditional move or set too. Prints the instructions
that it saw. First it is tried on wrong functions in C. For x86-64.
"""

import platform
import re
import subprocess
import sys
import tempfile
from collections import Counter
from pathlib import Path

from rejecting import Rejected, reject_all

PRODUCT = "mezgaudre_product"
SYMBOL = re.compile(r"^[0-9a-f]+ <(?P<name>.+)>:$")
INSTRUCTION = re.compile(r"^ *[0-9a-f]+:\t(?:(?:notrack|bnd|data16|cs) )*(?P<name>(?:rep\w* |lock )?\S+) *(?P<operands>.*)$")
RELOCATION = re.compile(r"^\t+[0-9a-f]+: R_X86_64_\S+\t(?:\.text\.)?(?P<name>[^+-]+)")
# each kind of instruction that the product has not; the first are all jumps but jmp, and the loops
UNWANTED = {
    "a conditional jump": re.compile(r"^(j(?!mp)|loop)"),
    "a comparison": re.compile(r"^(cmp|test|bt)"),
    "a conditional move": re.compile(r"^(cmov|set)"),
}
GOES_ON_ELSEWHERE = re.compile(r"^(call|jmp)q?$")


class Instruction:
    def __init__(self, name, operands):
        self.name, self.operands, self.symbol = name, operands, None


def disassembled(archive):
    """The instructions of each function."""
    text = subprocess.run(["objdump", "-dr", "--no-show-raw-insn", archive], check=True, capture_output=True, text=True).stdout
    functions, current = {}, None
    for line in text.splitlines():
        if found := SYMBOL.match(line):
            current = functions[found["name"]] = []
        elif current is not None and (found := RELOCATION.match(line)):
            current[-1].symbol = found["name"].strip()
        elif current is not None and (found := INSTRUCTION.match(line)):
            current.append(Instruction(found["name"], found["operands"]))
    return functions


def target(instruction, function):
    """The function to which a jump or call goes; None if within its own."""
    found = re.search(r"<([^>+]+)(\+0x[0-9a-f]+)?>$", instruction.operands)
    if "*" in instruction.operands or not found:
        raise Rejected(f"{function}: {instruction.name} {instruction.operands} cannot be followed")
    return instruction.symbol or (None if found[1] == function else found[1])


def looked_at(functions, root):
    """The functions from the root on with their instructions, none of which is unwanted."""
    seen, todo = {}, [root]
    while todo:
        function = todo.pop()
        if function in seen:
            continue
        if function not in functions:
            raise Rejected(f"{function} is not in the archive")
        seen[function] = [instruction.name for instruction in functions[function]]
        for kind, names in UNWANTED.items():
            for instruction in functions[function]:
                if names.match(instruction.name):
                    raise Rejected(f"{function} has {kind}: {instruction.name} {instruction.operands}")
        for instruction in functions[function]:
            if GOES_ON_ELSEWHERE.match(instruction.name):
                called = target(instruction, function)
                if called:
                    todo.append(called)
    return seen


# ---- wrong functions, each with what must be said of it

HEAD = "unsigned char out(unsigned char); unsigned char (*by)(unsigned char); volatile unsigned char v;\n"
DEEP = "__attribute__((noinline)) unsigned char deep(unsigned char a) { if (v) v = a; return v; }\n"
INNER = "__attribute__((noinline)) unsigned char inner(unsigned char a) { return deep(a) ^ 1; }\n"
PRODUCT_IN_C = "unsigned char mezgaudre_product(unsigned char a, unsigned char b) { return %s; }\n"
WRONG = [
    ("v ? out(a) : b", "mezgaudre_product has a conditional jump"),
    ("inner(a) ^ b", "deep has a conditional jump"),  # two calls deep
    ("a == 7 ? b : 9", "mezgaudre_product has a comparison"),
    ("out(a) ^ b", "out is not in the archive"),
    ("by(a) ^ b", "cannot be followed"),
]
RIGHT = "(unsigned char)((a + 255) / 256 * b)"


def look_at_c(product):
    with tempfile.TemporaryDirectory() as folder:
        source, made = Path(folder) / "product.c", Path(folder) / "product.o"
        source.write_text(HEAD + DEEP + INNER + PRODUCT_IN_C % product)
        subprocess.run(["cc", "-O1", "-fno-pic", "-c", "-o", made, source], check=True)
        looked_at(disassembled(made), PRODUCT)


def main():
    if platform.machine() != "x86_64":
        sys.exit(f"machine code: this test reads x86-64, and this is {platform.machine()}")
    look_at_c(RIGHT)
    rejected = reject_all("machine code", look_at_c, [(product, product, reason) for product, reason in WRONG])
    try:
        functions = looked_at(disassembled(sys.argv[1]), PRODUCT)
    except Rejected as error:
        sys.exit(f"machine code: {error}")
    for function, instructions in functions.items():
        seen = ", ".join(f"{count} {name}" for name, count in Counter(instructions).most_common())
        print(f"machine code: {function}, {len(instructions)} instructions: {seen}")
    print(f"machine code: no conditional jump, index checks included, no comparison, no conditional move; {rejected} wrong functions were rejected")


if __name__ == "__main__":
    main()
