#!/usr/bin/env python3
"""Looks at the machine code of the step to the next request: machine_code.py OBJECT FUNCTION.

One form is accepted. Moves; a test of the request's length, and a jump over the loop. The loop: a sum is divided once,
with 32 bits, and stored; the jump back goes by the place, which starts as the length and is counted down by one. Moves,
and the return. As the toolchain tests a divisor against 0, the loop may begin with such a test, of what it then divides
by, just loaded from the counts and never written else, with a jump to a trap behind the return. Behind the loop the
request's truth values, and nothing else, may be packed into a word. Nothing else jumps or is tested; only the place, the
stack and the result make addresses; the length is loaded before anything is stored, and nothing is stored where the
return goes by. Whatever is not of this form is refused, so that nobody has to know all that can compare. Says what was
found; the status is 3 if the function is refused.
"""

import re
import subprocess
import sys

MOVE = r"(?:\w+: (?:mov|movzx|movups|movaps|movdqu|movdqa|lea|nop|endbr64)\b.*\n)"
DIVIDE = r"(?:\w+: (?:add eax,.*|xor edx,edx|div (?:DWORD .*|e\w\w|r\d+d))\n)"
COUNT = r"(?:\w+: (?:dec r\w+|sub r\w+,0x1)\n)"
PACK = r"(?:\w+: (?:shl r\w+,0x\w+|movabs r\w+,0x\w+|(?:or|and) r\w+,r\w+)\n)"
DIVISOR = (
    r"(?P<load>\w+: mov (?P<divisor>e\w\w|r\d+d),DWORD PTR \[rsp\+r\w+\*8[+-]0x\w+\]\n)"
    r"\w+: test (?P=divisor),(?P=divisor)\n\w+: je (?P<trap>\w+) .*\n"
)
FORM = re.compile(
    rf"(?:\w+: sub rsp,(?P<frame>0x\w+)\n)?(?P<start>{MOVE}*)"
    rf"\w+: test (?P<length>r\w+),(?P=length)\n{MOVE}*\w+: je (?P<end>\w+) .*\n{MOVE}*"
    rf"(?=(?P<again>\w+): )(?P<loop>(?:{DIVISOR})?(?:{MOVE}|{DIVIDE}|{COUNT})*"
    rf"(?:{COUNT}|\w+: test (?P<tested>r\w+),(?P=tested)\n)){MOVE}*\w+: jne (?P=again) .*\n"
    rf"(?=(?P=end): )(?:{MOVE}|{PACK})*(?(frame)\w+: add rsp,(?P=frame)\n)\w+: ret\n"
    rf"(?(trap)(?=(?P=trap): )\w+: ud2\n)(?:\w+: (?:nop\b.*|xchg ax,ax)\n)*"
)
STORES = r"\w+: (?!nop |div )\w+ \w+ PTR "
STORE = re.compile(r"\w+: mov\w* (\w+) PTR \[(\w+)(?:\+(\w+)\*8)?([+-]0x\w+)?\],.*")
SIZES = {"BYTE": 1, "WORD": 2, "DWORD": 4, "QWORD": 8, "XMMWORD": 16}
TRUTHS = range(8, 16)  # from the stack's top: behind the return address, six truth values with their padding
LENGTH = 64  # behind those, six numbers
COUNTS = range(72, 120)  # and behind the length
BASE = r"lea (?!rsp)r\w+,\[rsp[+-]\w+\]|(?:sub|add) rsp,0x\w+"  # what makes a base of addresses
PARTS = {f"r{x}x": rf"[re]?{x}x|{x}[lh]" for x in "abcd"}  # the names of a register and of its parts
PARTS |= {f"r{x}": rf"[re]?{x}|{x}l" for x in ("si", "di", "bp", "sp")}
PARTS |= {f"r{x}": rf"r{x}[dwb]?" for x in range(8, 16)}


MOVED = re.compile(r"\w+: mov\w* (\w+),(?:(\w+) PTR \[rsp([+-]0x\w+)?\]|(\w+))\n")
STORED = re.compile(r"\w+: mov\w* (\w+) PTR \[rsp([+-]0x\w+)?\],(\w+)\n")


class Refused(Exception):
    pass


def whole(register):
    """The name of the register of which this is a part."""
    return next((r for r, parts in PARTS.items() if re.fullmatch(parts, register)), register)


def sources(code):
    """Where each byte of the registers and of the stack comes from, by what is moved: bytes of the stack on entry."""
    registers, stack = {}, {}
    for line in code.splitlines(keepends=True):
        store, move = STORED.fullmatch(line), MOVED.fullmatch(line)
        if store:
            at, held = int(store[2] or "0", 16), registers.get(whole(store[3]), [])
            for i in range(SIZES[store[1]]):
                stack[at + i] = held[i] if i < len(held) else None
        elif move and move[2]:
            at = int(move[3] or "0", 16)
            registers[whole(move[1])] = [stack.get(at + i, at + i) for i in range(SIZES[move[2]])]
        elif move:
            registers[whole(move[1])] = registers.get(whole(move[4]), [])
        elif written := re.match(r"\w+: (?!test|nop|j)\w+ (\w+)", line):
            registers[whole(written[1])] = []
    return registers, stack


def divides_by_counts(load, code, frame):
    """Whether what is loaded as the divisor is one of the counts, at each place that the loop comes to."""
    _, stack = sources(code)
    at = int(re.search(r"\*8([+-]0x\w+)\]", load)[1], 16)
    return all(stack.get(at + 8 * i + k, at + 8 * i + k) in [frame + c for c in COUNTS] for i in range(1, 7) for k in range(4))


def packs_truths(code, start, frame):
    """Whether all that is packed behind the loop comes from the request's truth values, or is a number in the code."""
    registers, _ = sources(start)
    clean = {r for r, held in registers.items() if held and all(b is not None and b - frame in TRUTHS for b in held)}
    for line in code.splitlines(keepends=True):
        if packed := re.fullmatch(r"\w+: (shl|movabs|or|and) (\w+),(\w+)\n", line):
            operands = {whole(packed[2])} | ({whole(packed[3])} if packed[1] in ("or", "and") else set())
            if packed[1] == "movabs":
                clean.add(whole(packed[2]))
            elif not operands <= clean:
                return False
        elif written := re.match(r"\w+: (?!test|nop|j|div|ret|ud2|xchg)\w+ (\w+),", line):
            clean.discard(whole(written[1]))
    return True


def listing(file, function):
    """The function's instructions, a line each: address, name, operands."""
    command = ["objdump", "--disassemble=" + function, "--no-show-raw-insn", "-M", "intel", file]
    lines = subprocess.run(command, capture_output=True, text=True, check=True).stdout.splitlines()
    code = [" ".join(line.split()) + "\n" for line in lines if re.match(r" *[0-9a-f]+:\t", line)]
    return re.sub(r": (?:(?:cs|data16) )+", ": ", "".join(code))


def writes(code, register):
    """The instructions that write a register, but for the division, which writes rax and rdx."""
    return set(re.findall(rf"\w+: ((?!test)\w+ (?:{PARTS[register]})(?:,.*)?)\n", code))


def length_load(frame):
    """The instruction that loads the length, into whichever register."""
    return rf"mov \w+,QWORD PTR \[rsp\+{LENGTH + frame:#x}\]"


def store_is_safe(store, code, frame, place):
    """Whether a store goes to the result, or to the stack but not over the return address."""
    form = STORE.fullmatch(store)
    if not form:
        return False
    size, base, index, offset = form.groups()
    if base == "rdi":
        return not index and not writes(code, "rdi")
    reached = [int(offset or "0", 16) + 8 * i for i in (range(7) if index else [0])]
    return base == "rsp" and index in (None, place) and all(
        at + SIZES[size] <= frame or frame + 8 <= at for at in reached
    )


def address_registers(code):
    memory = " ".join(re.findall(r"\[.*?\]", re.sub(r"(?:nop|lea) .*", "", code)))
    return {register for register, parts in PARTS.items() if re.search(rf"\b(?:{parts})\b", memory)}


def look(code):
    form = FORM.fullmatch(code)
    if not form:
        raise Refused("another form")
    counts = re.findall(r"((?:dec|sub) (r\w+).*)\n", form["loop"])
    if len(counts) != 1 or form["loop"].count(" div ") != 1:
        raise Refused("more than one count or division")
    (count, place), length, frame = counts[0], form["length"], int(form["frame"] or "0", 16)
    before = code[: form.start("loop")]
    if form["trap"]:
        load = form["load"].split(": ")[1].strip()
        if writes(form["loop"], whole(form["divisor"])) != {load, f"div {form['divisor']}"}:
            raise Refused("a test of what is no divisor")
        if not divides_by_counts(load, before, frame):
            raise Refused("a test of what is no count")
    if not packs_truths(code[form.start("loop") :], before, frame):
        raise Refused("packs what is no truth value")
    start = re.match(rf"(?:(?!{STORES}).*\n)*", form["start"]).group()
    made = {count, f"mov {place},{length}"}
    for register in {length, place, form["tested"] or place}:
        loads = {write for write in writes(start, register) if re.fullmatch(length_load(frame), write)}
        others = writes(start, register) - loads | writes(code[form.start("start") + len(start) :], register)
        if register not in (length, place) or register in ("rax", "rdx") or others - made:
            raise Refused(f"{register} is tested, and is not the place")
    for store in re.findall(rf"{STORES}.*", code):
        if not store_is_safe(store, code, frame, place):
            raise Refused(f"stores elsewhere: {store}")
    for register in address_registers(code) - {length, place}:
        if not all(re.fullmatch(BASE, write) for write in writes(code, register)):
            raise Refused(f"{register} makes an address")
    tested = ", and a trap for a divisor of 0" if form["trap"] else ""
    return f"{len(code.splitlines())} instructions, one division, two conditional jumps, both on the place{tested}"


def main(file, function):
    code = listing(file, function)
    if not code:
        sys.exit(f"{function}: no such function")
    try:
        print(f"{function}: {look(code)}")
    except Refused as why:
        print(f"{function}: refused: {why}")
        sys.exit(3)


main(*sys.argv[1:])
