"""Sums the stack along the archive's call graph; scripts/stack.sh says what for.

It reads what objdump writes and follows each function from its first instruction, with the depth: how far rsp stands
below where it stood at the function's entry. There stands the return address, 8 bytes that belong to the call.
  frame       the greatest depth. push and pop move it by 8, sub, add and lea of a constant by that constant.
  red zone    a function may use the 128 bytes below rsp. -0x18(%rsp) reaches 0x18 below the depth that it is met at.
              Where a function that calls nothing takes an address on its stack and does more with it than read and
              write there and above, all 128 count. One that calls keeps nothing there: a call would overwrite it.
  call        the depth there, 8 for the return address, and what the callee takes.
  tail call   a jump that leaves the function: what the other function takes. The own frame is gone by then.
  arguments   those that do not fit into registers, by the prototypes of include/estimator.h.
Where this leaves something open it fails with 'cannot tell': rsp set in another way, indirect calls and jumps but for
the one that scripts/bind.sh writes, an instruction that is reached with two depths, or by no way (so a jump table shows
itself). A jump to a function's own first instruction without a relocation is a loop and no call.
"""

import os
import re
import subprocess
import sys
from collections import namedtuple
from pathlib import Path

ROOT = Path(__file__).resolve().parent.parent
ARCHIVE = ROOT / "target/staticlib/libestimator.a"
HEADER = ROOT / "include/estimator.h"
WORD = 8  # bytes of a push, of a return address and of an argument on the stack
RED_ZONE = 128
# All that the archive may need of the C library. glibc's take nothing below their return address; the allowance is for
# other libraries, in which they may be compiled C with a frame of a few words.
C_LIBRARY = ("memset", "memcpy", "memmove")
C_LIBRARY_BYTES = 128

Symbol = namedtuple("Symbol", "name section offset is_local is_weak is_hidden is_function")
Instruction = namedtuple("Instruction", "at following text prefixes mnemonic operands references")
# A call or, if `address` is 0 and not 8, a tail call, at this depth of the caller.
Call = namedtuple("Call", "depth address target")


class Unclear(Exception):
    """What makes a figure impossible to tell."""


# ---- what objdump writes
class Member:
    """An object of the archive: its symbols, and the instructions of each of its sections of code."""

    def __init__(self, name, number):
        self.name, self.number = name, number
        self.symbols = []
        self.sections = {}


PREFIX = re.compile(r"(repn?z?|bnd|notrack|lock|data16|addr32|[c-gs]s|rex\S*)\s+")
LABEL_OR_HEAD = re.compile(r"[0-9a-f]{16} <.*>:|In archive .*:|SYMBOL TABLE:|no symbols|")


def parsed_instruction(at, text, references):
    """Without the comment and the symbol that objdump adds: prefixes, mnemonic, and operands apart."""
    rest, prefixes = re.split(r"\s+[#<]", text.strip() + " ")[0].strip(), []
    while PREFIX.match(rest):
        prefix, rest = rest.split(None, 1)
        prefixes.append(prefix)
    mnemonic, _, operands = rest.partition(" ")
    # older objdumps write callq, retq, pushq; branch hints follow a comma
    mnemonic = re.sub(r"^(call|ret|push|pop|jmp|lea|add|sub|mov)q$", r"\1", mnemonic.split(",")[0])
    operands = [o.strip() for o in re.split(r",(?![^(]*\))", operands) if o.strip()]
    pairs = [(references[i].split(": ")[1], references[i + 1]) for i in range(0, len(references), 2)]
    return Instruction(at, None, " ".join(text.split("#")[0].split()), prefixes, mnemonic, operands, pairs)


def parsed_symbol(match):
    offset, flags, section, name = match.groups()
    visibility = re.match(r"\.(hidden|internal|protected) ", name)
    name = name[visibility.end() :] if visibility else name
    hidden = bool(visibility) and visibility.group(1) != "protected"
    return Symbol(name, section, int(offset, 16), flags[0] == "l", flags[1] == "w", hidden, flags[6] == "F")


def disassembly(archive):
    # -z: zeros are instructions too; -w: a relocation stands on the line of its instruction
    command = ["objdump", "-t", "-d", "-r", "-z", "-w", "--no-show-raw-insn", str(archive)]
    done = subprocess.run(command, capture_output=True, encoding="utf-8", env={**os.environ, "LC_ALL": "C"})
    if done.returncode or done.stderr:
        raise Unclear(f"objdump cannot read {archive}: {' '.join(done.stderr.split())}")
    return done.stdout.split("\n")


def members(archive):
    found, section = [], None
    for line in disassembly(archive):
        if code := re.match(r"\s*([0-9a-f]+):\t(.*)", line):
            text, *references = code.group(2).split("\t")
            section.append(parsed_instruction(int(code.group(1), 16), text, references))
        elif entry := re.fullmatch(r"([0-9a-f]{16}) (.{7}) (.*)\t[0-9a-f]{16} (.*)", line):
            found[-1].symbols.append(parsed_symbol(entry))
        elif title := re.fullmatch(r"Disassembly of section (.*):", line):
            if title.group(1) in found[-1].sections:
                raise Unclear(f"cannot tell: {found[-1].name} has two sections {title.group(1)}")
            section = found[-1].sections[title.group(1)] = []
        elif head := re.fullmatch(r"(.*):\s+file format (\S+)", line):
            if head.group(2) != "elf64-x86-64":
                raise Unclear(f"{head.group(1)} is not of x86-64, but {head.group(2)}")
            found.append(Member(head.group(1), len(found)))
        elif not LABEL_OR_HEAD.fullmatch(line.strip()):
            raise Unclear(f"objdump writes a line that is not understood: {line.strip()}")
    return found


# ---- functions and what their names stand for
PADDING = re.compile(r"((data16|cs|rex\S*) )*nop[wl]?( .*)?|xchg %ax,%ax|int3")


class Function:
    """Instructions from a function's symbol to the next one. Its key is its place: member, section, offset."""

    def __init__(self, name, key, member, code):
        self.name, self.key, self.member = name, key, member
        followed = zip(code, [i.at for i in code[1:]] + [None])
        self.code = {i.at: i._replace(following=following) for i, following in followed}
        self.frame = None  # bytes that it takes without its callees; None as long as that cannot be told
        self.calls = []

    def unclear(self, instruction, what):
        return Unclear(f"cannot tell: {self.name}+{instruction.at - self.key[2]:#x}, {instruction.text}: {what}")


class Archive:
    """All functions of an archive by their keys, and the symbols that one member has for others."""

    def __init__(self, path):
        self.members = members(path)
        self.functions = {}
        self.failures = []
        self.shared = {}  # name -> places of its definitions
        for member in self.members:
            self.find_functions(member)
            for s in member.symbols:
                if not s.is_local and not s.section.startswith("*"):
                    self.shared.setdefault(s.name, []).append((member.number, s.section, s.offset))
        if not self.functions:
            self.failures.append(f"there are no functions in {path}")
        self.check_symbols()

    def find_functions(self, member):
        starts = {}
        for s in member.symbols:
            if s.is_function and s.section in member.sections:
                starts.setdefault(s.section, {}).setdefault(s.offset, s.name)
        for section, code in member.sections.items():
            at = sorted(starts.get(section, {}))
            outside = [i for i in code if not at or i.at < at[0]]
            if any(not PADDING.fullmatch(i.text) for i in outside):
                self.failures.append(f"cannot tell: {section} of {member.name} begins with code of no function")
            for start, end in zip(at, at[1:] + [float("inf")]):
                key = (member.number, section, start)
                own = [i for i in code if start <= i.at < end]
                self.functions[key] = Function(starts[section][start], key, member, own)

    def check_symbols(self):
        for member in self.members:
            for s in member.symbols:
                if s.is_weak:
                    self.failures.append(f"cannot tell: {s.name} of {member.name} is weak, another may take its place")
                # the assembler names the table in which a bound jump finds its address; nothing is called by it
                known = s.name in self.shared or s.name in C_LIBRARY or s.name == "_GLOBAL_OFFSET_TABLE_"
                if s.section == "*UND*" and not known:
                    self.failures.append(f"{member.name} needs {s.name}, which is neither in the archive nor known")

    def resolve(self, member, name, offset):
        """The key of the function at a symbol or section, or the name of an undefined symbol."""
        if name in member.sections:
            places = [(member.number, name, 0)]
        else:
            own = [s for s in member.symbols if s.name == name and s.is_local]
            places = [(member.number, s.section, s.offset) for s in own] or self.shared.get(name, [])
            if offset == 0 and any(s.name == name and s.section == "*UND*" for s in member.symbols) and not places:
                return name
        keys = [(number, section, start + offset) for number, section, start in places]
        if len(keys) != 1 or keys[0] not in self.functions:
            raise Unclear(f"{name}{offset:+#x} is not the beginning of one function of the archive")
        return keys[0]

    def exported(self):
        """The C calls: name -> key, None where there is no code."""
        found = {}
        for member in self.members:
            for s in member.symbols:
                if s.name.startswith("kan_") and not (s.is_local or s.is_hidden or s.section == "*UND*"):
                    key = (member.number, s.section, s.offset)
                    found[s.name] = key if key in self.functions else None
        return found


# ---- one function
STACK_POINTER = re.compile(r"%(rsp|esp|sp|spl)\b")
WORD_OPERAND = re.compile(r"%r([a-ds][ixp]|1?\d)|\$-?0x[0-9a-f]+|[^%$]*\(.*\)")
# They use the stack or go elsewhere in a way that is not followed here. Plain call, jmp, ret, push and pop are taken
# out before; what is left of them are other sizes, such as callw.
UNFOLLOWED = re.compile(
    r"(l?call|l?jmp|(l|i|ui)?ret|push|pop(?!cnt)|leave|enter|sys|int|hlt|xbegin|xabort|xend|vm[clr]|\(bad\)|\.).*"
    r"|repn?z?|bnd|notrack|lock|data16|addr32|[c-gs]s|rex\S*"  # prefixes of nothing
)
JUMP = re.compile(r"jmp|j(?!mp)[a-z]+|loop(e|ne)?")


def signed(digits):
    number = int(digits, 16)
    return number - 2**64 if number >= 2**63 else number


def below_pointer(instruction):
    """How far the lowest operand that is named by rsp lies below it."""
    return max([int(digits, 16) for digits in re.findall(r"-(0x[0-9a-f]+)\(%rsp[,)]", instruction.text)], default=0)


def takes_address(instruction):
    """Whether it hands an address on the stack to a register, or counts from it by one."""
    from_pointer = "%rsp" in instruction.operands[:-1] or instruction.operands[:1] == ["%rsp"]
    by_lea = instruction.mnemonic == "lea" and "(%rsp" in instruction.operands[0] and instruction.operands[1] != "%rsp"
    return from_pointer or by_lea or "(%rsp," in instruction.text


def register_taken(instruction):
    """The register that a plain lea or mov gives an address on the stack to; None where it is done in another way."""
    plain = re.fullmatch(r"lea -?(?:0x[0-9a-f]+)?\(%rsp\),(%r\w+)|mov %rsp,(%r\w+)", instruction.text)
    return plain and (plain.group(1) or plain.group(2))


def all_widths(register):
    """An expression for a register and its parts: %rax, %eax, %ax, %al, %ah; %rsi ... %sil; %r8 ... %r8b."""
    letters = register[2:]
    if letters[0].isdigit():
        return rf"{register}[dwb]?\b"
    low = rf"{letters[0]}[lh]" if letters.endswith("x") else f"{letters}l"
    return rf"%([re]?{letters}|{low})\b"


def moved(instruction):
    """By how much an instruction that is no jump, call or return makes the stack deeper; None if that is unclear."""
    mnemonic, operands = instruction.mnemonic, instruction.operands
    if mnemonic in ("push", "pop") and not instruction.prefixes:
        if not WORD_OPERAND.fullmatch(operands[0]) or (mnemonic, operands[0]) == ("pop", "%rsp"):
            return None
        return WORD if mnemonic == "push" else -WORD
    bare = [o for o in operands if STACK_POINTER.fullmatch(o)]
    if UNFOLLOWED.fullmatch(mnemonic) or any(o != "%rsp" for o in bare):
        return None
    if re.search(r"\(%e?sp\b", instruction.text):
        return None
    if not bare:
        return 0
    if operands[-1] != "%rsp":
        # the last operand is what is written, the others are only read; not so with xchg and the like
        return 0 if mnemonic in ("mov", "movq", "add", "sub", "cmp") else None
    constant = re.fullmatch(r"\$(0x[0-9a-f]+)", operands[0])
    if constant and mnemonic in ("add", "sub") and not instruction.prefixes:
        return signed(constant.group(1)) * (1 if mnemonic == "sub" else -1)
    constant = re.fullmatch(r"(-?)(0x[0-9a-f]+)\(%rsp\)", operands[0])
    if constant and mnemonic == "lea" and not instruction.prefixes:
        return int(constant.group(2), 16) * (1 if constant.group(1) else -1)
    return None


PLAIN_RELOCATIONS = ("R_X86_64_PC32", "R_X86_64_PLT32")
BOUND_RELOCATIONS = ("R_X86_64_GOTPCREL", "R_X86_64_GOTPCRELX")


def is_bound_jump(instruction):
    """As scripts/bind.sh writes it: through the pointer to a function of the C library, which the loader fills."""
    pointers = [(kind, f"{name}-0x4") for kind in BOUND_RELOCATIONS for name in C_LIBRARY]
    plain = instruction.mnemonic == "jmp" and instruction.operands == ["*0x0(%rip)"]
    return plain and len(instruction.references) == 1 and instruction.references[0] in pointers


class Walk:
    """Follows a function by all ways from its first instruction, and tells it its frame and its calls."""

    def __init__(self, function, archive):
        self.function, self.archive = function, archive
        self.depths = {}
        self.ways = {}  # instruction -> those that may follow it
        self.todo = []
        self.reach = 0
        self.takers = []  # instructions that take an address on the stack

    def run(self):
        function = self.function
        first = function.code.get(function.key[2])
        if first is None:
            raise Unclear(f"cannot tell: {function.name} has no code")
        self.depths[first.at] = 0
        self.todo.append(first)
        while self.todo:
            instruction = self.todo.pop()
            self.visit(instruction, self.depths[instruction.at])
        for instruction in function.code.values():
            if instruction.at not in self.depths and not PADDING.fullmatch(instruction.text):
                raise function.unclear(instruction, "is never reached")
        if not any(call.address for call in function.calls) and not all(map(self.stays_above, self.takers)):
            self.reach = max(self.reach, max(self.depths.values()) + RED_ZONE)
        function.frame = self.reach

    def stays_above(self, taker):
        """Whether an address that is taken serves for nothing but plain accesses at it and above it."""
        register = register_taken(taker)
        if not register:
            return False
        seen, todo = set(), set(self.ways[taker.at])
        while todo:
            instruction = self.function.code[todo.pop()]
            seen.add(instruction.at)
            accesses = rf"(0x[0-9a-f]+)?\({register}\)" if instruction.mnemonic != "lea" else "(?!)"
            others = [o for o in instruction.operands if not re.fullmatch(accesses, o)]
            if re.search(all_widths(register), " ".join(others)):
                return False
            todo |= self.ways.get(instruction.at, set()) - seen
        return True

    def arrive(self, origin, at, depth):
        if at is None:
            raise self.function.unclear(origin, "runs past the end of the function")
        if depth < 0:
            raise self.function.unclear(origin, "takes what the caller has on the stack")
        self.ways.setdefault(origin.at, set()).add(at)
        if at not in self.depths:
            self.depths[at] = depth
            self.todo.append(self.function.code[at])
        elif self.depths[at] != depth:
            what = f"is reached with {self.depths[at]} bytes on the stack and with {depth}"
            raise self.function.unclear(self.function.code[at], what)

    def visit(self, instruction, depth):
        self.reach = max(self.reach, depth + below_pointer(instruction))
        if takes_address(instruction):
            self.takers.append(instruction)
        mnemonic = instruction.mnemonic
        flow = mnemonic in ("call", "ret", "ud2") or JUMP.fullmatch(mnemonic)
        if flow and set(instruction.prefixes) - {"repz", "bnd"}:
            raise self.function.unclear(instruction, "the prefix is not known here")
        if mnemonic == "call":
            self.function.calls.append(Call(depth, WORD, self.target(instruction)))
            self.arrive(instruction, instruction.following, depth)
        elif mnemonic == "ret":
            if depth or instruction.operands:
                raise self.function.unclear(instruction, f"returns with {depth} bytes on the stack")
        elif mnemonic == "ud2":  # the processor stops the program
            return
        elif flow:
            self.jump(instruction, depth)
        else:
            deeper = moved(instruction)
            if deeper is None:
                raise self.function.unclear(instruction, "this use of the stack is not followed")
            self.reach = max(self.reach, depth + deeper)
            self.arrive(instruction, instruction.following, depth + deeper)

    def jump(self, instruction, depth):
        operand = instruction.operands[0]
        at = None if instruction.references or operand.startswith("*") else int(operand, 16)
        if at in self.function.code:
            self.arrive(instruction, at, depth)
        else:
            target = self.target(instruction)
            if depth:
                raise self.function.unclear(instruction, f"leaves the function with {depth} bytes on the stack")
            self.function.calls.append(Call(depth, 0, target))
        if instruction.mnemonic != "jmp":
            self.arrive(instruction, instruction.following, depth)

    def target(self, instruction):
        function, operand, references = self.function, instruction.operands[0], instruction.references
        if operand.startswith("*") and not is_bound_jump(instruction):
            raise function.unclear(instruction, "where it goes is decided at run time")
        try:
            if not references:
                return self.archive.resolve(function.member, function.key[1], int(operand, 16))
            (kind, place), *others = references
            if others or (kind not in PLAIN_RELOCATIONS and not is_bound_jump(instruction)):
                raise Unclear("this relocation is not known here")
            name, addend = re.fullmatch(r"(.*?)([+-]0x[0-9a-f]+)?", place).groups()
            # the field that is filled in is the instruction's last and counts from its end
            return self.archive.resolve(function.member, name, int(addend or "0", 16) + 4)
        except Unclear as problem:
            raise function.unclear(instruction, problem) from None


# ---- the graph
def cycles(functions):
    """Each way back to a function that has not ended yet, as a list of names."""
    found, ended = [], set()

    def visit(key, path):
        for target in dict.fromkeys(call.target for call in functions[key].calls):
            if target in path:
                found.append([functions[k].name for k in path[path.index(target) :] + [target]])
            elif target in functions and target not in ended:
                visit(target, path + [target])
        ended.add(key)

    for key in functions:
        if key not in ended:
            visit(key, [key])
    return found


def deepest(functions, key, known):
    """Bytes below a function's return address, and the path: names with their shares. None where one is unclear."""
    if key not in functions:
        return (C_LIBRARY_BYTES, [(key, C_LIBRARY_BYTES)]) if key in C_LIBRARY else None
    if key not in known:
        function = functions[key]
        ways = [(function.frame, [(function.name, function.frame)])]
        callees = [deepest(functions, call.target, known) for call in function.calls]
        known[key] = None
        if function.frame is not None and None not in callees:
            for call, (size, path) in zip(function.calls, callees):
                (name, share), *others = path
                path = [(function.name, call.depth), (name, call.address + share), *others]
                ways.append((call.depth + call.address + size, path))
            known[key] = max(ways, key=lambda way: way[0])
    return known[key]


# ---- the header
INTEGERS = {"char", "short", "int", "long", "signed", "unsigned", "size_t", "bool", "_Bool"} | {
    f"{sign}int{bits}_t" for sign in ("u", "") for bits in (8, 16, 32, 64)
}
FLOATS = {"float", "double"}


def kind_of(declaration):
    """'integer' or 'float', by the register that a parameter or result travels in."""
    if "*" in declaration or "[" in declaration:
        return "integer"
    known = [w for w in re.findall(r"\w+", declaration) if w in INTEGERS | FLOATS]
    if not known or ("long" in known and "double" in known):
        raise Unclear(f"cannot tell how '{' '.join(declaration.split())}' is passed")
    return "float" if known[0] in FLOATS else "integer"


def argument_bytes(parameters):
    """What the caller puts on the stack: all but six integers or pointers and eight floats, kept a multiple of 16."""
    kinds = [kind_of(p) for p in parameters.split(",")] if parameters.strip() not in ("", "void") else []
    words = max(0, kinds.count("integer") - 6) + max(0, kinds.count("float") - 8)
    return (words * WORD + 15) // 16 * 16


def promises(header):
    """The bytes that a header promises, and the bytes of arguments of each of its calls."""
    text = re.sub(r"/\*.*?\*/|//[^\n]*", " ", header.read_text(encoding="utf-8"), flags=re.S)
    promised = re.findall(r"^\s*#\s*define\s+ESTIMATOR_STACK_BYTES\s+(\d+)\s*$", text, re.M)
    if len(promised) != 1:
        raise Unclear(f"{header.name} does not define ESTIMATOR_STACK_BYTES as one number")
    code = re.sub(r"^\s*#(.*\\\n)*.*$", "", text, flags=re.M)
    arguments = {}
    for result, name, parameters in re.findall(r"([\w\s*]+?)\b(kan_\w+)\s*\(([^()]*)\)\s*;", code):
        if result.split() != ["void"]:
            kind_of(result)  # a struct would be returned through one more argument
        arguments[name] = argument_bytes(parameters)
    return int(promised[0]), arguments


def stated_otherwise(header, found):
    """A header may state each call's bytes in a table of its first comment: ' *   kan_call   2,736'."""
    rows = re.findall(r"^ \*   (kan_\w+) +([\d,]+)$", header.read_text(encoding="utf-8"), re.M)
    stated = {call: int(size.replace(",", "")) for call, size in rows}
    for size, call, _ in found:
        if stated and stated.get(call) != size:
            yield f"{call} takes {size:,} bytes, and {header.name} states {stated.get(call, 'nothing')} of it"


# ---- the verdict
def frames(path):
    """The archive, each of its functions followed."""
    archive = Archive(path)
    for function in archive.functions.values():
        try:
            Walk(function, archive).run()
        except Unclear as problem:
            archive.failures.append(str(problem))
    return archive


def figures(archive, arguments):
    """(bytes, call, names and shares along the deepest path) of the C calls, the largest first."""
    found, known = [], {}
    for call, key in archive.exported().items():
        way = deepest(archive.functions, key, known)
        if way is not None:
            (_, share), *others = way[1]
            shares = [(call, WORD + share), *others]
            if arguments[call]:
                shares.insert(0, ("arguments", arguments[call]))
            found.append((arguments[call] + WORD + way[0], call, shares))
    return sorted(found, key=lambda figure: (-figure[0], figure[1]))


def path_text(shares, quote=""):
    return " > ".join(f"{quote}{name}{quote} {share:,}" for name, share in shares)


def differences(exported, arguments, header):
    if not arguments:
        yield f"{header.name} has no prototypes"
    for call in sorted(set(exported) | set(arguments)):
        if call not in exported:
            yield f"{call} stands in {header.name}, and the archive does not have it"
        elif call not in arguments:
            yield f"{call} is in the archive, and {header.name} has no prototype of it"
        elif exported[call] is None:
            yield f"{call} is no function"


def examine(path, header):
    """The failures, the figures, and the bytes that are promised."""
    try:
        promised, arguments = promises(header)
        archive = frames(path)
    except (Unclear, OSError) as problem:
        return [str(problem)], [], 0
    circles = [f"calls itself: {' -> '.join(cycle)}" for cycle in cycles(archive.functions)]
    unlike = list(differences(archive.exported(), arguments, header))
    failures = archive.failures + circles + unlike
    if circles or unlike:  # then there are no sums, or not of all
        return failures, [], promised
    found = figures(archive, arguments)
    if len(found) != len(arguments) and not failures:
        failures.append("cannot tell what all calls take, and not why")
    for size, call, shares in found:
        if size > promised:
            failures.append(f"{call} takes {size:,} bytes, and {promised:,} are promised: {path_text(shares)}")
    return failures + list(stated_otherwise(header, found)), found, promised


def verdict(path, header, markdown=False):
    """Prints it, and returns the exit status."""
    failures, found, promised = examine(path, header)
    if failures:
        for text in dict.fromkeys(failures):
            print(f"stack: {text}", file=sys.stderr)
        return 1
    if markdown:
        print("| call | bytes | deepest path |\n| --- | ---: | --- |")
        for size, call, shares in found:
            print(f"| `{call}` | {size:,} | {path_text(shares, '`')} |")
        return 0
    for size, call, shares in found:
        print(f"{call} {size}: {path_text(shares)}")
    print(
        f"stack: nothing in {path.name} calls itself; the deepest of {len(found)} calls takes {found[0][0]:,} of the"
        f" {promised:,} bytes promised"
    )
    return 0


def main(arguments):
    archives = [a for a in arguments if not a.startswith("--")]
    if len(archives) > 1 or set(arguments) - set(archives) - {"--markdown"}:
        print("stack: usage: scripts/stack.sh [--markdown] [ARCHIVE] or scripts/stack.sh --self-test", file=sys.stderr)
        return 2
    return verdict(Path(archives[0]) if archives else ARCHIVE, HEADER, "--markdown" in arguments)


if __name__ == "__main__":
    sys.exit(main(sys.argv[1:]))
