"""Tries scripts/stack.py on small archives of which the answer is known; most of them must be refused."""

import contextlib
import io
import re
import subprocess
import sys
import tempfile
from collections import namedtuple
from pathlib import Path

from stack import verdict

RED_ZONE = 128  # by the ABI; written out, so that another number in stack.py is noticed

# Name -> assembly. Each figure is reckoned by hand in STRAIGHT_FIGURES.
STRAIGHT = {
    "kan_callee": "push %rbx; push %r14; sub $0x28,%rsp; lea 8(%rsp),%rdi; mov %rdi,%rsi; call leaf; call leaf;"
    "add $0x28,%rsp; pop %r14; pop %rbx; ret",
    "leaf": "push %rbx; mov %rdi,-0x18(%rsp); mov -8(%rsp),%rax; pop %rbx; rep ret",
    "kan_tail": "push %rax; pop %rax; test %rdi,%rdi; jne wide; jmp leaf",
    "wide": "sub $0x100,%rsp; lea 0x80(%rsp),%rsp; add $0x80,%rsp; ret",
    "kan_fill": "push %rax; call memset@PLT; pop %rax; ret",
    "kan_bound": "push %rax; call estimator_memcpy; pop %rax; ret",
    "kan_second": "call second; ret",
    "first": "ret; .type second,@function; second: push %rax; push %rcx; pop %rcx; pop %rax; ret",
    "kan_many": "ret",
    "kan_seven": "push %rax; pop %rax; ret",
    "kan_hidden": ".hidden kan_hidden; ret",
}
BOUND = {"estimator_memcpy": ".globl estimator_memcpy; .hidden estimator_memcpy; jmp *memcpy@GOTPCREL(%rip)"}
STRAIGHT_HEADER = """
/* uint32_t kan_comment(size_t a);
 *   kan_callee     104
 *   kan_tail       264
 *   kan_fill       152
 *   kan_many        40
 *   kan_seven       32
 *   kan_bound      152
 *   kan_second      32
 */
uint32_t kan_callee(void); size_t *kan_tail(void); void kan_fill(float a); // float kan_note(void);
uint32_t kan_many(const size_t *a, size_t b, float c, float d, float e, double f, float g, float h,
                  float i, float j, float k, uint64_t l, uint8_t *map, unsigned int n, float *o,
                  int p[2], size_t q);
#define NOT_A_PROTOTYPE \\
    uint32_t kan_macro(void);
uint32_t kan_seven(size_t a, size_t b, size_t c, size_t d, size_t e, size_t f, float g[4]);
uint32_t kan_bound(void); uint32_t kan_second(void);
"""
STRAIGHT_FIGURES = [
    "kan_tail 264: kan_tail 8 > wide 256",  # a frame of 0x100, and one return address
    "kan_bound 152: kan_bound 16 > estimator_memcpy 8 > memcpy 128",
    "kan_fill 152: kan_fill 16 > memset 136",  # 8, push 8, 8 and the allowance
    "kan_callee 104: kan_callee 64 > leaf 40",  # 8, two pushes, 0x28; 8, push 8, and 0x18 of the red zone
    "kan_many 40: arguments 32 > kan_many 8",  # the 7th and 8th integer, the 9th float: 24, so 32; and 8
    "kan_second 32: kan_second 8 > second 24",  # 8; 8 and two pushes
    "kan_seven 32: arguments 16 > kan_seven 16",  # the 7th, an array and so a pointer: 8, so 16; 8, push 8
    "stack: nothing in small.a calls itself; the deepest of 7 calls takes 264 of the 264 bytes promised",
]
# Assembly of a call -> its bytes, with the 8 of the return address.
SINGLE = {
    "push %rbx; add $-0x80,%rsp; 1: lea -0x10(%rsp),%rsp; dec %ebx; lea 0x10(%rsp),%rsp; jne 1b;"
    "sub $-0x80,%rsp; pop %rbx; ret": 8 + 8 + 0x80 + 0x10,
    "1: dec %rdi; jne 1b; ret": 8,  # a loop, though it begins with the function
    "popcnt %rdi,%rdi; je 1f; push %rax; jmp 2f; 1: push 8(%rdi); 2: push $1; jp 3f; add $0x10,%rsp; ret;"
    "3: ud2; xchg %ax,%ax; nopw 0(%rax,%rax,1); .byte 0x66,0x66,0x2e,0x0f,0x1f,4,0; int3": 8 + 16,
    "jmp 2f; 1: pop %rax; ret; 2: push -0x20(%rsp); jmp 1b": 8 + 0x20,
    "push %rbp; mov %rsp,%rbp; movb $1,-8(%rbp); pop %rbp; ret": 8 + 8 + RED_ZONE,
    "mov %rsp,%rcx; movb $1,-8(%rcx); ret": 8 + RED_ZONE,
    "movb $1,0x10(%rsp,%rdi,1); ret": 8 + RED_ZONE,
    "mov %rsp,%rcx; movb $1,8(%rcx); ret": 8,
    "jmp 2f; 1: mov (%rdi),%edx; ret; 2: lea -0x20(%rsp),%rdi; mov %rax,8(%rdi); dec %dl; jne 1b; ret": 8 + 0x20,
    "jmp 2f; 1: dec %edi; ret; 2: lea -0x20(%rsp),%rdi; mov %rax,8(%rdi); dec %dl; jne 1b; ret": 8 + RED_ZONE,
    "lea -8(%rsp),%rax; 1: mov (%rax),%rcx; dec %rcx; jne 1b; add $8,%al; ret": 8 + RED_ZONE,
    "lea -8(%rsp),%rsi; mov %rax,(%rsi,%rdi,8); ret": 8 + RED_ZONE,
    "lea -8(%rsp),%r8; lea (%r8),%rdi; ret": 8 + RED_ZONE,
    "lea -8(%rsp),%r8; inc %r8d; ret": 8 + RED_ZONE,
    "lea -8(%rsp,%rdi,8),%rax; mov (%rax),%rcx; ret": 8 + RED_ZONE,
    "push %rsp; pop %rax; mov -8(%rax),%rax; ret": 8 + 8 + RED_ZONE,
    "push %rax; lea -8(%rsp),%rdi; pop %rax; jmp even": 8 + 8 + 8,
    "push %rcx; lea -8(%rsp),%rdi; mov %rdi,%rax; pop %rcx; jmp even": 8 + 8 + RED_ZONE,
}
NOT_FOLLOWED = "this use of the stack is not followed"
AT_RUN_TIME = "where it goes is decided at run time"
# Assembly of a function -> why nothing can be told of it.
UNCLEAR = {
    "push %rbp; mov %rsp,%rbp; sub %rdi,%rsp; mov %rbp,%rsp; pop %rbp; ret": NOT_FOLLOWED,
    "and $-16,%rsp; ret": NOT_FOLLOWED,
    "mov %rdi,%rsp; ret": NOT_FOLLOWED,
    "push %rbp; mov %rsp,%rbp; leave; ret": NOT_FOLLOWED,
    "enter $8,$0; ret": NOT_FOLLOWED,
    "xchg %rsp,%rax; ret": NOT_FOLLOWED,
    "xadd %rsp,%rax; ret": NOT_FOLLOWED,
    "sub (%rdi),%rsp; ret": NOT_FOLLOWED,
    "mov 8(%rsp),%rsp; ret": NOT_FOLLOWED,
    "lea (%rsp,%rdi),%rsp; ret": NOT_FOLLOWED,
    "sub $8,%esp; ret": NOT_FOLLOWED,
    "inc %rsp; ret": NOT_FOLLOWED,
    "push %rax; pop %rsp; ret": NOT_FOLLOWED,
    "push %ax; ret": NOT_FOLLOWED,
    "pushf; ret": NOT_FOLLOWED,
    "mov 8(%esp),%eax; ret": NOT_FOLLOWED,
    "syscall; ret": NOT_FOLLOWED,
    ".byte 0x66,0xe8,0,0; ret": NOT_FOLLOWED,  # callw
    ".byte 0x66,0xe9,0,0": NOT_FOLLOWED,  # jmpw
    ".byte 0x48; ret": "the prefix is not known here",
    "loop beside; ret": "this relocation is not known here",
    "call *%rax; ret": AT_RUN_TIME,
    "call *8(%rdi); ret": AT_RUN_TIME,
    "call *memset@GOTPCREL(%rip); ret": AT_RUN_TIME,
    "jmp *%rax": AT_RUN_TIME,
    "jmp *kan_one@GOTPCREL(%rip)": AT_RUN_TIME,
    "ret; inc %rax; ret": "is never reached",
    "ret; .byte 0,0,0,0,0,0,0,0": "is never reached",
    "je 1f; push %rax; 1: ret": "is reached with 0 bytes on the stack and with 8",
    "1: push %rax; jmp 1b": "is reached with 0 bytes on the stack and with 8",
    "push %rax; ret": "returns with 8 bytes on the stack",
    "ret $8": "returns with 0 bytes on the stack",
    "pop %rax; ret": "takes what the caller has on the stack",
    "push %rax; jmp kan_one": "leaves the function with 8 bytes on the stack",
    "inc %rax": "runs past the end of the function",
    "jmp beside+1": ".text.beside+0x1 is not the beginning of one function of the archive",
    "jmp memset+1": "memset+0x1 is not the beginning of one function of the archive",
    "call 1f; 1: pop %rax; ret": ".text.{name}+0x5 is not the beginning of one function of the archive",
}


Case = namedtuple("Case", "title members expected promised prototypes")


def case(title, members, *expected, promised=999, prototypes="uint32_t kan_one(size_t a);"):
    return Case(title, members, [f"stack: {text}" for text in expected], promised, prototypes)


SIMPLE = {"kan_one": "ret"}
EVEN = {"kan_one": "push %rbx; call even; pop %rbx; ret", "even": "call odd; ret"}
VARIABLE = "push %rbp; mov %rsp,%rbp; sub %rdi,%rsp; mov %rbp,%rsp; pop %rbp; ret"
# Archives and headers that must fail, each with all that is to be said of it.
FAILING = [
    case("itself", [{**EVEN, "even": "call even; ret"}], "calls itself: even -> even"),
    case("itself by name", [{"kan_one": "call kan_one@PLT; ret"}], "calls itself: kan_one -> kan_one"),
    case("each other", [{**EVEN, "odd": "call even; ret"}], "calls itself: even -> odd -> even"),
    case("by a tail jump", [{**EVEN, "odd": "jmp even"}], "calls itself: even -> odd -> even"),
    case("by a jump not always taken", [{**EVEN, "odd": "je even; ret"}], "calls itself: even -> odd -> even"),
    case("reached by nothing", [SIMPLE, {"lost": "call lost; ret"}], "calls itself: lost -> lost"),
    case(
        "a frame of variable size",
        [{"kan_one": VARIABLE}],
        f"cannot tell: kan_one+0x4, sub %rdi,%rsp: {NOT_FOLLOWED}",
    ),
    case("an indirect call", [{"kan_one": "call *%rax; ret"}], f"cannot tell: kan_one: {AT_RUN_TIME}"),
    case(
        "all that is unclear",
        [{**SIMPLE, "beside": "push %rax; pop %rax; ret", **{f"f{i}": body for i, body in enumerate(UNCLEAR)}}],
        *(f"cannot tell: f{i}: {reason.format(name=f'f{i}')}" for i, reason in enumerate(UNCLEAR.values())),
    ),
    case(
        "a byte too many",
        [STRAIGHT, BOUND],
        "kan_tail takes 264 bytes, and 263 are promised: kan_tail 8 > wide 256",
        promised=263,
        prototypes=STRAIGHT_HEADER,
    ),
    case(
        "figures stated otherwise",
        [{**SIMPLE, "kan_two": "ret", "kan_three": "push %rax; pop %rax; ret"}],
        "kan_three takes 16 bytes, and header.h states 1015 of it",
        "kan_two takes 8 bytes, and header.h states nothing of it",
        prototypes="/*\n *   kan_one   8\n *   kan_three   1,015\n */\n"
        "uint32_t kan_one(void); uint32_t kan_two(void); uint32_t kan_three(void);",
    ),
    case(
        "a prototype without function",
        [SIMPLE],
        "kan_two stands in header.h, and the archive does not have it",
        prototypes="uint32_t kan_one(void); uint32_t kan_two(void);",
    ),
    case(
        "a function without prototype",
        [{**SIMPLE, "kan_two": "ret"}],
        "kan_two is in the archive, and header.h has no prototype of it",
    ),
    case("data", [{"even": "ret; .data; .globl kan_one; kan_one: .byte 0"}], "kan_one is no function"),
    case(
        "an unknown symbol",
        [{"kan_one": "push %rax; call malloc@PLT; pop %rax; ret"}],
        "member0.o needs malloc, which is neither in the archive nor known",
    ),
    case(
        "two of one name",
        [{"kan_one": "call odd; ret"}, *[{"odd": ".globl odd; ret"}] * 2],
        "cannot tell: kan_one: odd+0x0 is not the beginning of one function of the archive",
    ),
    case(
        "a weak function",
        [{"kan_one": "call odd; ret", "odd": ".weak odd; ret"}],
        "cannot tell: odd of member0.o is weak, another may take its place",
    ),
    case(
        "a function chosen at load time",
        [{"kan_one": "call odd@PLT; ret", "odd": ".globl odd; ret; .type odd,@gnu_indirect_function"}],
        "cannot tell: .text.odd of member0.o begins with code of no function",
        "cannot tell: kan_one: odd+0x0 is not the beginning of one function of the archive",
    ),
    case(
        "code of no function",
        [{**SIMPLE, "even": 'ret; .section .text.stray,"ax",@progbits; ret'}],
        "cannot tell: .text.stray of member0.o begins with code of no function",
    ),
    case(
        "code before a section's first function",
        [{**SIMPLE, "even": 'ret; .section .text.late,"ax",@progbits; ret; .type late,@function; late: ret'}],
        "cannot tell: .text.late of member0.o begins with code of no function",
    ),
    case(
        "a struct as argument",
        [SIMPLE],
        "cannot tell how 'struct pair a' is passed",
        prototypes="uint32_t kan_one(struct pair a);",
    ),
    case(
        "a struct as result",
        [SIMPLE],
        "cannot tell how 'struct pair' is passed",
        prototypes="struct pair kan_one(size_t a);",
    ),
    case(
        "a long double",
        [SIMPLE],
        "cannot tell how 'long double a' is passed",
        prototypes="uint32_t kan_one(long double a);",
    ),
    case(
        "no promise",
        [SIMPLE],
        "header.h does not define ESTIMATOR_STACK_BYTES as one number",
        promised="(4 * 1024)",
    ),
    case("no calls", [{"even": "ret"}], "header.h has no prototypes", prototypes=""),
]


def assembled(folder, members):
    """An archive of members, each a table of functions in sections of their own, as the compiler has them."""
    objects = []
    for number, functions in enumerate(members):
        text = "".join(
            f'.section .text.{function},"ax",@progbits\n.type {function},@function\n'
            f"{'.globl ' + function if function.startswith('kan_') else ''}\n{function}: {body}\n"
            for function, body in functions.items()
        )
        objects.append(f"{folder}/member{number}.o")
        subprocess.run(["as", "-o", objects[-1], "-"], input=text, text=True, check=True)
    archive = Path(folder, "small.a")
    archive.unlink(missing_ok=True)
    subprocess.run(["ar", "rcsD", str(archive), *objects], check=True)
    return archive


def answer(folder, case, markdown=False):
    """Exit status, and the lines of standard output and of standard error."""
    header = Path(folder, "header.h")
    header.write_text(f"#define ESTIMATOR_STACK_BYTES {case.promised}\n{case.prototypes}\n", encoding="utf-8")
    archive = assembled(folder, case.members)
    with contextlib.redirect_stdout(io.StringIO()) as out, contextlib.redirect_stderr(io.StringIO()) as err:
        status = verdict(archive, header, markdown)
    return status, out.getvalue().splitlines(), err.getvalue().splitlines()


def shortened(line):
    """Without the offset and the instruction, which not every assembler and disassembler writes alike."""
    return re.sub(r"\+0x[0-9a-f]+, [^:]*:", ":", line, count=1)


def measured_otherwise(folder):
    """What is said of the archives that must be measured, where it is not what is expected."""
    straight = Case("straight", [STRAIGHT, BOUND], STRAIGHT_FIGURES, 264, STRAIGHT_HEADER)
    said = answer(folder, straight)
    if said != (0, straight.expected, []):
        yield straight.title, straight.expected, said
    row = "| `kan_tail` | 264 | `kan_tail` 8 > `wide` 256 |"
    said = answer(folder, straight, markdown=True)
    if said[0] or row not in said[1] or len(said[1]) != len(straight.expected) + 1:
        yield "as a table", row, said
    calls = {f"kan_{number}": body for number, body in enumerate(SINGLE)}
    header = "".join(f"uint32_t {call}(void);" for call in calls)
    lines = [f"{call} {size}: {call} {size}" for call, size in zip(calls, SINGLE.values())]
    said = answer(folder, Case("single", [{**calls, "even": "ret"}], lines, 999, header))
    for line in set(lines) ^ set(said[1][:-1]):
        yield "a single function", line, said


def refused_otherwise(folder):
    """What is said of the archives that must be refused, where it is not what is expected."""
    for each in FAILING:
        status, out, err = said = answer(folder, each)
        same = [e in (line, shortened(line)) for e, line in zip(each.expected, err)]
        if status != 1 or out or len(err) != len(each.expected) or not all(same):
            yield each.title, each.expected, said


def self_test():
    """Makes the archives and compares what is said of them. Returns the exit status."""
    with tempfile.TemporaryDirectory() as folder:
        wrong = [*measured_otherwise(folder), *refused_otherwise(folder)]
    for title, expected, said in wrong:
        print(f"stack: self-test, {title}:\n  expected {expected}\n  answered {said}", file=sys.stderr)
    if not wrong:
        print(f"stack: self-test: 2 archives are measured and {len(FAILING)} refused as they should be")
    return 1 if wrong else 0


if __name__ == "__main__":
    sys.exit(self_test())
