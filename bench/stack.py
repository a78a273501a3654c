"""The deepest stack that each call of the archive can need.

    objdump -dr --no-show-raw-insn ARCHIVE | python3 stack.py [--check]

It reads the machine code, not one run of it.  From a call's first instruction
every way through the code is followed, with the depth of the stack pointer
below where it stood before the call: the return address is 8 bytes, and each
push, sub, lea and alignment counts.  At a call the need of what is called is
added.  A jump into another function goes on there.  Memory that is touched
below the stack pointer counts too: x86-64 allows 128 bytes of it.  The need is
the greatest depth on any way.  Arguments that the caller put on the stack lie
above the return address and are the caller's.

Of functions outside the archive only those of OUTSIDE are known.  Each counts
OUTSIDE_BYTES, its return address included; the C library's own need less.

Printed is a table of calls and bytes.  The exit status is 1 if a call can't be
followed: it is recursive, goes where only a register or a table knows, moves
the stack pointer in a way that is not read here, or doesn't return where it
began.  With --check it is also 1 if a call of LIMITS is missing or needs more
than it may.
"""

import re
import sys
from collections import namedtuple

# What panheron.h promises.
LIMITS = {
    "panheron_refusal": 60000,
    "panheron_tree": 60000,
    "panheron_place": 60000,
    "panheron_duplications": 60000,
    "panheron_losses": 60000,
    "panheron_history": 3072,
    "panheron_history_tree": 3072,
    "panheron_history_place": 3072,
}

PREFIX = "panheron_"
OUTSIDE = ("memcpy", "memmove", "memset", "memcmp", "bcmp")
OUTSIDE_BYTES = 64
RETURN_ADDRESS = 8
RED_ZONE = 128
# Ways of different depth that may lead to one instruction: a loop in which the
# stack grows has no end of them.
MOST_STATES = 64

# Registers by the names of their parts.  Stack addresses are followed through
# those alone that are written only by instructions that name them.
PARTS = {part: name for name, parts in {
    "rax": "eax ax al ah", "rbx": "ebx bx bl bh", "rcx": "ecx cx cl ch",
    "rdx": "edx dx dl dh", "rsi": "esi si sil", "rdi": "edi di dil",
    "rbp": "ebp bp bpl", "rsp": "esp sp spl",
    **{"r%d" % n: "r%dd r%dw r%db" % (n, n, n) for n in range(8, 16)},
}.items() for part in [name] + parts.split()}
FOLLOWED = {"rbp", "rbx", "r8", "r9", "r10", "r11", "r12", "r13", "r14", "r15"}
LOST_BY_CALLS = {"r8", "r9", "r10", "r11"}

SKIPPED = {"bnd", "notrack", "data16", "cs", "ds", "es", "ss", "lock", "rep",
           "repz", "repnz", "rex.W"}
ENDS = {"ud2", "hlt", "int3"}
READS_ONLY = {"cmp", "test", "bt", "nop", "push"}

SECTION = re.compile(r"Disassembly of section (.+):$")
HEAD = re.compile(r"([0-9a-f]+) <(.+)>:$")
LINE = re.compile(r"\s*([0-9a-f]+):\s+(\S.*)$")
LINKED = re.compile(
    r"\s+[0-9a-f]+:\s+R_X86_64_(\w+)\s+(.+?)([+-]0x[0-9a-f]+)?$")
MEMORY = re.compile(
    r"(?:%[c-g]s:)?(-?0x[0-9a-f]+|)\((%\w+)?(,%\w+)?(?:,\d)?\)$")

# An instruction: its section and address, the function that it stands in, its
# name without the letter of its width, its operands, the place of the next one,
# and what the linker will put in: kind, symbol, distance.
Word = namedtuple("Word", "place function name operands next linked")


class Unreadable(Exception):
    """Why a call can't be followed; `told` once it says where."""

    told = False


# Reading what objdump prints


def word_of(place, function, text):
    """One instruction; comments and the name of a target are dropped."""
    pieces = re.sub(r"\s*(#.*|<.*>)$", "", text.strip()).split()
    while len(pieces) > 1 and pieces[0] in SKIPPED:
        pieces.pop(0)
    operands = re.findall(r"(?:[^,(]|\([^)]*\))+", "".join(pieces[1:]))
    name = re.sub(r"^(push|pop|call|ret|leave|mov|lea|add|sub|and|cmp|test|nop"
                  r"|jmp|bt)[bwlq]$", r"\1", pieces[0])
    return Word(place, function, name, operands, None, None)


class Code:
    """All the instructions of a disassembly, and where functions begin."""

    def __init__(self, lines):
        self.words, self.functions, self.callers = {}, {}, set()
        self.sections = set()
        self.section = self.function = self.last = None
        for number, line in enumerate(lines):
            self.read(number, line.rstrip("\n"))

    def read(self, number, line):
        """One line.  A section is told from another of the same name, in
        another part of the archive, by the number of its line."""
        if SECTION.match(line):
            self.section = (number, SECTION.match(line).group(1))
            self.sections.add(self.section)
            self.last = None
        elif HEAD.match(line):
            address, self.function = HEAD.match(line).groups()
            self.functions[self.function] = (self.section, int(address, 16))
        elif self.last and LINKED.match(line):
            kind, symbol, distance = LINKED.match(line).groups()
            self.change(linked=(kind, symbol, int(distance or "0", 16)))
        elif self.section and LINE.match(line):
            address, text = LINE.match(line).groups()
            self.add(word_of((self.section, int(address, 16)), self.function,
                             text))

    def change(self, **fields):
        self.words[self.last] = self.words[self.last]._replace(**fields)

    def add(self, word):
        if self.last:
            self.change(next=word.place)
        if word.name == "call":
            self.callers.add(word.function)
        self.words[word.place] = word
        self.last = word.place

    def target(self, word):
        """Where a jump or call goes: a place, or the name of a function that
        is not here."""
        indirect = word.operands[0].startswith("*")
        if word.linked:
            kind, symbol, distance = word.linked
            sections = [s for s in self.sections if s[1] == symbol]
            if indirect == kind.startswith("GOTPCREL") and distance == -4 \
                    and not sections:
                return self.functions.get(symbol, symbol)
            if not indirect and len(sections) == 1:
                return sections[0], distance + 4
        elif re.fullmatch(r"[0-9a-f]+", word.operands[0]):
            return word.place[0], int(word.operands[0], 16)
        raise Unreadable("where it goes is not in the code")


# One way through the code: the depth of the stack pointer, and the depths of
# the stack addresses that registers hold


State = namedtuple("State", "depth kept")


def number_in(text):
    """$0x10, 0x10, -0x10 or nothing as a number; None if it is none."""
    found = re.fullmatch(r"\$?(-?)(0x[0-9a-f]+|)", text)
    if not found:
        return None
    number = int(found.group(2) or "0", 16)
    # objdump shows negative immediates with all their 64 bits
    number -= (number >> 63) << 64
    return -number if found.group(1) else number


def register_in(text):
    return PARTS.get(text[1:]) if text.startswith("%") else None


def memory_in(operand):
    """Base register, distance, and whether an index is added."""
    found = MEMORY.fullmatch(operand)
    if not found or not found.group(2):
        return None, None, False
    return (register_in(found.group(2)), number_in(found.group(1)),
            bool(found.group(3)))


def depth_in(state, register):
    """The depth of the address in a register; None if it is no known one."""
    return state.depth if register == "rsp" else dict(state.kept).get(register)


def with_register(state, register, depth):
    """The state after a register was written; None is any other content."""
    if register == "rsp":
        if depth is None:
            raise Unreadable("how the stack pointer moves is not read")
        return state._replace(depth=depth)
    kept = dict(state.kept)
    kept.pop(register, None)
    if depth is not None and register in FOLLOWED:
        kept[register] = depth
    return state._replace(kept=tuple(sorted(kept.items())))


def aligned(depth, mask):
    """After and $-32,%rsp: the stack pointer is a multiple of 8 before."""
    if mask is None or mask >= 0 or -mask & (-mask - 1) or depth % 8:
        return None
    return depth + max(-mask - 8, 0)


def address_depth(state, operand):
    """The depth of an address that lea works out."""
    base, distance, index = memory_in(operand)
    depth = depth_in(state, base)
    return None if depth is None or index else depth - distance


def written_depth(state, word):
    """The depth of the stack address that the last operand, a register, holds
    afterwards; None if it holds something else."""
    source, register = word.operands[0], register_in(word.operands[-1])
    depth, step = depth_in(state, register), number_in(source)
    if word.operands[-1] != "%" + register or len(word.operands) != 2:
        return None
    if word.name == "mov" and source.startswith("%"):
        return depth_in(state, source[1:])
    if word.name == "lea":
        found = address_depth(state, source)
        # of the many addresses in a frame none is ever put into %rsp
        inside = found is not None and found <= state.depth
        return None if inside and register != "rsp" else found
    if word.name == "and" and register == "rsp":
        return aligned(depth, step)
    if word.name in ("add", "sub") and depth is not None and step is not None:
        return depth + (step if word.name == "sub" else -step)
    return None


def after(state, word):
    """The state after an instruction that only goes on to the next."""
    if word.name in ("push", "pushf"):
        return state._replace(depth=state.depth + 8)
    if word.name in ("pop", "popf"):
        state = state._replace(depth=state.depth - 8)
        word = word._replace(name="popped")
    if word.name == "leave":
        depth = depth_in(state, "rbp")
        state = with_register(state, "rsp", depth and depth - 8)
        return with_register(state, "rbp", None)
    if word.name == "enter":
        return with_register(state, "rsp", None)
    if word.name in READS_ONLY or not word.operands:
        return state
    # an exchange writes both operands, all others at most the last
    both = word.name.startswith(("xchg", "xadd", "cmpxchg"))
    for operand in word.operands if both else word.operands[-1:]:
        register = register_in(operand)
        if register:
            depth = None if both else written_depth(state, word)
            state = with_register(state, register, depth)
    return state


def touched(state, word, calls):
    """The depth of the memory that an instruction touches, if it is below the
    stack pointer.  Where an index is added it may lie anywhere in what x86-64
    allows a function; one that calls others keeps nothing there."""
    deepest = 0
    for operand in word.operands:
        base, distance, index = memory_in(operand)
        depth = depth_in(state, base)
        if depth is None or word.operands[-1] == "%rsp":
            continue
        if not index:
            # a lea that leads far below names the end of a probing loop
            far = word.name == "lea" and -distance > RED_ZONE
            deepest = max(deepest, 0 if far else depth - distance)
        elif base == "rsp" and not calls:
            deepest = max(deepest, depth + RED_ZONE)
    return deepest


# Following


class Follower:
    """Works out needs, each function's once."""

    def __init__(self, code):
        self.code, self.needs, self.open = code, {}, []

    def need(self, entry):
        """The bytes that a call of a function needs: of one that begins at a
        place, or of one outside by its name."""
        if isinstance(entry, str):
            if entry not in OUTSIDE:
                raise Unreadable("%s is not in the archive" % entry)
            return OUTSIDE_BYTES
        if entry not in self.code.words:
            raise Unreadable("there is no code where it goes")
        if entry in self.open:
            ring = self.open[self.open.index(entry):] + [entry]
            raise Unreadable("recursion: " + " calls ".join(
                self.code.words[place].function for place in ring))
        if entry not in self.needs:
            self.open.append(entry)
            self.needs[entry] = self.deepest(entry)
            self.open.pop()
        return self.needs[entry]

    def deepest(self, entry):
        """The greatest depth on any way from an entry to its returns."""
        seen, most = {}, 0
        waiting = [(entry, State(RETURN_ADDRESS, ()))]
        while waiting:
            place, state = waiting.pop()
            states = seen.setdefault(place, set())
            if state in states:
                continue
            states.add(state)
            word = self.code.words[place]
            try:
                if len(states) > MOST_STATES:
                    raise Unreadable("the stack grows in a loop")
                depth, ways = self.step(state, word)
            except Unreadable as reason:
                raise reason if reason.told else located(reason, word)
            calls = word.function in self.code.callers
            most = max(most, depth, touched(state, word, calls))
            waiting += ways
        return most

    def step(self, state, word):
        """The depth that an instruction leads to, and the ways on from it."""
        if word.name == "call":
            depth = state.depth + self.need(self.code.target(word))
            for register in LOST_BY_CALLS:
                state = with_register(state, register, None)
            # a call that never returns may be the end of the code
            return depth, self.on(word.next, state) if word.next else []
        if word.name == "ret":
            if state.depth != RETURN_ADDRESS or word.operands:
                raise Unreadable("it returns from depth %d" % state.depth)
            return state.depth, []
        if word.name in ENDS:
            return state.depth, []
        if word.name.startswith("j"):
            return self.jump(state, word)
        behind = word.next
        if self.is_probing_loop(word):
            behind, state = self.probed(state, word)
        else:
            state = after(state, word)
        if state.depth < RETURN_ADDRESS:
            raise Unreadable("the return address is taken away")
        return state.depth, self.on(behind, state)

    def on(self, place, state):
        if place not in self.code.words:
            raise Unreadable("there is no code where it goes on")
        return [(place, state)]

    def jump(self, state, word):
        """A jump; one to a function outside stands for a call and a return."""
        target = self.code.target(word)
        depth, ways = state.depth, []
        if isinstance(target, str):
            depth += self.need(target) - RETURN_ADDRESS
        else:
            ways += self.on(target, state)
        if word.name != "jmp":
            ways += self.on(word.next, state)
        return depth, ways

    # A large frame is taken a page at a time, and each page is touched:
    #     sub $0x1000,%rsp; movq $0x0,(%rsp); cmp %r11,%rsp; jne the sub

    def row_from(self, word):
        """An instruction and the three behind it, as far as there are any."""
        row = [word]
        while len(row) < 4 and row[-1].next:
            row.append(self.code.words[row[-1].next])
        return row

    def is_probing_loop(self, word):
        row = self.row_from(word)
        return (len(row) == 4 and [w.name for w in row[::2]] == ["sub", "cmp"]
                and word.operands[-1] == row[2].operands[-1] == "%rsp"
                and row[3].name == "jne"
                and self.code.target(row[3]) == word.place)

    def probed(self, state, word):
        """Where a probing loop goes on, and the state there."""
        row = self.row_from(word)
        step = number_in(word.operands[0])
        end = depth_in(state, register_in(row[2].operands[0]))
        if not step or end is None or "(%rsp)" not in row[1].operands \
                or (end - state.depth) % step or end <= state.depth:
            raise Unreadable("how the stack pointer moves is not read")
        return row[3].next, state._replace(depth=end)


def located(reason, word):
    """A reason with the function and the instruction."""
    told = Unreadable("%s at %x, %s %s: %s" % (
        word.function, word.place[1], word.name, ",".join(word.operands),
        reason))
    told.told = True
    return told


# The calls


def needs_of(lines):
    """For every call in a disassembly its need, or why there is none."""
    code = Code(lines)
    needs = {}
    for name in sorted(code.functions):
        if name.startswith(PREFIX):
            try:
                needs[name] = Follower(code).need(code.functions[name])
            except Unreadable as reason:
                needs[name] = reason
    return needs


def excesses(needs, limits):
    """What is wrong with the calls that have a limit."""
    for name, limit in limits.items():
        if name not in needs:
            yield "%s is not in the archive; its limit is %d bytes" % (
                name, limit)
        elif isinstance(needs[name], int) and needs[name] > limit:
            yield "%s needs %d bytes of stack and may need %d" % (
                name, needs[name], limit)


def main():
    if sys.argv[1:] not in ([], ["--check"]):
        sys.exit("usage: objdump -dr --no-show-raw-insn ARCHIVE"
                 " | stack.py [--check]")
    needs = needs_of(sys.stdin)
    print("%-24s %s" % ("call", "bytes"))
    wrong = [] if needs else ["there is no call named %s.." % PREFIX]
    for name, need in needs.items():
        if isinstance(need, int):
            print("%-24s %d" % (name, need))
        else:
            wrong.append("%s: %s" % (name, need))
    wrong += excesses(needs, LIMITS if "--check" in sys.argv else {})
    for line in wrong:
        print("stack.py: " + line, file=sys.stderr)
    return 1 if wrong else 0


if __name__ == "__main__":
    sys.exit(main())
