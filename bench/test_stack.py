"""Tests stack.py on disassemblies typed in by hand, in objdump's layout."""

import unittest

import stack


def section(name, *lines):
    """A function in a section of its own; a line that starts with `R_` is what
    the linker puts into the line before it."""
    text = ["Disassembly of section .text.%s:" % name, "",
            "%016x <%s>:" % (0, name)]
    address = 0
    for line in lines:
        if line.startswith("R_"):
            kind, symbol = line.split()
            text.append("\t\t\t%x: %s\t%s" % (address, kind, symbol))
        else:
            address = int(line.split(":")[0], 16)
            text.append("  %x:\t%s" % (address, line.split(":", 1)[1].strip()))
    return text + [""]


def linked(name):
    """A call's target as the linker is told it, through the section."""
    return "R_X86_64_PLT32 .text.%s-0x4" % name


def need(*sections, call="panheron_call"):
    """The need of a call, or the reason why there is none."""
    needs = stack.needs_of(line for lines in sections for line in lines)
    found = needs[call]
    return found if isinstance(found, int) else str(found)


class Frames(unittest.TestCase):
    """One function alone; 8 is its return address."""

    def frame(self, *lines):
        return need(section("panheron_call", *lines))

    def test_none(self):
        self.assertEqual(self.frame("0: xor    %eax,%eax", "2: ret"), 8)

    def test_pushes_and_sub(self):
        self.assertEqual(self.frame(
            "0: push   %rbp", "1: push   %r15", "3: sub    $0x48,%rsp",
            "7: mov    %rdi,0x8(%rsp)", "c: add    $0x48,%rsp",
            "10: pop    %r15", "12: pop    %rbp", "13: ret"),
            8 + 16 + 0x48)

    def test_add_of_a_negative_number(self):
        self.assertEqual(self.frame(
            "0: add    $0xffffffffffffff80,%rsp",
            "4: sub    $0xffffffffffffff80,%rsp", "8: ret"), 8 + 128)

    def test_lea(self):
        self.assertEqual(self.frame(
            "0: lea    -0x108(%rsp),%rsp", "8: lea    0x108(%rsp),%rsp",
            "10: ret"), 8 + 0x108)

    def test_pages_one_by_one(self):
        self.assertEqual(self.frame(
            "0: sub    $0x1000,%rsp", "7: movq   $0x0,(%rsp)",
            "f: sub    $0x1000,%rsp", "16: movq   $0x0,(%rsp)",
            "1e: push   %rax", "1f: add    $0x2008,%rsp", "26: ret"),
            8 + 0x2008)

    def test_pages_in_a_loop(self):
        self.assertEqual(self.frame(
            "0: push   %rbx", "1: mov    %rsp,%r11",
            "4: sub    $0x9000,%r11", "b: sub    $0x1000,%rsp",
            "12: movq   $0x0,(%rsp)", "1a: cmp    %r11,%rsp",
            "1d: jne    b <panheron_call+0xb>", "1f: sub    $0xf8,%rsp",
            "26: add    $0x90f8,%rsp", "2d: pop    %rbx", "2e: ret"),
            8 + 8 + 0x90f8)

    def test_loop_to_an_address_that_lea_made(self):
        self.assertEqual(self.frame(
            "0: lea    -0x3000(%rsp),%r11", "8: sub    $0x1000,%rsp",
            "f: orq    $0x0,(%rsp)", "14: cmp    %r11,%rsp",
            "17: jne    8 <panheron_call+0x8>", "19: add    $0x3000,%rsp",
            "20: ret"), 8 + 0x3000)

    def test_alignment_counts_its_most(self):
        self.assertEqual(self.frame(
            "0: push   %rbp", "1: mov    %rsp,%rbp",
            "4: and    $0xffffffffffffffe0,%rsp", "8: sub    $0x40,%rsp",
            "c: mov    %rbp,%rsp", "f: pop    %rbp", "10: ret"),
            8 + 8 + 24 + 0x40)

    def test_leave(self):
        self.assertEqual(self.frame(
            "0: push   %rbp", "1: mov    %rsp,%rbp", "4: push   %rbx",
            "5: sub    $0x28,%rsp", "9: mov    -0x8(%rbp),%rbx", "d: leave",
            "e: ret"), 8 + 8 + 8 + 0x28)

    def test_memory_below_the_stack_pointer(self):
        self.assertEqual(self.frame(
            "0: push   %rbx", "1: mov    %rdi,-0x38(%rsp)",
            "6: pop    %rbx", "7: ret"), 8 + 8 + 0x38)

    def test_index_may_lead_below_it_where_nothing_is_called(self):
        indexed = "7: movzwl 0x10(%rsp,%rcx,2),%eax"
        self.assertEqual(self.frame(
            "0: sub    $0x100,%rsp", indexed, "c: add    $0x100,%rsp",
            "13: ret"), 8 + 0x100 + 128)
        self.assertEqual(self.frame(
            "0: sub    $0x100,%rsp", indexed, "c: call   11 <panheron_call>",
            "R_X86_64_PLT32 memset-0x4", "11: add    $0x100,%rsp",
            "18: ret"), 8 + 0x100 + 64)

    def test_the_deeper_of_two_ways(self):
        self.assertEqual(self.frame(
            "0: test   %edi,%edi", "2: je     10 <panheron_call+0x10>",
            "4: sub    $0x18,%rsp", "8: add    $0x18,%rsp", "c: ret",
            "10: sub    $0x58,%rsp", "14: add    $0x58,%rsp", "18: ret"),
            8 + 0x58)


class Chains(unittest.TestCase):
    """Calls and jumps from function to function."""

    LEAF = section("leaf", "0: sub    $0x88,%rsp", "7: add    $0x88,%rsp",
                   "e: ret")
    MIDDLE = section("middle", "0: push   %rbx", "1: push   %r14",
                     "3: push   %rax", "4: call   9 <middle+0x9>",
                     linked("leaf"), "9: pop    %rcx", "a: pop    %r14",
                     "c: pop    %rbx", "d: ret")

    def test_longest_chain(self):
        call = section(
            "panheron_call", "0: sub    $0x18,%rsp",
            "4: call   9 <panheron_call+0x9>", linked("leaf"),
            "9: push   %rdi", "a: push   %rsi",
            "b: call   10 <panheron_call+0x10>", linked("middle"),
            "10: add    $0x28,%rsp", "14: ret")
        self.assertEqual(need(self.LEAF, self.MIDDLE, call),
                         (8 + 0x18 + 16) + (8 + 24) + (8 + 0x88))

    def test_call_of_a_named_function(self):
        call = section("panheron_call", "0: push   %rax",
                       "1: call   6 <panheron_call+0x6>",
                       "R_X86_64_PLT32 leaf-0x4", "6: pop    %rcx", "7: ret")
        self.assertEqual(need(self.LEAF, call), 8 + 8 + 8 + 0x88)

    def test_call_in_the_same_section(self):
        lines = section("panheron_call", "0: push   %rax",
                        "1: call   10 <near>", "6: pop    %rcx", "7: ret")
        lines[-1:] = ["%016x <near>:" % 0x10, "  10:\tsub    $0x20,%rsp",
                      "  14:\tadd    $0x20,%rsp", "  18:\tret"]
        self.assertEqual(need(lines), 8 + 8 + 8 + 0x20)

    def test_jump_in_place_of_a_call(self):
        call = section("panheron_call", "0: push   %rbx", "1: pop    %rbx",
                       "2: jmp    7 <panheron_call+0x7>", linked("middle"))
        self.assertEqual(need(self.LEAF, self.MIDDLE, call),
                         (8 + 24) + (8 + 0x88))

    def test_outside(self):
        call = section("panheron_call", "0: push   %rax",
                       "1: call   6 <panheron_call+0x6>",
                       "R_X86_64_PLT32 memset-0x4",
                       "6: call   *0x0(%rip)        # c <panheron_call+0xc>",
                       "R_X86_64_GOTPCRELX memcpy-0x4",
                       "c: pop    %rcx", "d: jmp    12 <panheron_call+0x12>",
                       "R_X86_64_PLT32 memmove-0x4")
        self.assertEqual(need(call), 8 + 8 + 64)

    def test_each_call_is_listed(self):
        one = section("panheron_one", "0: ret")
        other = section("panheron_other", "0: push   %rax", "1: pop    %rax",
                        "2: ret")
        self.assertEqual(stack.needs_of(one + other + self.LEAF),
                         {"panheron_one": 8, "panheron_other": 16})


class Refused(unittest.TestCase):
    """What can't be followed says why and where."""

    def refused(self, word, *lines, more=()):
        reason = need(section("panheron_call", *lines), *more)
        self.assertIsInstance(reason, str)
        self.assertIn(word, reason)

    def test_recursion(self):
        back = section("back", "0: push   %rax", "1: call   6 <back+0x6>",
                       linked("panheron_call"), "6: pop    %rax", "7: ret")
        self.refused("recursion: panheron_call calls back calls panheron_call",
                     "0: push   %rax", "1: call   6 <panheron_call+0x6>",
                     linked("back"), "6: pop    %rax", "7: ret", more=[back])

    def test_recursion_of_one(self):
        self.refused("recursion", "0: push   %rax",
                     "1: call   0 <panheron_call>", "6: pop    %rax", "7: ret")

    def test_indirect_call(self):
        self.refused("panheron_call at 1, call *%rax", "0: push   %rax",
                     "1: call   *%rax", "3: pop    %rax", "4: ret")

    def test_indirect_jump(self):
        self.refused("not in the code", "0: jmp    *%rax")
        self.refused("not in the code", "0: jmp    *0x0(,%rax,8)",
                     "R_X86_64_32S .rodata")

    def test_unknown_outside(self):
        self.refused("malloc is not in the archive",
                     "0: jmp    5 <panheron_call+0x5>",
                     "R_X86_64_PLT32 malloc-0x4")

    def test_frame_by_a_register(self):
        self.refused("sub %rax,%rsp", "0: sub    %rax,%rsp",
                     "3: add    %rax,%rsp", "6: ret")
        self.refused("mov %rdi,%rsp", "0: mov    %rdi,%rsp", "3: ret")

    def test_stale_frame_pointer(self):
        self.refused("mov %rbp,%rsp", "0: push   %rbp", "1: mov    %rsp,%rbp",
                     "4: xor    %ebp,%ebp", "6: mov    %rbp,%rsp",
                     "9: pop    %rbp", "a: ret")

    def test_loop_that_pushes(self):
        self.refused("grows in a loop", "0: push   %rbp",
                     "1: mov    %rsp,%rbp", "4: push   %rax",
                     "5: dec    %edi", "7: jne    4 <panheron_call+0x4>",
                     "9: leave", "a: ret")

    def test_probing_without_a_known_end(self):
        self.refused("not read", "0: sub    $0x1000,%rsp",
                     "7: movq   $0x0,(%rsp)", "f: cmp    %r11,%rsp",
                     "12: jne    0 <panheron_call>", "14: ret")

    def test_unbalanced_return(self):
        self.refused("returns from depth 16", "0: push   %rax", "1: ret")

    def test_end_of_the_code(self):
        self.refused("no code", "0: push   %rax")


class Limits(unittest.TestCase):
    def wrong(self, needs):
        return list(stack.excesses(needs, {"panheron_history": 3072}))

    def test_within(self):
        self.assertEqual(self.wrong({"panheron_history": 3072}), [])

    def test_over(self):
        self.assertIn("3073", self.wrong({"panheron_history": 3073})[0])

    def test_missing(self):
        self.assertIn("not in the archive", self.wrong({"panheron_x": 8})[0])


if __name__ == "__main__":
    unittest.main()
