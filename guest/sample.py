#!/usr/bin/env python3
"""Writes the sample of crates/zkw/data: the smallest useful ELF file, and an empty input.

The file has one program header and three instructions; it exits with 7.
"""
import os
import struct

DATA = os.path.join(os.path.dirname(os.path.abspath(__file__)), "..", "crates", "zkw", "data")
START = 0x10078  # where the code lies in memory; it is byte 120 of the file
CODE = [
    0x00700513,  # addi x10, x0, 7
    0x05D00893,  # addi x17, x0, 93
    0x00000073,  # ecall
]


def exit_seven():
    code = struct.pack("<3I", *CODE)
    ident = b"\x7fELF" + bytes([2, 1, 1]) + bytes(9)
    # e_type, e_machine, e_version, e_entry, e_phoff, e_shoff, e_flags, then sizes and counts
    header = ident + struct.pack("<HHIQQQIHHHHHH", 2, 243, 1, START, 64, 0, 0, 64, 56, 1, 0, 0, 0)
    # p_type, p_flags, p_offset, p_vaddr, p_paddr, p_filesz, p_memsz, p_align
    program = struct.pack("<IIQQQQQQ", 1, 5, 120, START, START, len(code), len(code), 4)
    return header + program + code


with open(os.path.join(DATA, "exit_seven.elf"), "wb") as file:
    file.write(exit_seven())
with open(os.path.join(DATA, "empty.input"), "wb"):
    pass
