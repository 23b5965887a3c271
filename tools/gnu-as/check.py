#!/usr/bin/env python3
"""Hands the manual lines that panel prints to GNU as, and compares the encoded words with the fields of the records.

    python3 tools/gnu-as/check.py [PANEL]

PANEL is a built panel; where it is not given, crates/panel is built. Needs arm-none-eabi-as and arm-none-eabi-objcopy (Debian: binutils-arm-none-eabi).
Ends with status 1 if a word has other fields than its record, or if a record has no manual line. The lines that the assembler
refuses are counted by its reason, and written with it to target/gnu-as/refused.txt.
"""

import collections
import itertools
import pathlib
import re
import struct
import subprocess
import sys

ROOT = pathlib.Path(__file__).resolve().parents[2]
WORK = ROOT / "target" / "gnu-as"
CONDITIONS = ["EQ", "NE", "HS", "LO", "MI", "PL", "VS", "VC", "HI", "LS", "GE", "LT", "GT", "LE", "AL"]
MASKS = [0] + [1 << n for n in range(16)] + [
    0x0003, 0x00FF, 0x4010, 0x5555, 0x6000, 0x7FFF, 0x8010, 0xA000, 0xAAAA, 0xC001, 0xFF00, 0xFFFF,
]
SP = 13

Fields = collections.namedtuple("Fields", "condition load add pre base wback user mask")


def flag(value):
    return "true" if value else "false"


def record(condition, opcode, first, second):
    return (
        f"Instruction {{ condition: {CONDITIONS[condition]}, opcode: {opcode}, operands: [{first}, {second}, Nothing, Nothing], "
        "s: false, wide: false, thumb_w: false, thumb: false }"
    )


def block(fields):
    name = "LDM" if fields.load else "STM"
    opcode = f"{name}({flag(fields.add)}, {flag(fields.pre)}, false, {flag(fields.user)})"
    base = f"RegWBack(Reg {{ bits: {fields.base} }}, {flag(fields.wback)})"
    return record(fields.condition, opcode, base, f"RegList({fields.mask})")


def single(condition, load, register):
    first = f"Reg(Reg {{ bits: {register} }})"
    if load:
        return record(condition, "LDR", first, f"RegDerefPostindexOffset(Reg {{ bits: {SP} }}, 4, true, false)")
    return record(condition, "STR", first, f"RegDerefPreindexOffset(Reg {{ bits: {SP} }}, 4, false, true)")


def cases():
    """Each record with its fields."""
    bits = (False, True)
    for condition, load, add, pre, base, wback, user, mask in itertools.product(
        range(15), bits, bits, bits, range(16), bits, bits, MASKS
    ):
        fields = Fields(condition, load, add, pre, base, wback, user, mask)
        yield block(fields), fields
    for condition, load, register in itertools.product(range(15), bits, range(16)):
        yield single(condition, load, register), Fields(condition, load, load, not load, SP, True, False, 1 << register)


def manual_lines(panel, records):
    """What panel spells beside each record, by the record's line."""
    given = WORK / "records.txt"
    given.write_text("\n".join(records) + "\n")
    told = subprocess.run([panel, "--manual", str(given)], stdout=subprocess.PIPE, text=True, check=True).stdout
    return {int(m[1]): m[2] for m in re.finditer(r"^line (\d+): .*  manual: (.*)$", told, re.MULTILINE)}


def assemble(lines):
    """The words of those lines that the assembler takes, and its reason for each that it refuses, by their indexes."""
    source, made, image = WORK / "lines.s", WORK / "lines.o", WORK / "lines.bin"
    head = [".syntax unified", ".arch armv7-a", ".arm"]
    refused = {}
    while True:
        taken = [n for n in range(len(lines)) if n not in refused]
        source.write_text("\n".join(head + [lines[n] for n in taken]) + "\n")
        told = subprocess.run(["arm-none-eabi-as", "-o", str(made), str(source)], stderr=subprocess.PIPE, text=True)
        found = re.findall(r"^[^\n]*?:(\d+): Error: (.*)$", told.stderr, re.MULTILINE)
        if told.returncode == 0:
            break
        if not found:
            sys.exit(told.stderr)
        for at, reason in found:
            refused[taken[int(at) - len(head) - 1]] = re.sub(r" -- `.*", "", reason)
    subprocess.run(["arm-none-eabi-objcopy", "-O", "binary", str(made), str(image)], check=True)
    data = image.read_bytes()
    if len(data) != 4 * len(taken):
        sys.exit(f"{len(taken)} lines were taken, and {len(data)} bytes made")
    return dict(zip(taken, (w for (w,) in struct.iter_unpack("<I", data)))), refused


def decoded(word):
    """The fields of a word: of a block transfer, or of a pop or a push of one register."""
    condition, base, load = word >> 28, word >> 16 & 15, bool(word >> 20 & 1)
    pre, add, wback = bool(word >> 24 & 1), bool(word >> 23 & 1), bool(word >> 21 & 1)
    if word >> 25 & 7 == 4:
        return Fields(condition, load, add, pre, base, wback, bool(word >> 22 & 1), word & 0xFFFF)
    if word & 0x0FFF0FFF in (0x049D0004, 0x052D0004):
        return Fields(condition, load, add, pre, base, True, False, 1 << (word >> 12 & 15))
    return None


def built_panel():
    folder = ROOT / "crates" / "panel"
    subprocess.run(["rt", "run", "--", "--help"], cwd=folder, stdout=subprocess.DEVNULL, check=True)
    return str(folder / "out" / "panel")


def main():
    panel = sys.argv[1] if len(sys.argv) > 1 else built_panel()
    WORK.mkdir(parents=True, exist_ok=True)
    records, fields = zip(*cases())
    spelt = manual_lines(panel, records)
    missing = [n for n in range(len(records)) if n + 1 not in spelt]
    if missing:
        sys.exit(f"{len(missing)} records have no manual line, the first: {records[missing[0]]}")
    lines = [spelt[n + 1] for n in range(len(records))]
    words, refused = assemble(lines)
    wrong = [n for n, word in words.items() if decoded(word) != fields[n]]
    for n in wrong[:20]:
        print(f"{lines[n]}: {words[n]:08x} is {decoded(words[n])}, the record has {fields[n]}")
    (WORK / "refused.txt").write_text("".join(f"{lines[n]}\t{why}\n" for n, why in sorted(refused.items())))
    for why, count in collections.Counter(refused.values()).most_common():
        example = lines[min(n for n in refused if refused[n] == why)]
        print(f"{count:6} refused: {why} (as {example})")
    print(f"{len(lines)} manual lines, {len(words)} taken, {len(wrong)} with other fields, {len(refused)} refused")
    sys.exit(1 if wrong else 0)


main()
