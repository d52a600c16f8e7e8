#!/usr/bin/env python3
"""Writes the processor's programs of the standard plan, as assembler texts and schedules, into a folder.

    processor.py OUT

Operands, registers, flags and addresses are random, from a fixed seed, and come from every class that matters (zero, one,
ends of the range, single bits, small and large, kinds of floats). Each program keeps its results in a log in WRAM, which
the plan compares at the end, and shows all of the log on the screen, in three frames: a character of the picture has 16
bytes of the log. `../cartridges/console.s` follows each text: it sets the console up and has the handlers.
"""
import pathlib
import random
import sys

LOG = 0x05000200          # the log: three pictures of 1,344 characters
WORDS = 3 * 1344 * 4
POINTER = 0x05000180      # where the next exception is noted, and how far behind its restore PC the program goes on
SHORT = ["MOV", "ADD", "SUB", "CMP", "SHL", "SHR", "SAR", "MUL", "MULU", "DIV", "DIVU", "OR", "AND", "XOR", "NOT"]
SMALL = ["MOV", "ADD", "CMP", "SHL", "SHR", "SAR", "SETF"]
LONG = ["MOVEA", "MOVHI", "ADDI", "ORI", "ANDI", "XORI"]
FLOATS = ["ADDF.S", "SUBF.S", "MULF.S", "DIVF.S", "CMPF.S", "CVT.WS", "CVT.SW", "TRNC.SW"]
LEVELS = ["pad", "timer", "pak", "link", "vip"]
CONDITIONS = ["BV", "BL", "BZ", "BNH", "BN", "BR", "BLT", "BLE", "BNV", "BNL", "BNZ", "BH", "BP", "NOP", "BGE", "BGT"]


class Program:
    """One text: its lines, its random numbers, and how much of the log is used."""

    def __init__(self, name, number, rom_end=0x07080000, seed=20261118):
        self.name, self.lines, self.used, self.labels = name, [], 0, 0
        self.random = random.Random(f"{name} {seed}")
        self.head = [f"    .equ cartridge, 0x{number:04X}", f"    .equ rom_end,   0x{rom_end:08X}", "    .equ map, 0x20000", "", "scene:"]
        self.tail, self.schedule, self.console = [], None, []

    def put(self, *lines):
        self.lines += [line if line.endswith(":") else "    " + line for line in lines]

    def label(self):
        self.labels += 1
        return f"at_{self.labels}"

    def li(self, value, register):
        """A word into a register; nothing can be put into r0."""
        if register:
            self.put(f"LI 0x{value & 0xFFFFFFFF:08X}, r{register}")

    def word(self):
        """An operand: half of them any word, the others from a class."""
        pick, bits = self.random.randrange(12), self.random.getrandbits(32)
        if pick < 5:
            return bits
        return [0, 1, 0xFFFFFFFF, 0x80000000, 0x7FFFFFFF, bits & 0x1F, bits >> self.random.randrange(32),
                0xFFFFFFFF << self.random.randrange(32) & 0xFFFFFFFF, 1 << self.random.randrange(32),
                ~(1 << self.random.randrange(32)) & 0xFFFFFFFF, bits & 0xFFFF, bits | 0xFFFF0000][self.random.randrange(12)]

    def other(self, *taken):
        """A register that is none of these, nor r0."""
        return self.random.choice([r for r in range(1, 32) if r not in taken])

    def address(self, where, free, spread=True):
        """Makes `disp[reg]` for an address of WRAM, in a fourth of the cases through a mirror."""
        base = self.other(*free)
        displacement = self.random.randrange(-32768, 32768) & ~3
        at = where
        if spread and self.random.randrange(4) == 0:
            at = 0x05000000 | where & 0xFFFF | self.random.getrandbits(8) << 16 | self.random.getrandbits(5) << 27
        rest = at - displacement & 0xFFFFFFFF
        if self.random.randrange(2):
            high = at + 0x8000 >> 16 & 0xFFFF
            self.put(f"MOVHI 0x{high:04X}, r0, r{base}")
            return f"{(at & 0xFFFF) - 0x10000 if at & 0x8000 else at & 0xFFFF}[r{base}]"
        self.li(rest, base)
        return f"{displacement}[r{base}]"

    def log(self, *registers, keep=()):
        """Keeps registers in the log."""
        assert self.used + len(registers) <= WORDS, f"the log of {self.name} is full"
        left = list(registers)
        for register in registers:
            place = self.address(LOG + 4 * self.used, {*left, *keep})
            self.put(f"{self.random.choice(['ST.W', 'ST.W', 'OUT.W'])} r{register}, {place}")
            self.used += 1
            left.remove(register)

    def flags(self, value, *taken):
        """PSW, from a register that is none of these."""
        register = self.other(*taken)
        self.li(value, register)
        self.put(f"LDSR r{register}, 5")

    def psw(self):
        """Flags and everything else of PSW but NP and EP."""
        if self.random.randrange(3):
            return self.random.getrandbits(4)
        return self.random.getrandbits(32) & 0x000F33FF

    def full(self, left=8):
        return self.used + left > WORDS

    def text(self):
        show = f"""
    LDSR r0, 5
    JAL text
    LI map, r7                     ; a row of the picture has 48 characters, one of the map 64 cells
    MOV 0, r6
    MOVEA 28, r0, r9
show_row:
    MOVEA 48, r0, r8
show_cell:
    ST.H r6, 0[r7]
    ADD 1, r6
    ADD 2, r7
    ADD -1, r8
    BNZ show_cell
    ADDI 32, r7, r7
    ADD -1, r9
    BNZ show_row
    LI 0x0{LOG:07X}, r20
    MOV 3, r21
show_frame:
    LI characters, r7
    MOV r20, r6
    LI {1344 * 16}, r8
    JAL copy
    MOV r6, r20
    JAL frame
    ADD -1, r21
    BNZ show_frame
    HALT
    BR * - 2
"""
        return "\n".join([f"; Made by processor.py: {self.name}.", *self.head, *self.lines]) + show + "\n".join(self.tail) + "\n"


def operate(p, operation):
    """One integer instruction on random operands, with what it leaves: PSW, the result, r30."""
    first, second = p.random.randrange(32), p.random.randrange(32)
    wide = operation in ("MUL", "MULU", "DIV", "DIVU")
    one = p.word()
    if operation in ("DIV", "DIVU"):
        first = first or 1
        one = one or 3
    p.li(one, first)
    if second != first:
        p.li(p.word(), second)
    if wide and 30 not in (first, second):
        p.li(p.random.getrandbits(32), 30)
    p.flags(p.psw(), first, second, 30)
    p.put(f"{operation} r{first}, r{second}")
    state = p.other(first, second, 30)
    p.put(f"STSR 5, r{state}")
    p.log(state, second, *([30] if wide else []), keep=(first, second, 30))


def small(p, operation):
    register = p.random.randrange(32)
    p.li(p.word(), register)
    p.flags(p.psw(), register)
    number = p.random.randrange(16) if operation == "SETF" else p.random.randrange(32)
    if operation in ("MOV", "ADD", "CMP"):
        number -= 16
    p.put(f"{operation} {number}, r{register}")
    state = p.other(register)
    p.put(f"STSR 5, r{state}")
    p.log(state, register)


def long(p, operation):
    first, second = p.random.randrange(32), p.random.randrange(32)
    p.li(p.word(), first)
    if second != first:
        p.li(p.word(), second)
    p.flags(p.psw(), first, second)
    number = p.random.choice([p.random.getrandbits(16), p.random.getrandbits(16), 0, 1, 0xFFFF, 0x8000, 0x7FFF, 1 << p.random.randrange(16)])
    if operation in ("MOVEA", "ADDI"):
        number -= 0x10000 * (number >> 15)
    p.put(f"{operation} {number}, r{first}, r{second}")
    state = p.other(first, second)
    p.put(f"STSR 5, r{state}")
    p.log(state, second, keep=(first,))


def further(p, operation):
    """XB, XH, REV, MPYHW, SEI and CLI."""
    first, second = p.random.randrange(32), p.random.randrange(32)
    p.li(p.word(), first)
    if second != first:
        p.li(p.word(), second)
    p.flags(p.psw(), first, second)
    words = {"XB": f"XB r{second}", "XH": f"XH r{second}", "SEI": "SEI", "CLI": "CLI"}
    p.put(words.get(operation, f"{operation} r{first}, r{second}"))
    state = p.other(first, second)
    p.put(f"STSR 5, r{state}")
    p.log(state, second, keep=(first,))


def integers(name, number):
    p = Program(name, number)
    kinds = [(operate, x) for x in SHORT] + [(small, x) for x in SMALL] + [(long, x) for x in LONG]
    kinds += [(further, x) for x in ("XB", "XH", "REV", "MPYHW", "SEI", "CLI")]
    while not p.full():
        p.random.shuffle(kinds)
        for kind, operation in kinds:
            if not p.full():
                kind(p, operation)
    return p


def exceptions_into(p, room, further_by):
    """Has every exception of one kind noted: ECR, restore PC, saved PSW, PSW; the first `room` words of the log are theirs."""
    p.used = room
    p.put("LI handlers, r7", "LI trapped, r10")
    p.put(*(f"ST.W r10, {at}[r7]" for at in (20, 24, 28, 32, 36)))
    p.put("LI duplexed, r10", "ST.W r10, 40[r7]")
    p.li(LOG, 10)
    p.put(f"LI 0x{POINTER:08X}, r7", "ST.W r10, 0[r7]")
    go_on(p, further_by)
    p.tail += f"""
note:                              ; ECR, restore PC in r28, saved PSW, PSW
    MOVHI 0x0500, r0, r26
    LD.W 0x{POINTER & 0xFFFF:X}[r26], r27
    ST.W r28, 4[r27]
    ST.W r29, 8[r27]
    STSR 4, r29
    ST.W r29, 0[r27]
    STSR 5, r29
    ST.W r29, 12[r27]
    ADDI 16, r27, r27
    ST.W r27, 0x{POINTER & 0xFFFF:X}[r26]
    LD.W 0x{POINTER + 4 & 0xFFFF:X}[r26], r27
    ADD r27, r28
    JMP [r31]
trapped:
    MOV r31, r25
    STSR 0, r28
    STSR 1, r29
    JAL note
    LDSR r28, 0
    MOV r25, r31
    RETI
duplexed:
    MOV r31, r25
    STSR 2, r28
    STSR 3, r29
    JAL note
    LDSR r28, 2
    MOV r25, r31
    RETI
""".splitlines()


def go_on(p, distance):
    p.put(f"LI 0x{POINTER + 4:08X}, r7")
    p.li(distance, 10)
    p.put("ST.W r10, 0[r7]")


def float_word(p):
    sign = p.random.getrandbits(1) << 31
    fraction = p.random.choice([0, 1, 0x7FFFFF, p.random.getrandbits(23), p.random.getrandbits(23), 1 << p.random.randrange(23)])
    exponent = p.random.choice([0, 0, 1, 254, 255, 127, 128, 126, 127 + p.random.randrange(-30, 31), 127 + p.random.randrange(-30, 31),
                                127 + p.random.randrange(-8, 9), p.random.randrange(1, 255), 150, 157, 158])
    return sign | exponent << 23 | (0 if exponent == 0 and p.random.randrange(3) else fraction)


def floats(name, number):
    """Every floating operation on every kind of operand; most exceptions are noted by the handler."""
    p = Program(name, number)
    exceptions_into(p, 4 * 1000, 4)
    notes = 0
    free = [r for r in range(32) if r not in (25, 26, 27, 28, 29)]
    count = 0
    while not p.full():
        operation = FLOATS[count % len(FLOATS)]
        count += 1
        first, second = p.random.choice(free), p.random.choice(free)
        usual = count % 4 and notes < 990
        for register in {first, second}:
            if operation == "CVT.WS":
                p.li(p.word(), register)
            elif usual:
                p.li(float_word(p), register)
            else:  # no exception
                exponent = 127 + p.random.randrange(-20, 21)
                p.li(p.random.getrandbits(1) << 31 | exponent << 23 | p.random.getrandbits(23), register)
        if not usual and 0 in (first, second):
            continue
        notes += bool(usual)
        p.flags(p.random.getrandbits(4) | (p.random.getrandbits(32) & 0x000F33F0 if p.random.randrange(2) else 0), first, second, 25, 26, 27, 28, 29)
        p.put(f"{operation} r{first}, r{second}")
        state = p.other(first, second, 25, 26, 27, 28, 29)
        p.put(f"STSR 5, r{state}")
        p.log(state, second, keep=(first, 25, 26, 27, 28, 29))
    return p


def branches(name, number):
    """Bcond and SETF of every condition with every state of the flags; jumps of every distance onto a row of ADDs, which count how far
    from its end a jump landed."""
    p = Program(name, number)
    cases = [(c, f) for c in range(16) for f in range(16)]
    p.random.shuffle(cases)
    for condition, flags in cases:
        for operation in range(2):
            register = p.other()
            p.li(p.word(), register)
            p.flags(p.psw() & ~15 | flags, register)
            p.put(f"SETF {condition}, r{register}")
            p.log(register)
    for turn in range(2):
        for condition, flags in cases:
            register, backwards = p.other(), p.random.randrange(2)
            length = p.random.randrange(4, 110)
            landing = p.random.randrange(length)
            row, out, start = p.label(), p.label(), p.label()
            mnemonic = CONDITIONS[condition]
            jump = f"{mnemonic} {row} + {2 * landing}"
            if mnemonic == "NOP":  # the assembler's has no operand
                jump = f".half 0x9A00 | ({row} + {2 * landing} - * & 0x1FF)"
            p.li(p.random.getrandbits(20), register)
            if backwards:
                p.put(f"JR {start}")
            else:
                p.flags(flags | p.psw() & ~15, register)
                p.put(jump, f"ADDI 1000, r{register}, r{register}", f"JR {out}")
                p.put(*["ADD 2, r0"] * p.random.randrange(0, 110 - length))
            p.put(f"{row}:", *[f"ADD 1, r{register}"] * length)
            if backwards:
                p.put(f"JR {out}", f"{start}:")
                p.flags(flags | p.psw() & ~15, register)
                p.put(jump, f"ADDI 1000, r{register}, r{register}")
            p.put(f"{out}:")
            p.log(register)
    for turn in range(120):  # JR, JAL and JMP over some kilobytes
        register, kind = p.other(31), turn % 3
        length, row, out, start = p.random.randrange(4, 60), p.label(), p.label(), p.label()
        landing = 2 * p.random.randrange(length)
        p.li(p.random.getrandbits(20), register)
        p.li(p.random.getrandbits(32), 31)
        p.put(f"JR {start}", f"{row}:", *[f"ADD 1, r{register}"] * length, f"JR {out}", f".space {2 * p.random.randrange(1, 600)}", f"{start}:")
        if kind == 2:
            by = p.other(register, 31)
            upper = p.random.getrandbits(5) << 27
            p.put(f"LI {row} + {landing} ^ 0x{upper:08X}, r{by}", f"JMP [r{by}]")
            after = p.label()
            p.put(f"{out}:", f"JAL {after}", f"{after}:")
            p.log(31, register)
            back = p.label()
            p.put(f"LI {back}, r{by}", f"JMP [r{by}]", f"{back}:")
        else:
            p.put(f"{['JR', 'JAL'][kind]} {row} + {landing}", f"{out}:")
            p.log(register, 31)
    return p


def memory(name, number):
    """Loads and stores of every width and alignment, by region and mirror, with displacements of either sign."""
    p = Program(name, number, rom_end=0x07100000)
    p.tail += ["    .align 4", "table:"] + [f"    .word 0x{p.random.getrandbits(32):08X}" for _ in range(256)]
    vram, wram, pak = 0x00030000, 0x05000100, 0x06000000
    registers = [0x5F848 + 2 * k for k in range(4)] + [0x5F860 + 2 * k for k in range(9)]

    def place(base, register, at):
        displacement = p.random.choice([p.random.randrange(-32768, 32768), p.random.randrange(-64, 64), 0])
        p.li(at - displacement, base)
        return f"{displacement}[r{base}]"

    def mirror(at):
        """The same byte at another address: bits 27 to 31, repeats of WRAM, VIP and pak RAM, the second window of characters."""
        region = at >> 24 & 7
        at |= p.random.getrandbits(5) << 27
        if region == 5:
            at = at & 0xFF00FFFF | p.random.getrandbits(8) << 16
        elif region == 0:
            at = at & 0xFF07FFFF | p.random.getrandbits(5) << 19
        return at

    turn = 0
    while not p.full(24):
        turn += 1
        kind = turn % 4
        width = p.random.choice(["B", "H", "W"])
        if turn % 12 == 0:  # a drawing register, of which a byte access reaches all; ROM, which a store leaves as it was
            at, value, base, result = p.random.choice(registers), p.other(), p.other(), p.other()
            value = p.other(base)
            p.li(p.word(), value)
            where = place(base, base, mirror(at) + p.random.randrange(4))
            p.put(f"{p.random.choice(['ST', 'OUT'])}.{width} r{value}, {where}")
            for near in {at & ~3, at & ~3 | 2} & set(registers):
                p.li(near, base)
                p.put(f"LD.H 0[r{base}], r{result}")
                p.log(result, keep=(base,))
            p.put(f"LI table + {4 * p.random.randrange(256)}, r{base}")
            p.li(p.word(), value)
            p.put(f"ST.{width} r{value}, {p.random.randrange(4)}[r{base}]", f"LD.W 0[r{base}], r{result}")
            p.log(result, keep=(base,))
        elif kind in (0, 1):  # a store of one width into a word, which is then read whole
            at = p.random.choice([vram + 4 * p.random.randrange(64), wram + 4 * p.random.randrange(8), pak + 4 * p.random.randrange(16),
                                  0x00006000 + 0x8000 * p.random.randrange(4) + 4 * p.random.randrange(0x800),
                                  0x00078000 + 4 * p.random.randrange(0x2000), 0x00020000 + 4 * p.random.randrange(0x4000)])
            before, value, base = p.other(), p.other(), p.other()
            value = p.other(before)
            base = p.other(before, value)
            p.li(p.word(), before)
            p.li(at, base)
            p.put(f"ST.W r{before}, 0[r{base}]")
            p.li(p.word(), value)
            where = place(base, base, mirror(at) + p.random.randrange(4)) if p.random.randrange(2) else place(base, base, at + p.random.randrange(4))
            p.put(f"{p.random.choice(['ST', 'OUT'])}.{width} r{value}, {where}")
            result, again = p.other(), p.other()
            canonical = at
            if 0x78000 <= at < 0x80000:
                offset = at - 0x78000
                canonical = 0x6000 + 0x8000 * (offset >> 13) + (offset & 0x1FFF)
            again = p.other(result)
            p.li(canonical, again)
            p.put(f"LD.W 0[r{again}], r{result}")
            p.log(result, before, keep=(before,))
        else:  # a load of one width and either kind
            which = p.random.randrange(8)
            if which == 0:
                at = p.random.choice(registers[:-1] if width == "W" else registers) + p.random.randrange(2)  # nothing is behind BKCOL
            elif which == 1:
                at = 0x02000000 | p.random.choice([0x18, 0x1C, 0x20]) + p.random.randrange(4)
            elif which in (2, 3):
                at = None
            else:
                at = p.random.choice([LOG, 0x00078000, 0x00006000, vram, pak, wram, 0x0000E000]) + p.random.randrange(256)
            base, result = p.other(), p.random.randrange(32)
            p.li(p.word(), result)
            base = p.other(result) if p.random.randrange(4) else base
            if at is None:
                off, upper = p.random.randrange(1024), p.random.getrandbits(5) << 27
                repeat = p.random.getrandbits(4) << 20
                displacement = p.random.randrange(-32768, 32768)
                p.put(f"LI (table + {off} - {displacement}) ^ 0x{upper:08X}, r{base}" if not repeat else
                      f"LI ((table + {off}) ^ 0x{upper | repeat:08X}) - {displacement}, r{base}")
                where = f"{displacement}[r{base}]"
            else:
                where = place(base, base, mirror(at) if p.random.randrange(2) else at)
            p.put(f"{p.random.choice(['LD', 'IN'])}.{width} {where}, r{result}")
            p.log(result)
    p.put("LI vip, r10", "MOVEA 0xE4, r0, r11", "ST.B r11, gplt[r10]", "ST.H r0, bkcol[r10]")  # for the pictures
    return p


def system(name, number):
    """System registers by LDSR and STSR, RETI by either pair, every TRAP, divisors of zero, illegal opcodes, duplexed exceptions."""
    p = Program(name, number)
    safe = [r for r in range(1, 32) if r not in (25, 26, 27, 28, 29)]
    exceptions_into(p, 4 * 1200, 0)
    rows = [0, 1, 2, 3, 4, 6, 7, 25, 29, 30, 31]
    for turn in range(60):
        for row in rows:
            source = p.random.choice(safe)
            p.li(p.random.choice([p.random.getrandbits(32), 0, 0xFFFFFFFF, 1 << p.random.randrange(32)]), source)
            p.put(f"LDSR r{source}, {row}")
        for row in (*rows, 5):
            register = p.random.choice(safe)
            p.li(p.random.getrandbits(32), register)
            p.put(f"STSR {row}, r{register}")
            p.log(register, keep=(25, 26, 27, 28, 29))
    for turn in range(200):
        register = p.random.choice(safe)
        p.flags(p.random.getrandbits(32), register)
        p.put(f"STSR 5, r{register}", "LDSR r0, 5")
        p.log(register)
    for turn in range(96):  # RETI takes EIPC and EIPSW, or with NP set FEPC and FEPSW
        ei, fe, out, mark = p.label(), p.label(), p.label(), p.random.choice(safe)
        one, two, three = (p.random.choice(safe) for _ in range(3))
        for label, row in ((ei, 0), (fe, 2)):
            p.put(f"LI {label} ^ 0x{p.random.getrandbits(5) << 27:08X}, r{one}", f"LDSR r{one}, {row}")
        for row in (1, 3):
            p.li(p.random.getrandbits(32) & 0x000F73FF, two)
            p.put(f"LDSR r{two}, {row}")
        p.flags(p.random.getrandbits(32) & 0x000F73FF | (turn & 1) << 15, 0)
        p.put("RETI", "HALT", f"{ei}:", f"MOVEA 1, r0, r{mark}", f"JR {out}", f"{fe}:", f"MOVEA 2, r0, r{mark}", f"{out}:")
        state = p.random.choice([r for r in safe if r != mark])
        p.put(f"STSR 5, r{state}")
        link = p.label()
        p.put("LDSR r0, 5")
        p.log(mark, state)
        by = p.random.choice(safe)
        p.put(f"LI {link}, r{by}", f"JMP [r{by}]", f"{link}:")

    def raised(instruction, level=0):
        """An exception, with a random PSW before it: flags, I, AE, ID; EP makes it duplexed."""
        bits = p.random.getrandbits(32) & 0x000F33FF | level
        p.flags(bits, 25, 26, 27, 28, 29, 10, 11)
        p.put(instruction)

    notes = 0
    for turn in range(6):
        for vector in range(32):
            raised(f"TRAP {vector}", p.random.choice([0, 0, 0x4000]))
            notes += 1
    p.put("LDSR r0, 5")
    go_on(p, 2)
    for turn in range(40):
        p.put("LDSR r0, 5")
        first, second = p.random.choice(safe), p.random.choice(safe)
        p.li(0, first)
        if second != first:
            p.li(p.word(), second)
        raised(f"{['DIV', 'DIVU'][turn % 2]} r{first}, r{second}" if turn % 4 < 2 else f"{['DIV', 'DIVU'][turn % 2]} r0, r{second}",
               p.random.choice([0, 0, 0x4000]))
        p.log(second, keep=(25, 26, 27, 28, 29))
        notes += 1
    for turn in range(60):
        raised(f".half 0x{p.random.choice([0x6C00, 0xC800, 0xD800]) | p.random.getrandbits(10):04X}", p.random.choice([0, 0, 0x4000]))
        notes += 1
    p.put("LDSR r0, 5")
    go_on(p, 4)
    for turn in range(60):
        sub = p.random.choice([1, 0x0D, 0x0E, 0x0F, *range(0x10, 0x40)])
        raised(f".half 0x{0xF800 | p.random.getrandbits(10):04X}, 0x{sub << 10:04X}", p.random.choice([0, 0, 0x4000]))
        notes += 1
    for turn in range(80):  # floating exceptions, duplexed ones among them
        p.put("LDSR r0, 5")
        first, second = p.random.choice(safe), p.random.choice(safe)
        if first == second:
            continue
        operation, one, two = p.random.choice([("ADDF.S", 0x7F7FFFFF, 0x7F7FFFFF), ("MULF.S", 0x7F000000, 0x7F000000), ("DIVF.S", 0, 0x3F800000),
                                               ("DIVF.S", 0, 0), ("CVT.SW", 0x4F800000, 0), ("TRNC.SW", 0xCF800001, 0), ("SUBF.S", 0x7F800000, 0),
                                               ("CMPF.S", 0x00000001, 0), ("MULF.S", 0x7FC00000, 0x3F800000)])
        p.li(one, first)
        p.li(two, second)
        bits = p.random.getrandbits(32) & 0x000F33FF | p.random.choice([0, 0, 0x4000])
        p.flags(bits, first, second, 25, 26, 27, 28, 29)
        p.put(f"{operation} r{first}, r{second}")
        p.log(second, keep=(25, 26, 27, 28, 29))
        notes += 1
    p.put("LDSR r0, 5")
    assert notes <= 1200
    return p


def far(name, number):
    """A ROM of 16 MiB: code and data at every power of two; code in WRAM, VRAM and pak RAM; pak RAM of 16 MiB."""
    p = Program(name, number, rom_end=0x08000000)
    p.head[1] = "    .equ rom_end,   0x08000000"
    places = [1 << k for k in range(14, 24)] + [0xFFFFFF & ~(1 << k) & ~0xFFF for k in range(14, 24)]
    places = sorted({x for x in places if 0x20000 <= x < 0xFFF000} | {0x10000, 0x14000})
    for at in places:
        register = p.random.choice([r for r in range(1, 31)])
        p.li(p.random.getrandbits(16), register)
        by = p.other(register, 31)
        upper = p.random.getrandbits(5) << 27
        p.put(f"LI (0x07000000 + 0x{at:X}) ^ 0x{upper:08X}, r{by}" if p.random.randrange(2) else f"JAL 0x{0x07000000 + at:08X}")
        if "LI" in p.lines[-1]:
            back = p.label()
            p.put(f"LI {back}, r31", f"JMP [r{by}]", f"{back}:")
        p.log(1, 31)
        base, result = p.other(1), p.other(1)
        p.put(f"LI (0x07000000 + 0x{at + 64:X}) ^ 0x{p.random.getrandbits(5) << 27:08X}, r{base}", f"LD.W 0[r{base}], r{result}")
        p.log(result)
        p.put(f"LI 0x{0x07000000 + at + 64:08X}, r{base}", f"IN.B {p.random.randrange(4)}[r{base}], r{result}")
        p.log(result)
    for at in places:
        p.tail += [f"    .org 0x{0x07000000 + at:08X}", f"    MOVEA {p.random.getrandbits(15)}, r0, r1", "    JMP [r31]", "    .align 64",
                   f"    .word 0x{p.random.getrandbits(32):08X}"]
    # pak RAM: different words at every power of two, then all read back
    marks = [0] + [1 << k for k in range(2, 24)] + [0xFFFFFC & ~(1 << k) for k in range(2, 24)]
    values = {at: p.random.getrandbits(32) for at in marks}
    for at in marks:
        base, value = 10, 11
        p.li(0x06000000 | at | p.random.getrandbits(5) << 27, base)
        p.li(values[at], value)
        p.put(f"ST.W r{value}, 0[r{base}]")
    for at in marks:
        p.li(0x06000000 | at, 10)
        p.put("LD.W 0[r10], r11")
        p.log(11)
    # the same in WRAM (above the log) and in VRAM, whose lines are fewer
    spots = [1 << k for k in range(2, 18)] + [0x1FFFC & ~(1 << k) for k in range(2, 17)]
    for region in (0x00000000,):
        for at in spots:
            p.li(region + at, 10)
            p.li(p.random.getrandbits(32), 11)
            p.put("ST.W r11, 0[r10]")
        for at in spots:
            p.li(region + at, 10)
            p.put("LD.W 0[r10], r11")
            p.log(11)
    # a routine copied to other memories and run there
    homes = [0x05000100, 0x06000100, 0x06800200, 0x00030000, 0x0003C000, 0x05000140, 0x0D000100, 0xFD000140, 0x08030000, 0x86000100]
    for turn, home in enumerate(homes):
        copy, back = p.label(), p.label()
        p.li(home, 7)
        p.put("LI routine, r6", "MOVEA 5, r0, r8", f"{copy}:", "LD.W 0[r6], r10", "ST.W r10, 0[r7]", "ADD 4, r6", "ADD 4, r7", "ADD -1, r8", f"BNZ {copy}")
        p.li(p.random.getrandbits(16), 12)
        p.li(home, 10)
        p.put(f"LI {back}, r20", "JMP [r10]", f"{back}:")
        p.log(12, 13, 31)
    # JR and JAL between regions: displacements of 2 to the 24th and 25th
    p.tail[:0] = ["    .align 4", "routine:", "    ADDI 4660, r12, r12", "    JAL * + 6", "    MOV 7, r13", "    MOV r31, r13", "    JMP [r20]", "    .align 4"]
    for home, upper in ((0x05FF0100, 0), (0x06000100, 0), (0x08030000, 0), (0x86000100, 0x80000000)):
        back = p.label()
        p.li(home, 7)
        distance = f"{back} + 0x{upper:X} - 0x{home:X}"  # the JAL that is put there leads back here
        p.put(f"LI ({distance} & 0xFFFF) << 16 | 0xAC00 | ({distance} >> 16 & 0x3FF), r10", "ST.W r10, 0[r7]")
        p.li(home, 10)
        p.li(p.random.getrandbits(32), 31)
        p.put("JMP [r10]", "HALT", f"{back}:")
        again = p.label()
        p.log(31)
        p.put(f"LI {again}, r10", "JMP [r10]", f"{again}:")
    return p


def interrupts(name, number):
    """Each phase begins with the pad's request, so that the program and the schedule keep step; then other lines are raised, with I, ID,
    EP and NP as the phase has them, alone and in pairs, while the program runs or is halted."""
    p = Program(name, number)
    p.used = 4 * 1400
    p.put("LI handlers, r7")
    for k, level in enumerate(LEVELS):
        p.put(f"LI {level}_accepted, r10", f"ST.W r10, {4 * k}[r7]")
    p.li(LOG, 10)
    p.put(f"LI 0x{POINTER:08X}, r7", "ST.W r10, 0[r7]", "ST.W r0, 4[r7]")
    begin, length, schedule = 600_000, 3_000, []
    pairs = [(a, b) for a in range(5) for b in range(a + 1, 5)]
    phases = [("run", (level,), psw) for level in range(5) for psw in
              [0, 15, *(i << 16 for i in range(1, 6)), 0x1000, 0x4000, 0x8000, 0x0F0000, 0x2000]]
    phases += [("run", pair, i << 16) for pair in pairs for i in (0, 1, 3)]
    phases += [("halt", (level,), p.random.getrandbits(4)) for level in range(1, 5)] + [("halt", (1, 3), 0), ("halt", (2, 4), 2 << 16)]
    for number, (kind, levels, psw) in enumerate(phases):
        at = begin + number * length
        schedule += [(at, "raise pad"), (at + 1, "lower pad")]
        spin, delay = p.label(), p.label()
        p.put(f"LI 0x{POINTER + 4:08X}, r7", "LDSR r0, 5", f"{spin}:", "LD.W 0[r7], r10", "CMP 0, r10", f"BZ {spin}", "ST.W r0, 0[r7]")
        for k, level in enumerate(levels):
            schedule += [(at + 400, f"raise {LEVELS[level]}"), (at + (401 if kind == "run" else 402) + 30 * (number % 3), f"lower {LEVELS[level]}")]
        p.li(psw, 11)
        p.put("MOVEA 500, r0, r12", "LDSR r11, 5")
        if kind == "halt":
            p.put("HALT")
        p.put(f"{delay}:", "ADD -1, r12", f"BNZ {delay}", "STSR 5, r13", "LDSR r0, 5", "LD.W 0[r7], r14", "ST.W r0, 0[r7]")
        p.log(13, 14, keep=(7,))
    p.tail += ["pad_accepted:", "    MOVEA 1, r0, r27", "    JR accepted", "timer_accepted:", "    MOVEA 2, r0, r27", "    JR accepted",
               "pak_accepted:", "    MOVEA 3, r0, r27", "    JR accepted", "link_accepted:", "    MOVEA 4, r0, r27", "    JR accepted",
               "vip_accepted:", "    LI drawn, r28", "    ST.W r28, 0[r28]", "    MOVEA 5, r0, r27"]
    p.tail += f"""
accepted:
    MOVHI 0x0500, r0, r26
    ST.W r27, 0x{POINTER + 4 & 0xFFFF:X}[r26]
    LD.W 0x{POINTER & 0xFFFF:X}[r26], r27
    STSR 4, r28
    ST.W r28, 0[r27]
    STSR 0, r28
    ST.W r28, 4[r27]
    STSR 1, r28
    ST.W r28, 8[r27]
    STSR 5, r28
    ST.W r28, 12[r27]
    ADDI 16, r27, r27
    LI 0x{LOG + 16 * 1399:08X}, r28
    CMP r28, r27
    BNH accepted_kept
    MOV r28, r27
accepted_kept:
    ST.W r27, 0x{POINTER & 0xFFFF:X}[r26]
    RETI
""".splitlines()
    end = begin + (len(phases) + 1) * length
    schedule += [(end + 1_000_000 * k, event) for k in range(1, 5) for event in ("raise vip",)]
    schedule += [(end + 1_000_000 * k + 1, "lower vip") for k in range(1, 5)]
    p.schedule = "".join(f"at {at} {event}\n" for at, event in sorted(schedule, key=lambda x: x[0]))
    return p


def timer(name, number):
    """Reload values, control bits and reads of the timer while ticks come; its interrupt."""
    p = Program(name, number)
    p.used = 4 * 300
    p.put("LI handlers, r7", "LI timer_accepted, r10", "ST.W r10, 4[r7]")
    p.li(LOG, 10)
    p.put(f"LI 0x{POINTER:08X}, r7", "ST.W r10, 0[r7]")
    p.li(0x02000000, 24)
    values = [1, 2, 3, 5, 0xFFFF, 0x8000, 0x0100, 0x00FF, *(1 << k for k in range(16)), *(0xFFFF ^ 1 << k for k in range(16))]
    for turn in range(150):
        value = values[turn] if turn < len(values) else p.random.choice([p.random.getrandbits(16), p.random.randrange(1, 9), p.random.randrange(1, 40)])
        control = p.random.choice([1, 1, 9, 9, 0x11, 0x19, 0, 8, 4, 5, 0x0D, 0x1D, p.random.getrandbits(5)])
        p.put("LDSR r0, 5")
        width = p.random.choice(["ST.B", "OUT.B", "ST.H", "OUT.H", "ST.W"])
        upper = p.random.getrandbits(5) << 27
        p.li(0x02000000 | upper, 24)
        p.li(value & 0xFF | p.random.getrandbits(24) << 8, 10)
        p.put(f"{width} r10, 0x18[r24]")
        p.li(value >> 8 | p.random.getrandbits(24) << 8, 10)
        p.put(f"{width} r10, 0x1C[r24]")
        p.put(f"IN.B 0x18[r24], r11", "IN.B 0x1C[r24], r12", "IN.B 0x20[r24], r13")
        p.log(11, 12, 13, keep=(24,))
        p.li(control, 10)
        p.put(f"{width} r10, 0x20[r24]")
        for look in range(3):
            loop = p.label()
            p.li(p.random.randrange(20, 900), 15)
            p.put(f"{loop}:", "ADD -1, r15", f"BNZ {loop}")
            p.put(f"{p.random.choice(['IN', 'LD'])}.{p.random.choice(['B', 'H', 'W'])} 0x18[r24], r11", "IN.B 0x1C[r24], r12", "IN.B 0x20[r24], r13")
            p.log(11, 12, 13, keep=(24,))
        if turn % 3 == 0:
            p.put(f"MOVEA {p.random.choice([4, 5, 0x0C, 0x0D])}, r0, r10", "ST.B r10, 0x20[r24]", "IN.B 0x20[r24], r13")
            p.log(13, keep=(24,))
        if turn % 5 == 4:
            p.li(2 << 16, 10)
            p.put("LDSR r10, 5")
    p.put("ST.B r0, 0x20[r24]", "LDSR r0, 5")
    p.tail += f"""
timer_accepted:
    MOVHI 0x0500, r0, r26
    LD.W 0x{POINTER & 0xFFFF:X}[r26], r27
    STSR 4, r28
    ST.W r28, 0[r27]
    STSR 1, r28
    ST.W r28, 4[r27]
    IN.B 0x20[r24], r28
    ST.W r28, 8[r27]
    IN.B 0x18[r24], r28
    ST.W r28, 12[r27]
    ADDI 16, r27, r27
    LI 0x{LOG + 16 * 299:08X}, r28
    CMP r28, r27
    BNH timer_kept
    MOV r28, r27
timer_kept:
    ST.W r27, 0x{POINTER & 0xFFFF:X}[r26]
    MOVEA 0x0C, r0, r28            ; acknowledges and stops
    ST.B r28, 0x20[r24]
    RETI
""".splitlines()
    p.schedule = "every 37 tick\n" + "".join(f"at {k * 4_000_000} raise vip\nat {k * 4_000_000 + 1} lower vip\n" for k in range(1, 5))
    return p


def reset(name, number):
    """What a reset leaves in PSW and ECR, and where it begins: 16 bytes too early a mark is set."""
    p = Program(name, number)
    p.log(14, 15, 16)
    p.console = [("    .org rom_end - 0x10\n    LI console, r1\n    JMP [r1]\n",
                  "    .org rom_end - 0x20\n    MOVEA 77, r0, r16\n    .org rom_end - 0x10\n    STSR 5, r14\n    STSR 4, r15\n    JR console\n")]
    return p


def fatal(name, number):
    """An exception while NP is set: the processor stops for good, and what follows it is never done."""
    p = Program(name, number)
    p.li(p.random.getrandbits(32), 10)
    p.log(10)
    p.flags(0x8000, 10)
    p.put("TRAP 5")
    p.log(10)
    return p


def main():
    out = pathlib.Path(sys.argv[1])
    out.mkdir(parents=True, exist_ok=True)
    console = (pathlib.Path(__file__).resolve().parents[1] / "cartridges" / "console.s").read_text()
    made = [integers(f"integers-{k}", 0x4130 + k) for k in range(1, 5)]
    made += [floats(f"floats-{k}", 0x4230 + k) for k in range(1, 4)]
    made += [branches("branches", 0x4331), memory("memory-1", 0x4431), memory("memory-2", 0x4432), system("system", 0x4531),
             far("far", 0x4631), interrupts("interrupts", 0x4731), timer("timer", 0x4831), reset("reset", 0x4931), fatal("fatal", 0x4932)]
    for p in made:
        behind = console
        for old, new in p.console:
            assert behind.count(old) == 1
            behind = behind.replace(old, new)
        (out / f"{p.name}.s").write_text(p.text() + behind)
        if p.schedule:
            (out / f"{p.name}.schedule").write_text(p.schedule)


main()
