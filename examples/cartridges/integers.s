; Results and flags of the integer instructions, as words and Z, S, OV, CY (1, 2, 4, 8). Each line is an instruction, in the
; order of `operations`; frame 1 has other operands.

    .equ cartridge, 0x3231
    .equ rom_end,   0x07004000
    .equ map,       0x20000

scene:
    JAL text
    LI pairs, r15
    JAL page
    LI pairs + 32, r15
    JAL page
ready:
    JAL frame
    BR ready

page:
    MOV r31, r19
    LI operations, r14
    LI map, r16
    MOV 15, r17
    MOV 1, r18
    JAL results
    JAL frame
    JMP [r19]

add:    ADD r10, r11
    JMP [r31]
add5:   ADD -16, r11
    JMP [r31]
addi:   ADDI -32768, r11, r11
    JMP [r31]
sub:    SUB r10, r11
    JMP [r31]
cmp:    CMP r10, r11
    JMP [r31]
cmp5:   CMP 15, r11
    JMP [r31]
and:    AND r10, r11
    JMP [r31]
andi:   ANDI 0xF0F0, r11, r11
    JMP [r31]
or:     OR r10, r11
    JMP [r31]
ori:    ORI 0x8001, r11, r11
    JMP [r31]
xor:    XOR r10, r11
    JMP [r31]
xori:   XORI 0xFFFF, r11, r11
    JMP [r31]
not:    NOT r10, r11
    JMP [r31]
shl:    SHL r10, r11
    JMP [r31]
shr:    SHR r10, r11
    JMP [r31]
sar:    SAR r10, r11
    JMP [r31]
shl5:   SHL 31, r11
    JMP [r31]
sar5:   SAR 7, r11
    JMP [r31]
mul:    MUL r10, r11
    JMP [r31]
high:   MUL r10, r11
    MOV r30, r11
    JMP [r31]
mulu:   MULU r10, r11
    JMP [r31]
div:    DIV r10, r11
    JMP [r31]
rem:    DIV r10, r11
    MOV r30, r11
    JMP [r31]
divu:   DIVU r10, r11
    JMP [r31]
to_r30: DIVU r10, r30             ; 0 by it; the quotient stays in r30
    ADD r30, r11
    JMP [r31]
xb:     XB r11
    JMP [r31]
xh:     XH r11
    JMP [r31]
conditions:                        ; SETF by each of the sixteen conditions, a bit each
    CMP r10, r11
    STSR 5, r9
    MOV 0, r11
    LDSR r9, 5
    SETF 0, r12
    OR r12, r11
    LDSR r9, 5
    SETF 1, r12
    SHL 1, r12
    OR r12, r11
    LDSR r9, 5
    SETF 2, r12
    SHL 2, r12
    OR r12, r11
    LDSR r9, 5
    SETF 3, r12
    SHL 3, r12
    OR r12, r11
    LDSR r9, 5
    SETF 4, r12
    SHL 4, r12
    OR r12, r11
    LDSR r9, 5
    SETF 5, r12
    SHL 5, r12
    OR r12, r11
    LDSR r9, 5
    SETF 6, r12
    SHL 6, r12
    OR r12, r11
    LDSR r9, 5
    SETF 7, r12
    SHL 7, r12
    OR r12, r11
    LDSR r9, 5
    SETF 8, r12
    SHL 8, r12
    OR r12, r11
    LDSR r9, 5
    SETF 9, r12
    SHL 9, r12
    OR r12, r11
    LDSR r9, 5
    SETF 10, r12
    SHL 10, r12
    OR r12, r11
    LDSR r9, 5
    SETF 11, r12
    SHL 11, r12
    OR r12, r11
    LDSR r9, 5
    SETF 12, r12
    SHL 12, r12
    OR r12, r11
    LDSR r9, 5
    SETF 13, r12
    SHL 13, r12
    OR r12, r11
    LDSR r9, 5
    SETF 14, r12
    SHL 14, r12
    OR r12, r11
    LDSR r9, 5
    SETF 15, r12
    SHL 15, r12
    OR r12, r11
    LDSR r9, 5
    JMP [r31]

    .align 4
operations:
    .word add, add5, addi, sub, cmp, cmp5, and, andi, or, ori, xor, xori, not, shl, shr, sar, shl5, sar5
    .word mul, high, mulu, div, rem, divu, to_r30, xb, xh, conditions, 0
pairs:
    .word 1, 0x7FFFFFFF, 0xFFFFFFFF, 0x80000000, 2, 0xFFFFFFF9, 0x12345678, 0x9ABCDEF0
    .word 31, 0, 0x80000000, 0x80000000, 0x10000, 0x10000, 0xFFFFFFE1, 0xFFFFFFFF
