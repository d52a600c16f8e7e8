; Random operands: each instruction works on 1,024 pairs of words, every fourth pair small ones, with random flags before it.
; Results, r30 and the flags after it are summed up, and a line has the sum of an instruction, in the order of `integers` and
; then `floats`. Floating operands are such that no result overflows or underflows; FPR is left out.

    .equ cartridge, 0x3432
    .equ rom_end,   0x07004000
    .equ map,       0x20000

scene:
    JAL text
    LI 20261117, r25               ; the random number so far
    LI 1103515245, r24
    LI map, r16
    LI integers, r14
    LI whole, r19
    JAL sums
    LI map + 32, r16
    LI floats, r14
    LI float, r19
    JAL sums
ready:
    JAL frame
    BR ready

; A line from r16 on for each instruction of the list at r14, which 0 ends; r19 makes a pair.
sums:
    MOV r31, r23
sums_line:
    LD.W 0[r14], r20
    ADD 4, r14
    CMP 0, r20
    BZ sums_end
    MOV 0, r22
    MOVEA 1024, r0, r21
sums_pair:
    JAL pair
    JAL random
    MOV r10, r12
    ANDI 15, r12, r12
    MOV r17, r10
    MOV r18, r11
    MOV 0, r30
    LDSR r12, 5
    JAL operation
    STSR 5, r12
    MOV r30, r13
    ANDI 0x3EF, r12, r12
    MOVEA 33, r0, r10
    MULU r10, r22
    ADD r11, r22
    MULU r10, r22
    ADD r13, r22
    MULU r10, r22
    ADD r12, r22
    ADD -1, r21
    BNZ sums_pair
    MOV r22, r6
    MOV r16, r7
    MOV 8, r8
    JAL print
    ADDI 128, r16, r16
    BR sums_line
sums_end:
    JMP [r23]
pair:
    JMP [r19]

; r17 and r18: any words, but r17 is not 0; in every fourth pair both are moved right by the same random amount.
whole:
    MOV r31, r15
    JAL random
    MOV r10, r17
    JAL random
    MOV r10, r18
    JAL random
    ANDI 3, r10, r11
    BNZ whole_large
    SHR 5, r10
    SAR r10, r17
    SAR r10, r18
whole_large:
    CMP 0, r17
    BNZ whole_done
    MOV 1, r17
whole_done:
    JMP [r15]

; Floats of either sign with exponents from 96 to 159.
float:
    MOV r31, r15
    JAL random
    JAL make
    MOV r10, r17
    JAL random
    JAL make
    MOV r10, r18
    JMP [r15]
make:
    LI 0x9FFFFFFF, r11
    AND r11, r10                   ; sign, exponent mod 64, fraction
    LI 0x30000000, r11
    ADD r11, r10
    JMP [r31]

; r10: 32 random bits.
random:
    MULU r24, r25
    ADDI 12345, r25, r25
    MOV r25, r10
    SHR 16, r10
    SHL 16, r10
    MULU r24, r25
    ADDI 12345, r25, r25
    MOV r25, r11
    SHR 16, r11
    OR r11, r10
    JMP [r31]

add:    ADD r10, r11
    JMP [r31]
addi:   ADDI -12345, r10, r11
    JMP [r31]
sub:    SUB r10, r11
    JMP [r31]
cmp:    CMP r10, r11
    JMP [r31]
cmp5:   CMP -3, r11
    JMP [r31]
and:    AND r10, r11
    JMP [r31]
andi:   ANDI 0xFF0F, r10, r11
    JMP [r31]
or:     OR r10, r11
    JMP [r31]
xor:    XOR r10, r11
    JMP [r31]
xori:   XORI 0x8421, r10, r11
    JMP [r31]
not:    NOT r10, r11
    JMP [r31]
shl:    SHL r10, r11
    JMP [r31]
shr:    SHR r10, r11
    JMP [r31]
sar:    SAR r10, r11
    JMP [r31]
mul:    MUL r10, r11
    JMP [r31]
mulu:   MULU r10, r11
    CMP 0, r11                     ; its OV is left out: see `multiply`
    JMP [r31]
div:    DIV r10, r11
    JMP [r31]
divu:   DIVU r10, r11
    JMP [r31]
rev:    REV r10, r11
    JMP [r31]
xb:     XB r11
    JMP [r31]
xh:     XH r11
    JMP [r31]
movhi:  MOVHI 0x8001, r10, r11
    JMP [r31]
movea:  MOVEA -2, r10, r11
    JMP [r31]
less:   SETF 6, r11                ; by the flags before it: BLT, BLE, BNH, BH
    JMP [r31]
most:   SETF 7, r11
    JMP [r31]
under:  SETF 3, r11
    JMP [r31]
over:   SETF 11, r11
    JMP [r31]

addf:   ADDF.S r10, r11
    JMP [r31]
subf:   SUBF.S r10, r11
    JMP [r31]
mulf:   MULF.S r10, r11
    JMP [r31]
divf:   DIVF.S r10, r11
    JMP [r31]
cmpf:   CMPF.S r10, r11
    JMP [r31]
near:   XOR r10, r11               ; operands that are equal but for the lowest three bits
    SHR 29, r11
    XOR r10, r11
    SUBF.S r10, r11
    JMP [r31]
cvtws:  CVT.WS r10, r11
    JMP [r31]
cvtsw:  LI 0x08000000, r12         ; exponents from 80 to 143
    SUB r12, r10
    CVT.SW r10, r11
    JMP [r31]
trncsw: LI 0x08000000, r12
    SUB r12, r10
    TRNC.SW r10, r11
    JMP [r31]

    .align 4
integers:
    .word add, addi, sub, cmp, cmp5, and, andi, or, xor, xori, not, shl, shr, sar, mul, mulu, div, divu, rev, xb, xh
    .word movhi, movea, less, most, under, over, 0
floats:
    .word addf, subf, mulf, divf, cmpf, near, cvtws, cvtsw, trncsw, 0
