; Exceptions: a line for each, ECR, the restore PC, the saved PSW and PSW in the handler. TRAP with vectors 0, 15, 16 and
; 31, zero divisors, the three illegal opcodes, an unlisted sub-opcode of 111110, and a TRAP inside a handler, which is duplexed.
; Last: what STSR reads of the system registers that programs use.

    .equ cartridge, 0x3631
    .equ rom_end,   0x07004000
    .equ map,       0x20000

scene:
    JAL text
    LI handlers, r7
    LI report, r10
    ST.W r10, 24[r7]
    ST.W r10, 28[r7]
    ST.W r10, 32[r7]
    ST.W r10, 36[r7]
    LI duplexed, r10
    ST.W r10, 40[r7]
    LI map, r16
    MOV 0, r19                     ; TRAP's restore PC is the next instruction
    LDSR r0, 5
    TRAP 0
    LDSR r0, 5
    TRAP 15
    LDSR r0, 5
    TRAP 16
    MOV 15, r10
    LDSR r10, 5
    TRAP 31
    MOV 2, r19                     ; here it is the instruction itself
    LDSR r0, 5
    DIV r0, r10
    LDSR r10, 5
    DIVU r0, r10
    LDSR r0, 5
    .half 0x6C00                   ; 011011
    LDSR r0, 5
    .half 0xC800                   ; 110010
    LDSR r0, 5
    .half 0xD800                   ; 110110
    MOV 4, r19
    LDSR r0, 5
    .half 0xF800, 0x3400           ; 111110 with sub-opcode 001101
    MOV 0, r19
    LI handlers, r7
    LI nested, r10
    ST.W r10, 32[r7]
    LDSR r0, 5
    TRAP 1

; EIPC, EIPSW, FEPC, FEPSW, ECR's high half, PIR, TKCW, ADTRE
    LDSR r0, 5
    ADDI 128, r16, r16
    LI 0x12345679, r10
    LDSR r10, 0
    LDSR r10, 1
    LDSR r10, 2
    LDSR r10, 3
    STSR 0, r20
    STSR 1, r21
    STSR 2, r22
    STSR 3, r23
    MOV r16, r7
    MOV r20, r6
    MOV 8, r8
    JAL print
    ADD 2, r7
    MOV r21, r6
    MOV 8, r8
    JAL print
    ADD 2, r7
    MOV r22, r6
    MOV 8, r8
    JAL print
    ADD 2, r7
    MOV r23, r6
    MOV 8, r8
    JAL print
    ADDI 128, r16, r7
    STSR 6, r6
    MOV 8, r8
    JAL print
    ADD 2, r7
    STSR 7, r6
    MOV 8, r8
    JAL print
    ADD 2, r7
    LDSR r10, 25
    STSR 25, r6
    MOV 8, r8
    JAL print
    LDSR r0, 25
ready:
    JAL frame
    BR ready

; Prints the line, then goes on r19 bytes after the restore PC. The link register is kept in r28.
report:
    MOV r31, r28
    STSR 4, r6
    MOV r16, r7
    MOV 8, r8
    JAL print
    ADD 2, r7
    STSR 0, r6
    MOV 8, r8
    JAL print
    ADD 2, r7
    STSR 1, r6
    MOV 8, r8
    JAL print
    ADD 2, r7
    STSR 5, r6
    MOV 8, r8
    JAL print
    ADDI 128, r16, r16
    MOV r28, r31
    STSR 0, r26
    ADD r19, r26
    LDSR r26, 0
    RETI

; A TRAP inside its handler, then the handler's own line.
nested:
    TRAP 2
    JR report

duplexed:
    MOV r31, r28
    STSR 4, r6
    MOV r16, r7
    MOV 8, r8
    JAL print
    ADD 2, r7
    STSR 2, r6
    MOV 8, r8
    JAL print
    ADD 2, r7
    STSR 3, r6
    MOV 8, r8
    JAL print
    ADD 2, r7
    STSR 5, r6
    MOV 8, r8
    JAL print
    ADDI 128, r16, r16
    MOV r28, r31
    RETI
