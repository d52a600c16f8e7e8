; Reads and writes through mirrors: of the character tables, of WRAM and ROM, and of the whole map above 27 bits; loads of
; every width with signs and low address bits. What is read is printed; characters written through a mirror are shown.

    .equ cartridge, 0x3031
    .equ rom_end,   0x07004000
    .equ map,       0x20000

scene:
    JAL text
; A character of each table, written through the mirror and at its own address: 40, 600, 1100, 1600 and 41, 601, 1101, 1601.
    LI sources, r14
    LI map, r16
character:
    LD.W 0[r14], r7
    CMP 0, r7
    BZ characters_done
    LD.H 4[r14], r10               ; its number
    ADD 8, r14
    ST.H r10, 0[r16]
    ADD 4, r16
    LI art, r6
    MOVEA 16, r0, r8
    JAL copy
    BR character
characters_done:

; Words read through other addresses than they were written by.
    LI 0x05000200, r7
    LI 0x89ABCDEF, r10
    ST.W r10, 0[r7]
    LI reads, r14
    LI map + 256, r16
    JAL read_words
    LI more_reads, r14
    LI map + 306, r16
    JAL read_words

; Loads of every width: LD.B, IN.B, LD.H, IN.H, LD.W, IN.W at each of four addresses.
    LI 0x05000200, r15
    LI map + 2176, r16
    MOV 4, r17
width:
    MOV r16, r7
    LD.B 0[r15], r6
    MOV 8, r8
    JAL print
    IN.B 0[r15], r6
    MOV 8, r8
    JAL print
    LD.H 0[r15], r6
    MOV 8, r8
    JAL print
    ADDI 128, r16, r7
    IN.H 0[r15], r6
    MOV 8, r8
    JAL print
    LD.W 0[r15], r6
    MOV 8, r8
    JAL print
    IN.W 0[r15], r6
    MOV 8, r8
    JAL print
    ADDI 256, r16, r16
    ADD 1, r15
    ADD -1, r17
    BNZ width

; Stores of every width, low address bits dropped; a store to ROM does nothing.
    LI 0x0D000300, r15
    ST.W r0, 0[r15]
    ST.W r0, 4[r15]
    LI 0x01234567, r10
    ST.B r10, 1[r15]
    ST.H r10, 3[r15]
    OUT.W r10, 7[r15]
    LI 0x07000000, r7
    ST.W r0, 0[r7]
    LI stored, r14
    LI map + 3200, r16
    JAL read_words
ready:
    JAL frame
    BR ready

; Prints the words at the addresses in the list at r14, which 0 ends, a line each from r16 on.
read_words:
    MOV r31, r25
read_word:
    LD.W 0[r14], r10
    ADD 4, r14
    CMP 0, r10
    BZ read_words_end
    MOV r10, r6
    MOV r16, r7
    MOV 8, r8
    JAL print
    ADD 2, r7
    LD.W 0[r10], r6
    MOV 8, r8
    JAL print
    ADDI 128, r16, r16
    BR read_word
read_words_end:
    JMP [r25]

    .align 4
; Where a character is written, and its number.
sources:
    .word 0x00078280, 40, 0x0007A580, 600, 0x0007C4C0, 1100, 0x0007E400, 1600
    .word 0x00006290, 41, 0x0000E590, 601, 0x000164D0, 1101, 0x0001E410, 1601, 0
art:
    .half 0x5555, 0x7FFD, 0x6AA9, 0x6FF9, 0x6C39, 0x6CF9, 0x6AA9, 0x5555
reads:
    .word 0x05000200, 0x05010200, 0x05FF0200, 0x0D000200, 0xFD7F0200 ; WRAM
    .word 0x00006280, 0x00078280, 0x0007A580, 0x0000E580, 0x000164C0, 0x0001E400, 0x0007C4D0, 0x0007E410, 0x08006290, 0
more_reads:
    .word 0x07000000, 0x07004000, 0x07FFC000, 0x0F000000, 0xFF000000 ; ROM
    .word 0x08020000, 0x10020004, 0xF8020000, 0x08078280, 0x0805F860, 0xF805F868, 0x03000000, 0x0B000000, 0
stored:
    .word 0x05000300, 0x05000304, 0x07000000, 0
