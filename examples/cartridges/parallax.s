; Parallax at its extremes: windows and objects whose sums and differences of position and parallax need more than ten bits,
; so that one eye sees them and the other does not.

    .equ cartridge, 0x3032
    .equ rom_end,   0x07004000

scene:
    LI maps, r7
    MOV 0, r6
    JAL pattern
    LI records, r6
    LI object_table, r7
    MOVEA 64, r0, r8
    JAL copy
    LI vip, r24
    ST.W r0, spt[r24]
    LI 0x00070000, r10             ; group 3: objects 1 to 7
    ST.W r10, spt + 4[r24]
    LI table, r6
    MOV 9, r8
    JAL worlds
ready:
    JAL frame
    BR ready

    .align 4
; JX, eyes and JP, JY, palette and character. Left is JX - JP, right JX + JP.
records:
    .half   0, 0x0000,   0, 0x0000                                    ; group 0: shown to no eye
    .half 400, 0xC0C8,  20, 0x0011                                    ; 200 and 600
    .half -50, 0xC3CE,  30, 0x0012                                    ; 0 and -100
    .half 511, 0xC1FF,  40, 0x0013                                    ; 0 and 1,022
    .half -512, 0xC200,  50, 0x0014                                    ; 0 and -1,024
    .half 511, 0xC200,  60, 0x0015                                    ; 1,023 and -1
    .half -400, 0xC198,  70, 0x0016                                    ; -808 and 8
    .half 100, 0xC3FF,  80, 0x0017                                    ; 101 and 99
; Flags, GX, GP, GY, MX, MP, MY, W, H, parameter base, overplane.
table:
    .half 0xC000, 200, 100,  96,    0,   0,   0,  47,   7, 0, 0       ; 100 and 300
    .half 0xC000, 350, 300, 112,    0,   0,   0,  47,   7, 0, 0       ; 50 and 650
    .half 0xC000, 300,-300, 128,    0,   0,   0,  47,   7, 0, 0       ; 600 and 0
    .half 0xC000, 511, 511, 144,    0,   0,   0,  47,   7, 0, 0       ; 0 and 1,022
    .half 0xC000,-512,-512, 160,    0,   0,   0,  47,   7, 0, 0       ; 0 and -1,024
    .half 0xC000,-400, 400, 176,    0,   0,   0,  47,   7, 0, 0       ; -800 and 0
    .half 0xC000,  16,   0, 200,  256, 300,   0, 351,   7, 0, 0       ; MP 300
    .half 0xF000,   0,   0,   0,    0,   0,   0,   0,   0, 0, 0
    .half 0x0040,   0,   0,   0,    0,   0,   0,   0,   0, 0, 0
