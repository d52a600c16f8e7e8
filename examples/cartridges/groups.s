; What an object world's own flags do: set for one eye, or for none (it does not count); and a fifth and a sixth object
; world, for which the counter of groups starts again at 3. Windows cover the left object of groups 0, 2 and 3 in between, so
; that it shows which groups are drawn again.

    .equ cartridge, 0x3730
    .equ rom_end,   0x07004000

scene:
    LI maps, r7
    MOV 0, r6
    JAL pattern
    LI records, r6
    LI object_table, r7
    MOVEA 64, r0, r8
    JAL copy
    LI vip, r24
    LI 0x00030001, r10             ; group 0: 0 and 1, 1: 2 and 3, 2: 4 and 5, 3: 6 and 7
    ST.W r10, spt[r24]
    LI 0x00070005, r10
    ST.W r10, spt + 4[r24]
    LI table, r6
    MOV 13, r8
    JAL worlds
ready:
    JAL frame
    BR ready

    .align 4
records:
    .half  80, 0xC000,  40, 0x0011, 100, 0xC004,  40, 0x4011          ; group 0
    .half  80, 0xC000,  60, 0x0012, 100, 0xC004,  60, 0x4012          ; group 1
    .half  80, 0xC000,  80, 0x0013, 100, 0xC004,  80, 0x4013          ; group 2
    .half  80, 0xC000, 100, 0x0014, 100, 0xC004, 100, 0x4014          ; group 3
table:
    .half 0xB000,   0,   0,   0,    0,   0,   0,   0,   0, 0, 0       ; group 3, left flag alone
    .half 0x3000,   0,   0,   0,    0,   0,   0,   0,   0, 0, 0       ; no flag: not an object world
    .half 0x7000,   0,   0,   0,    0,   0,   0,   0,   0, 0, 0       ; group 2, right flag alone
    .half 0xF000,   0,   0,   0,    0,   0,   0,   0,   0, 0, 0       ; group 1
    .half 0x3000,   0,   0,   0,    0,   0,   0,   0,   0, 0, 0       ; no flag
    .half 0xF000,   0,   0,   0,    0,   0,   0,   0,   0, 0, 0       ; group 0
    .half 0xC000,  76,   0,  96,    0,   0,   0,  15,  15, 0, 0       ; over half of group 3
    .half 0xC000,  76,   0,  76,    0,   0,   0,  15,  15, 0, 0       ; over half of group 2
    .half 0xC000,  76,   0,  36,    0,   0,   0,  15,  15, 0, 0       ; over half of group 0
    .half 0xF000,   0,   0,   0,    0,   0,   0,   0,   0, 0, 0       ; group 3 again
    .half 0xF000,   0,   0,   0,    0,   0,   0,   0,   0, 0, 0       ; group 2 again
    .half 0xC000, 140,   0,  36,    0,   0,   0,  79,  79, 0, 0
    .half 0x0040,   0,   0,   0,    0,   0,   0,   0,   0, 0, 0
