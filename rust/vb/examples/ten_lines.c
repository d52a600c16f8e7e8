#include "vb.h"
#include <stdio.h>
static uint8_t rom[1024], wram[65536], vram[262144];
int main(void) {
    vb_machine m = vb_reset();
    vb_ran ran = vb_run(rom, 1024, wram, 65536, vram, 262144, NULL, 0, m.processor, m.drawing, 8);
    ran.drawing.bkcol = 2;
    if (ran.refusal != 0 || vb_draw_frame(vram, 262144, ran.drawing, 0) != 0) return 1;
    printf("%u instructions, pixel %d\n", (unsigned)ran.count, vram[0] & 3);
}
