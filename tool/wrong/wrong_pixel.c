/* A library that draws a left image's last row, row 223, as the background color. */
#include "vb.h"

uint32_t __real_vb_draw_frame(uint8_t *vram, size_t vram_len, vb_drawing drawing, uint32_t frame);
uint32_t __real_vb_draw_strip(uint8_t *vram, size_t vram_len, vb_drawing drawing, uint32_t frame, uint32_t strip);
uint32_t __wrap_vb_draw_frame(uint8_t *vram, size_t vram_len, vb_drawing drawing, uint32_t frame);
uint32_t __wrap_vb_draw_strip(uint8_t *vram, size_t vram_len, vb_drawing drawing, uint32_t frame, uint32_t strip);

static void last_row(uint8_t *vram, vb_drawing drawing, uint32_t frame) {
    for (uint32_t x = 0; x < 384; x++) {
        uint8_t *byte = vram + 0x8000 * frame + 64 * x + 223 / 4;
        *byte = (uint8_t)((*byte & 0x3F) | drawing.bkcol << 6);
    }
}

uint32_t __wrap_vb_draw_frame(uint8_t *vram, size_t vram_len, vb_drawing drawing, uint32_t frame) {
    uint32_t refusal = __real_vb_draw_frame(vram, vram_len, drawing, frame);
    if (refusal == 0) last_row(vram, drawing, frame);
    return refusal;
}

uint32_t __wrap_vb_draw_strip(uint8_t *vram, size_t vram_len, vb_drawing drawing, uint32_t frame, uint32_t strip) {
    uint32_t refusal = __real_vb_draw_strip(vram, vram_len, drawing, frame, strip);
    if (refusal == 0 && strip == 27) last_row(vram, drawing, frame);
    return refusal;
}
