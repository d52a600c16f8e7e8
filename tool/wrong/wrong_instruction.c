/* A library in which XOR has bit 0 of its result wrong, in a step and in a run of one instruction. */
#include "vb.h"

vb_stepped __real_vb_step(VB_MEMORIES, vb_processor processor, vb_drawing drawing);
vb_ran __real_vb_run(VB_MEMORIES, vb_processor processor, vb_drawing drawing, uint64_t budget);
vb_stepped __wrap_vb_step(VB_MEMORIES, vb_processor processor, vb_drawing drawing);
vb_ran __wrap_vb_run(VB_MEMORIES, vb_processor processor, vb_drawing drawing, uint64_t budget);

/* The register that the next instruction writes where it is XOR; 0 for any other instruction. */
static uint32_t written(VB_READ_MEMORIES, vb_processor processor, vb_drawing drawing) {
    vb_loaded half = vb_load_half(rom, rom_len, wram, wram_len, vram, vram_len, pak, pak_len, drawing,
                                  processor.hardware, processor.pc);
    return half.value >> 10 == 0x0E ? half.value >> 5 & 31 : 0;
}

vb_stepped __wrap_vb_step(VB_MEMORIES, vb_processor processor, vb_drawing drawing) {
    uint32_t reg2 = written(rom, rom_len, wram, wram_len, vram, vram_len, pak, pak_len, processor, drawing);
    vb_stepped stepped = __real_vb_step(rom, rom_len, wram, wram_len, vram, vram_len, pak, pak_len, processor, drawing);
    if (reg2 != 0 && stepped.refusal == 0 && stepped.answer == VB_ENDED) stepped.processor.regs[reg2] ^= 1;
    return stepped;
}

vb_ran __wrap_vb_run(VB_MEMORIES, vb_processor processor, vb_drawing drawing, uint64_t budget) {
    uint32_t reg2 = written(rom, rom_len, wram, wram_len, vram, vram_len, pak, pak_len, processor, drawing);
    vb_ran ran = __real_vb_run(rom, rom_len, wram, wram_len, vram, vram_len, pak, pak_len, processor, drawing, budget);
    if (reg2 != 0 && ran.count == 1) ran.processor.regs[reg2] ^= 1;
    return ran;
}
