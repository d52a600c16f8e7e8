/* Nanoseconds an instruction of two loops, ADD, LD.W, ADD, ST.W, BR and ADD, CMP, BNZ: the least of 60 rounds of 200,000
 * instructions each. */
#include "vb.h"

#include <stdio.h>
#include <stdlib.h>
#include <time.h>

static uint8_t rom[1024], wram[65536], vram[262144];
static size_t end;

static double now(void) {
    struct timespec t;
    clock_gettime(CLOCK_MONOTONIC, &t);
    return (double)t.tv_sec * 1e9 + (double)t.tv_nsec;
}

static void put(vb_instruction instruction) {
    vb_encoded encoded = vb_encode(instruction);
    uint16_t halves[2] = {encoded.first, encoded.second};
    if (encoded.refusal != 0) exit(1);
    for (uint32_t n = 0; n < encoded.halfwords; n++) {
        wram[end++] = (uint8_t)halves[n];
        wram[end++] = (uint8_t)(halves[n] >> 8);
    }
}

static void branch_to_start(uint32_t condition) {
    put((vb_instruction){VB_OP_BCOND, 0, 0, condition, (uint32_t) - (int32_t)end});
    end = 0;
}

static double least(void) {
    const uint64_t budget = 200000;
    double best = 1e9;
    vb_machine machine = vb_reset();
    machine.processor.pc = 0x05000000;
    machine.processor.regs[3] = 0x05008000;
    for (int round = 0; round < 60; round++) {
        double began = now();
        vb_ran ran = vb_run(rom, sizeof rom, wram, sizeof wram, vram, sizeof vram, NULL, 0, machine.processor,
                            machine.drawing, budget);
        double took = (now() - began) / (double)budget;
        if (ran.count != budget) exit(1);
        if (took < best) best = took;
    }
    return best;
}

int main(void) {
    put((vb_instruction){VB_OP_ADD_IMM, 0, 1, 0, 1});
    put((vb_instruction){VB_OP_LD_W, 3, 2, 0, 0});
    put((vb_instruction){VB_OP_ADD, 1, 2, 0, 0});
    put((vb_instruction){VB_OP_ST_W, 3, 2, 0, 0});
    branch_to_start(5);
    double memory = least();
    put((vb_instruction){VB_OP_ADD_IMM, 0, 1, 0, 1});
    put((vb_instruction){VB_OP_CMP_IMM, 0, 1, 0, 0});
    branch_to_start(10);
    printf("%.3f %.3f\n", memory, least());
    return 0;
}
