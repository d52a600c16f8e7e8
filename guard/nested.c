/* Calls from a signal handler within a call: a timer interrupts a run of ADD, BR again and again, and the handler makes a
 * separate floating step, in another environment, and takes a backtrace. Both must answer as alone, and both must
 * find their environments again. */
#include "vb.h"

#include <execinfo.h>
#include <signal.h>
#include <stdio.h>
#include <string.h>
#include <sys/time.h>

static uint8_t rom[1024], wram[65536], vram[262144], other_wram[65536], other_vram[262144];
static volatile sig_atomic_t handled, wrong;

static uint32_t mxcsr(void) {
    uint32_t now;
    __asm__ volatile("stmxcsr %0" : "=m"(now));
    return now;
}

static void set_mxcsr(uint32_t to) { __asm__ volatile("ldmxcsr %0" : : "m"(to) : "memory"); }

static void put(uint8_t *memory, const uint16_t *halves, int count) {
    for (int n = 0; n < 2 * count; n++) memory[n] = (uint8_t)(halves[n / 2] >> (8 * (n % 2)));
}

/* 1 / 3, upwards: without the guard another float. */
static void handler(int number) {
    void *frames[16];
    vb_machine machine = vb_reset();
    (void)number;
    machine.processor.pc = 0x05000000;
    machine.processor.regs[5] = 0x3F800000;
    machine.processor.regs[6] = 0x40400000;
    uint32_t before = mxcsr();
    set_mxcsr(0x5F80);
    vb_stepped stepped = vb_step(rom, sizeof rom, other_wram, sizeof other_wram, other_vram, sizeof other_vram, NULL, 0,
                                 machine.processor, machine.drawing);
    if (stepped.refusal != 0 || stepped.processor.regs[5] != 0x3EAAAAAB || mxcsr() != 0x5F80) wrong = 1;
    set_mxcsr(before);
    if (backtrace(frames, 16) < 1) wrong = 1;
    handled++;
}

int main(void) {
    static const uint16_t loop[2] = {0x4421, 0x8BFE};          /* ADD 1, r1; BR to it */
    static const uint16_t divide[2] = {62 << 10 | 5 << 5 | 6, 7 << 10}; /* DIVF.S r6, r5 */
    const uint64_t budget = 400000;
    struct itimerval often = {{0, 300}, {0, 300}}, never = {{0, 0}, {0, 0}};
    struct sigaction action;
    void *frames[4];
    backtrace(frames, 4); /* the first one loads a library */
    memset(&action, 0, sizeof action);
    action.sa_handler = handler;
    sigaction(SIGALRM, &action, NULL);
    put(wram, loop, 2);
    put(other_wram, divide, 2);
    vb_machine machine = vb_reset();
    machine.processor.pc = 0x05000000;
    set_mxcsr(0xBFFF & ~0x1000u); /* another environment than the handler's, with flags set */
    uint32_t before = mxcsr();
    setitimer(ITIMER_REAL, &often, NULL);
    for (int round = 0; handled < 200 && round < 100000 && !wrong; round++) {
        vb_ran ran = vb_run(rom, sizeof rom, wram, sizeof wram, vram, sizeof vram, NULL, 0, machine.processor,
                            machine.drawing, budget);
        if (ran.refusal != 0 || ran.count != budget || ran.processor.regs[1] != budget / 2 || mxcsr() != before) wrong = 1;
    }
    setitimer(ITIMER_REAL, &never, NULL);
    set_mxcsr(0x1F80);
    printf("%d calls within calls, %s\n", (int)handled, wrong ? "one went wrong" : "all right");
    return wrong || handled < 200;
}
