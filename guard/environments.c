/* The floating instructions in 256 floating-point environments: every rounding mode, FTZ, DAZ, exceptions unmasked one by
 * one and all at once, with no flag and with all flags set before. vb_step, vb_run and vb_replay must answer as in the
 * default one and leave MXCSR as it was; and the x87 environment with an exception pending, each of the six in turn. Status
 * 1 and one line at the first call that does not.
 *
 * Linked with the bare proved archive it fails; rust/vbsys/tests/guard.rs runs it with both. */
#include "vb.h"

#include <signal.h>
#include <stdio.h>
#include <stdlib.h>
#include <string.h>
#include <unistd.h>

#define DEFAULT 0x1F80u
#define FLAGS 0x3Fu
#define CODE 0x05000100u
#define HALT 0x6800

static unsigned long long calls;
static uint8_t rom[1024], wram[65536], vram[262144];
#define MEMORIES rom, sizeof rom, wram, sizeof wram, vram, sizeof vram, NULL, 0

static const uint32_t operations[8] = {VB_OP_CMPF_S, VB_OP_CVT_WS, VB_OP_CVT_SW, VB_OP_ADDF_S,
                                       VB_OP_SUBF_S, VB_OP_MULF_S, VB_OP_DIVF_S, VB_OP_TRNC_SW};

static const uint32_t special[] = {
    0x00000000, 0x80000000, 0x3F800000, 0xBF800000, 0x3F000000, 0x40000000, 0x40400000, 0x33000000, /* 0, 1, 1/2, 2, 3 */
    0x00800000, 0x80800000, 0x00FFFFFF, 0x00FFFFFE, 0x7F7FFFFF, 0xFF7FFFFF, 0x72FFFFFF, 0x73000000, /* ends of range */
    0x00000001, 0x807FFFFF, 0x7F800000, 0xFF800000, 0x7F800001, 0x7FC00000, 0xFFFFFFFF,             /* reserved */
    0x4F000000, 0xCF000000, 0xCF000001, 0x4EFFFFFF, 0x01000001, 0x01000003, 0x4B800001, 0xC0200000, /* conversions */
};
enum { SPECIAL = sizeof special / sizeof *special, RANDOM = 400 };

static uint32_t mxcsr(void) {
    uint32_t now;
    __asm__ volatile("stmxcsr %0" : "=m"(now));
    return now;
}

static void set_mxcsr(uint32_t to) { __asm__ volatile("ldmxcsr %0" : : "m"(to) : "memory"); }

static uint32_t random_word(void) {
    static uint64_t state = 0x9E3779B97F4A7C15u;
    state = state * 6364136223846793005u + 1442695040888963407u;
    return (uint32_t)(state >> 32);
}

static void put_half(uint8_t *at, uint16_t half) {
    at[0] = (uint8_t)half;
    at[1] = (uint8_t)(half >> 8);
}

/* What the three calls answer, without the bytes between members. */
typedef struct {
    vb_processor stepped, ran, replayed;
    vb_drawing drawing[3];
    uint32_t refusal[3], answer[2], code, count, agreed, word;
} answers;

static answers call(vb_processor processor, const uint8_t trace[16], uint32_t environment, uint32_t after[3]) {
    answers all;
    vb_drawing drawing = {0};
    memset(&all, 0, sizeof all);
    set_mxcsr(environment);
    vb_stepped stepped = vb_step(MEMORIES, processor, drawing);
    after[0] = mxcsr();
    set_mxcsr(environment);
    vb_ran ran = vb_run(MEMORIES, processor, drawing, 3);
    after[1] = mxcsr();
    set_mxcsr(environment);
    vb_replayed replayed = vb_replay(MEMORIES, processor, drawing, trace, 16);
    after[2] = mxcsr();
    set_mxcsr(DEFAULT);
    all.stepped = stepped.processor;
    all.ran = ran.processor;
    all.replayed = replayed.processor;
    all.drawing[0] = stepped.drawing;
    all.drawing[1] = ran.drawing;
    all.drawing[2] = replayed.drawing;
    all.refusal[0] = stepped.refusal;
    all.refusal[1] = ran.refusal;
    all.refusal[2] = replayed.refusal;
    all.answer[0] = stepped.answer;
    all.answer[1] = replayed.answer;
    all.code = stepped.code;
    all.count = (uint32_t)ran.count;
    all.agreed = (uint32_t)replayed.agreed;
    all.word = replayed.word;
    return all;
}

/* The trace of one step from here. */
static void record(vb_processor processor, uint8_t trace[16]) {
    vb_drawing drawing = {0};
    vb_processor after = vb_step(MEMORIES, processor, drawing).processor;
    uint32_t words[4] = {processor.pc, after.pc, after.psw, 0};
    for (int n = 0; n < 32; n++) words[3] += after.regs[n];
    for (int n = 0; n < 16; n++) trace[n] = (uint8_t)(words[n / 4] >> (8 * (n % 4)));
}

static void fail(const char *what, uint32_t operation, uint32_t reg2, uint32_t reg1, uint32_t environment) {
    printf("operation %u, %08X and %08X, MXCSR %04X: %s\n", operation, reg2, reg1, environment, what);
    exit(1);
}

/* One instruction in every environment; what it leaves in reg2 in the default one. */
static uint32_t environments(uint32_t operation, uint32_t reg2, uint32_t reg1) {
    static const uint32_t unmasked[8] = {0, 0x80, 0x100, 0x200, 0x400, 0x800, 0x1000, 0x1F80};
    vb_instruction instruction = {operation, 6, 5, 0, 0};
    vb_encoded encoded = vb_encode(instruction);
    vb_processor processor = vb_reset().processor;
    processor.psw = 0; /* NP clear: a trap enters its handler */
    uint32_t after[3];
    uint8_t trace[16];
    put_half(wram + 0x100, encoded.first);
    put_half(wram + 0x102, encoded.second);
    put_half(wram + 0x104, HALT);
    processor.pc = CODE;
    processor.regs[5] = reg2;
    processor.regs[6] = reg1;
    record(processor, trace);
    answers expected = call(processor, trace, DEFAULT, after);
    if (expected.answer[1] != VB_REPLAY_AGREED) fail("its own record does not agree", operation, reg2, reg1, DEFAULT);
    for (uint32_t n = 0; n < 256; n++) {
        uint32_t environment = (DEFAULT & ~unmasked[n / 16 % 8]) | (n % 4) << 13 | (n / 4 % 2) << 15 | (n / 8 % 2) << 6;
        if (n >= 128) environment |= FLAGS;
        answers seen = call(processor, trace, environment, after);
        calls += 3;
        if (memcmp(&seen, &expected, sizeof seen) != 0) fail("another answer", operation, reg2, reg1, environment);
        for (int k = 0; k < 3; k++)
            if (after[k] != environment) fail("MXCSR is another one afterwards", operation, reg2, reg1, environment);
    }
    return expected.stepped.regs[5];
}

/* The x87 environment as fnstenv writes it: control, status and tags, each with 16 bits more, then four pointers. */
typedef struct {
    uint32_t control, status, tags, pointers[4];
} x87;

/* The environment now; it is left as it is. */
static x87 x87_now(void) {
    x87 now;
    __asm__ volatile("fnstenv %0\n\tfldenv %0" : "=m"(now));
    return now;
}

/* A call with an unmasked exception pending that its caller never waits for. */
static void pending(uint32_t exception, int which) {
    vb_processor processor = vb_reset().processor;
    vb_drawing drawing = {0};
    uint8_t trace[16];
    x87 before = x87_now(), given = before, after;
    record(processor, trace);
    given.control &= ~exception;
    given.status |= exception | 0x80;
    __asm__ volatile("fldenv %0" : : "m"(given));
    if (which == 0) vb_step(MEMORIES, processor, drawing);
    if (which == 1) vb_run(MEMORIES, processor, drawing, 3);
    if (which == 2) vb_replay(MEMORIES, processor, drawing, trace, 16);
    __asm__ volatile("fnstenv %0\n\tfnclex" : "=m"(after));
    __asm__ volatile("fldenv %0" : : "m"(before));
    calls++;
    if ((after.control ^ given.control) & 0xFFFF || ((after.status ^ given.status) & 0xFF) || (after.tags ^ given.tags) & 0xFFFF) {
        printf("x87 exception %02X, call %d: the environment is another one afterwards\n", exception, which);
        exit(1);
    }
}

static void died(int number) {
    static const char line[] = "a floating-point exception ended the call\n";
    (void)number;
    _exit(write(1, line, sizeof line - 1) < 0 ? 2 : 1);
}

int main(void) {
    signal(SIGFPE, died);
    for (size_t n = 0; n < sizeof rom; n += 2) put_half(rom + n, HALT); /* the handlers */
    for (uint32_t exception = 1; exception < 0x40; exception *= 2)
        for (int which = 0; which < 3; which++) pending(exception, which);
    for (int o = 0; o < 8; o++) {
        for (int a = 0; a < SPECIAL; a++)
            for (int b = 0; b < SPECIAL; b++) environments(operations[o], special[a], special[b]);
        for (int n = 0; n < RANDOM; n++) environments(operations[o], random_word(), random_word());
    }
    /* results that a rounding mode or flush-to-zero would change */
    if (environments(VB_OP_MULF_S, 0x00FFFFFF, 0x3F000000) != 0x00800000 ||
        environments(VB_OP_ADDF_S, 0x3F800000, 0x33000000) != 0x3F800000 ||
        environments(VB_OP_CVT_WS, 0, 0x01000001) != 0x4B800000 ||
        environments(VB_OP_DIVF_S, 0x3F800000, 0x40400000) != 0x3EAAAAAB) {
        puts("the default environment gives another result");
        return 1;
    }
    printf("%llu calls answer as in the default environment and keep MXCSR\n", calls);
    return 0;
}
