/* The guard: the part of libvb that is not proved.
 *
 * The proved functions compute floating instructions in the SSE unit, whose control register MXCSR is the caller's.
 * Another rounding mode, flush-to-zero or denormals-are-zero would change results; an unmasked exception would end the
 * process. So the calls that execute instructions run in the default environment, and the caller gets MXCSR back as it
 * was, flags included. No other call computes with floats, and none uses the x87 unit: rust/vbsys/tests/guard.rs reads
 * that from the machine code.
 *
 * guard/build renames the proved functions to proved_.. and makes those names local to libvb. */
#include "vb.h"

#ifndef __x86_64__
#error "the proved archive is for x86-64"
#endif

/* Each call has 240 bytes and more of arguments on the caller's stack. A C function in between would copy them, for 5 to
 * 11 ns; here they stay in place. Meanwhile the return address and MXCSR wait in xmm15 and xmm14: the calling convention
 * leaves these registers to the callee, the proved functions of the three calls use neither and call nothing outside
 * libvb, and a signal handler gets separate registers. The x87 unit is not touched: an exception that is pending there
 * stays pending. A debugger's backtrace ends here (.cfi_undefined). */
#define GUARDED(name)                                                                               \
    __asm__(".text\n"                                                                               \
            ".p2align 6\n"                                                                          \
            ".globl " #name "\n"                                                                    \
            ".type " #name ", @function\n"                                                          \
            #name ":\n"                                                                             \
            ".cfi_startproc\n"                                                                      \
            "   movq (%rsp), %xmm15\n"     /* the return address */                                 \
            "   stmxcsr (%rsp)\n"          /* the caller's environment, by way of its place */      \
            ".cfi_undefined rip\n"                                                                  \
            "   movd (%rsp), %xmm14\n"                                                              \
            "   ldmxcsr default_environment(%rip)\n"                                                \
            "   add $8, %rsp\n"            /* so that the call below finds the arguments */         \
            ".cfi_adjust_cfa_offset -8\n"                                                           \
            "   call proved_" #name "\n"                                                            \
            "   sub $8, %rsp\n"                                                                     \
            ".cfi_adjust_cfa_offset 8\n"                                                            \
            "   movd %xmm14, (%rsp)\n"                                                              \
            "   ldmxcsr (%rsp)\n"                                                                   \
            "   movq %xmm15, (%rsp)\n"                                                              \
            ".cfi_restore rip\n"                                                                    \
            "   ret\n"                                                                              \
            ".cfi_endproc\n"                                                                        \
            ".size " #name ", . - " #name "\n")

GUARDED(vb_step);
GUARDED(vb_run);
GUARDED(vb_replay);

/* Round to nearest, FTZ and DAZ off, all exceptions masked, no flag set. */
__asm__(".section .rodata.cst4, \"aM\", @progbits, 4\n"
        ".p2align 2\n"
        "default_environment: .long 0x1F80\n"
        ".text\n");

uint32_t vb_version(void) { return VB_VERSION; }

/* guard/build gives the text. */
const char *vb_version_text(void) { return VB_VERSION_TEXT; }

const char *vb_refusal_text(uint32_t refusal) {
    switch (refusal) {
    case 0: return "no refusal";
    case 1: return "ROM's length is not a power of two from 1,024 to 16,777,216";
    case 2: return "WRAM's length is not 65,536";
    case 3: return "VRAM's length is not 262,144";
    case 4: return "pak RAM's length is neither 0 nor a power of two up to 16,777,216";
    case 5: return "a register, the request lines or the timer's control hold a value outside their range";
    case 6: return "the instruction is not modelled";
    case 7: return "the frame is not 0 or 1";
    case 8: return "the strip is above 27, or the character above 2,047";
    case 9: return "the length of the file or of the output buffer is not a saved state's";
    case 10: return "the bytes of the file are not a saved state";
    case 11: return "the list has more than 256 accesses, or an access whose size is not 1, 2 or 4";
    case 12: return "no instruction has these fields";
    case 13: return "the probe may not write at this address";
    case 14: return "the trace's length is not a multiple of 16";
    case 15: return "the eye is above 1, the start is not from 95 to 255, or the output buffer has not 86,016 bytes";
    case 16: return "the request lines or the timer are not at reset, and form 1 does not hold them";
    case 17: return "the file's length is not that of a saved state of form 2";
    case VB_MISUSE:
        return "misuse: the mode is above 2, the list's length is not a multiple of 20, or the pixel is outside the image";
    default: return "unknown";
    }
}
