/* What ends a program at its start where the processor lacks what the assembly text of x86-64 uses: the level x86-64-v2.
 * Without it the text's first such instruction would end it by a signal. Included by ../../../bindings/c/memory.c and words.c. */
#ifndef HAYRO_JBIG2_PROCESSOR_H
#define HAYRO_JBIG2_PROCESSOR_H

#if defined(__x86_64__) && defined(__linux__)
#include <cpuid.h>
#include <unistd.h>

/* A note by which the loader of glibc 2.33 and later refuses the program, or returns an error from dlopen. The linker
 * takes it over from this object: its property GNU_PROPERTY_X86_ISA_1_NEEDED is baseline and v2. */
__asm__(".pushsection .note.gnu.property, \"a\", @note\n"
        ".p2align 3\n"
        ".long 4, 16, 5\n"
        ".asciz \"GNU\"\n"
        ".long 0xc0008002, 4, 3, 0\n"
        ".popsection");

/* For other loaders. It runs before main and before the other constructors. */
__attribute__((constructor(101))) static void refuse_older_processors(void) {
    static const char refusal[] = "hayro_jbig2: this processor is below the level x86-64-v2, for which the assembly "
                                  "text is; the C of bindings/portable/ runs on it\n";
    const unsigned needed = bit_SSE3 | bit_SSSE3 | bit_SSE4_1 | bit_SSE4_2 | bit_POPCNT;
    unsigned eax, ebx, ecx, edx;
    if (!__get_cpuid(1, &eax, &ebx, &ecx, &edx) || (ecx & needed) != needed) {
        const ssize_t written = write(2, refusal, sizeof refusal - 1);
        (void)written;
        _exit(127);
    }
}
#endif

#endif
