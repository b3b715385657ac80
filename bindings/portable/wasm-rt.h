/*
 * What hayro_jbig2_module.c asks of its run time, in place of the wasm-rt.h of wabt 1.0.32. The names and the structs
 * are wabt's (Copyright 2018 WebAssembly Community Group participants, Apache License 2.0, ../../LICENSE-APACHE). What
 * differs:
 *
 * - The bounds of each load and store are checked by a comparison. There is no signal handler, and no addresses are
 *   reserved.
 * - The memory has WebAssembly's order of bytes on each machine. So instance.c copies bytes in and out as they are.
 * - The module has no tables and no floating point, so what wabt has for these is left out, or never called.
 * - The names that a linker sees begin with jbig2_portable, so that a program may have other modules of wasm2c.
 */
#ifndef HAYRO_JBIG2_WASM_RT_H
#define HAYRO_JBIG2_WASM_RT_H

#include <stdbool.h>
#include <stddef.h>
#include <stdint.h>
#include <string.h>

#define WASM_RT_MEMCHECK_SIGNAL_HANDLER 0
/* The proved code calls itself in sorting alone, as deep as the logarithm of a count. */
#define WASM_RT_USE_STACK_DEPTH_COUNT 0

#if defined(__GNUC__)
#define LIKELY(x) __builtin_expect(!!(x), 1)
#define UNLIKELY(x) __builtin_expect(!!(x), 0)
#define WASM_RT_NO_RETURN __attribute__((noreturn))
#define wasm_rt_inline inline __attribute__((always_inline))
#define wasm_rt_part __attribute__((noinline))
/* What holds. The compiler leaves out comparisons that it decides. */
#define wasm_rt_assume(condition) \
    do { \
        if (!(condition)) \
            __builtin_unreachable(); \
    } while (0)
#else
#define LIKELY(x) (x)
#define UNLIKELY(x) (x)
#define wasm_rt_inline inline
#define wasm_rt_part
#define wasm_rt_assume(condition) ((void)0)
#if defined(_MSC_VER)
#define WASM_RT_NO_RETURN __declspec(noreturn)
#else
#define WASM_RT_NO_RETURN
#endif
#endif

#if defined(__cplusplus) || defined(_MSC_VER)
#define RESTRICT __restrict
#else
#define RESTRICT restrict
#endif

#ifdef __cplusplus
extern "C" {
#endif

/* The module copies numbers of 1, 2, 4 or 8 bytes between its memory and variables by this, and nothing else. */
#if defined(__BYTE_ORDER__) && __BYTE_ORDER__ == __ORDER_BIG_ENDIAN__
static inline void jbig2_portable_copy_number(void *to, const void *from, size_t size) {
    size_t i;
    for (i = 0; i < size; i++)
        ((uint8_t *)to)[i] = ((const uint8_t *)from)[size - 1 - i];
}
#define wasm_rt_memcpy jbig2_portable_copy_number
#else
#define wasm_rt_memcpy memcpy
#endif

/* What gcc isn't to know: that a condition is used more than once, and a constant that it would make additions of. Else the
 * processor guesses wrongly at jumps where the module chooses without one. */
#if defined(__GNUC__) && !defined(__clang__)
static wasm_rt_inline uint32_t wasm_rt_hidden(uint32_t condition) {
    __asm__("" : "+r"(condition));
    return condition;
}
#else
#define wasm_rt_hidden(condition) (condition)
#endif
#if defined(__GNUC__) && !defined(__clang__) && UINTPTR_MAX > 0xFFFFFFFF
static wasm_rt_inline uint64_t wasm_rt_hidden_factor(uint64_t factor) {
    __asm__("" : "+r"(factor));
    return factor;
}
#else
#define wasm_rt_hidden_factor(factor) (factor)
#endif

/* A sum of 32 bits, of which the second number is often known later than the first, as a number of 64 bits. gcc isn't to add
 * in another order, nor to widen the sum by an instruction of its own. */
static wasm_rt_inline uint64_t wasm_rt_sum(uint32_t early, uint32_t late) {
    uint64_t sum;
#if defined(__GNUC__) && !defined(__clang__) && defined(__x86_64__)
    __asm__("" : "+r"(early));
    sum = (uint32_t)(early + late);
    __asm__("" : "+r"(sum));
#else
    sum = (uint32_t)(early + late);
#endif
    return sum;
}

/* Why the module can't go on. */
typedef enum {
    WASM_RT_TRAP_NONE,
    WASM_RT_TRAP_OOB,
    WASM_RT_TRAP_INT_OVERFLOW,
    WASM_RT_TRAP_DIV_BY_ZERO,
    WASM_RT_TRAP_INVALID_CONVERSION,
    WASM_RT_TRAP_UNREACHABLE,
    WASM_RT_TRAP_CALL_INDIRECT,
    WASM_RT_TRAP_EXHAUSTION
} wasm_rt_trap_t;

#define wasm_rt_trap jbig2_portable_trap
WASM_RT_NO_RETURN void wasm_rt_trap(wasm_rt_trap_t reason);

/* After the `size` bytes there are these more in the same block. So what is less far from a place of the memory lies in
 * the block, and one comparison checks it. */
#define WASM_RT_SPARE_BYTES 16384
typedef struct {
    uint8_t *data;
    size_t size;
} wasm_rt_memory_t;

#define wasm_rt_allocate_memory jbig2_portable_allocate_memory
#define wasm_rt_free_memory jbig2_portable_free_memory
void wasm_rt_allocate_memory(wasm_rt_memory_t *memory, uint32_t pages, uint32_t most);
void wasm_rt_free_memory(wasm_rt_memory_t *memory);

/* What the module's table functions name, which nothing calls. */
typedef void (*wasm_rt_function_ptr_t)(void);
typedef void *wasm_rt_externref_t;
typedef struct {
    uint32_t func_type;
    wasm_rt_function_ptr_t func;
    void *module_instance;
} wasm_rt_funcref_t;
typedef struct {
    wasm_rt_funcref_t *data;
    uint32_t size;
} wasm_rt_funcref_table_t;
typedef struct {
    wasm_rt_externref_t *data;
    uint32_t size;
} wasm_rt_externref_table_t;
#define wasm_rt_externref_null_value NULL
#define wasm_rt_register_func_type(...) 0

/* The module asserts that its types were registered, which only its tables would need. */
#undef assert
#define assert(condition) ((void)0)

#ifdef __cplusplus
}
#endif

#endif
