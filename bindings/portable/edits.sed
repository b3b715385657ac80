# What renew changes in what wasm2c writes. It changes no computation.
#
# Nothing uses alloca, and Windows and BSD have no such header.
/^#include <alloca\.h>$/d
# The module has no floating point: with these functions an unoptimized program would need the library of mathematics.
/^#include <math\.h>$/d
/^static float quiet_nanf/,/^static inline void memory_fill/{
/^static inline void memory_fill/!d
}
# A value that is loaded and not used need not be loaded: bounds are checked before.
s/^#define wasm_asm __asm__$/#define wasm_asm(...)/
# One comparison of the place is enough, since the memory has spare bytes after its end (wasm-rt.h). accesses.py writes the distance
# from that place. The memory is never smaller than at first, so places of constants need no comparison.
s/^#define MEMCHECK\(mem, a, t\) RANGE_CHECK\(mem, a, sizeof\(t\)\)$/#define MEMCHECK(mem, a, t) wasm_rt_assume(mem->size >= LEAST_SIZE); if (UNLIKELY((a) >= mem->size)) TRAP(OOB)/
s/^  static inline (t3|void) name\(wasm_rt_memory_t\* mem, u64 addr/  static wasm_rt_inline \1 name(const wasm_rt_memory_t* mem, size_t place, size_t distance/
s/^    MEMCHECK\(mem, addr, t1\);/    MEMCHECK(mem, place, t1);/
s/mem->data\[addr\]/mem->data[place + distance]/
s/mem->size - addr - /mem->size - place - distance - /
# The toolchain has chosen what to inline.
s/^static (u32|u64|void) (w2c_\w+\(Z_hayro_jbig2_instance_t\*)/static wasm_rt_part \1 \2/
# What is stored in the memory doesn't change the instance. So its address and size may stay in registers.
s/\(Z_hayro_jbig2_instance_t\* ?instance/(Z_hayro_jbig2_instance_t* RESTRICT instance/
# The imports change the instance, so they get it by the pointer that the caller has.
s/\(instance->Z_heap_instance, /((struct Z_heap_instance_t*)instance, /
