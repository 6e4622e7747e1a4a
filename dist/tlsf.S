/* All of the library, as assembly for the processor and the system that this is compiled for: the calls, with c/pointers.c and
 * c/memory.c as the toolchain's clang compiles them. Any gcc or clang takes it: `cc program.c -Iinclude dist/tlsf.S`.
 *
 * With TLSF_NO_MALLOC it takes no memory from malloc, so all is opened in memory of the program's. With TLSF_NO_TLS it has no
 * thread-local storage besides, as on bare metal: one thread at a time opens. TLSF_ONLY_CALLS leaves c/memory.c out, and
 * TLSF_ONLY_MEMORY the calls: so an archive has an object file for each.
 *
 * The calls are proved on ELF for x86-64 and aarch64. The others are lowered from the same module, and tested or only assembled:
 * docs/C.md says what was tried. For Cortex-M and riscv32 there is never a system, so TLSF_NO_TLS is as good as defined. With TLSF_LEVEL_4
 * Cortex-M has level 4 alone, in a third less code. Cortex-M that is compiled by -mno-unaligned-access, for no words at odd addresses, gets
 * the code of Cortex-M0; clang tells of this from 17 on. */
#ifdef TLSF_LEVEL_4
#define TLSF_OF_LEVELS(port) port-level4
#else
#define TLSF_OF_LEVELS(port) port
#endif
#if !defined(__SIZEOF_POINTER__) || __BYTE_ORDER__ != __ORDER_LITTLE_ENDIAN__
#error "peachanchor needs a processor with the lowest byte first: see docs/C.md, 'Other processors and systems'"
#elif __SIZEOF_POINTER__ == 4 && defined(__arm__) && defined(__ELF__) && __ARM_ARCH_PROFILE == 'M'
#if __ARM_ARCH_ISA_THUMB >= 2 && (defined(__ARM_FEATURE_UNALIGNED) || (defined(__clang__) && __clang_major__ < 17))
#define TLSF_PORT TLSF_OF_LEVELS(thumbv7m)
#else
#define TLSF_PORT TLSF_OF_LEVELS(thumbv6m)
#endif
#elif defined(TLSF_LEVEL_4)
#error "TLSF_LEVEL_4 is for Cortex-M alone: see docs/C.md, 'On 32 bits'"
#elif __SIZEOF_POINTER__ == 4 && defined(__riscv) && defined(__riscv_muldiv) && !defined(__riscv_32e) && defined(__ELF__) && !defined(__linux__)
#define TLSF_PORT riscv32
#elif __SIZEOF_POINTER__ == 4 && defined(__arm__) && defined(__ELF__) && __ARM_ARCH >= 7 && __ARM_ARCH_PROFILE == 'A'
#define TLSF_PORT armv7
#elif __SIZEOF_POINTER__ != 8
#error "peachanchor has no assembly for this processor of 32 bits and its system: see docs/C.md, 'Other processors and systems'"
#elif defined(__x86_64__) && defined(__ELF__)
#define TLSF_PORT x86_64
#elif defined(__aarch64__) && defined(__ELF__)
#define TLSF_PORT aarch64
#elif defined(__riscv) && defined(__riscv_atomic) && defined(__riscv_muldiv) && defined(__ELF__)
#define TLSF_PORT riscv64
#elif defined(__x86_64__) && defined(_WIN32)
#define TLSF_PORT x86_64-windows
#elif defined(__aarch64__) && defined(__APPLE__)
#define TLSF_PORT arm64-macos
#else
#error "peachanchor has no assembly for this processor and system: see docs/C.md, 'Other processors and systems'"
#endif

/* The name that Microsoft's compilers have for the probe of a large frame. */
#ifdef _MSC_VER
#define ___chkstk_ms __chkstk
#endif

#ifdef TLSF_PORT
#define TLSF_TEXT(name) #name
#define TLSF_FILE(port) TLSF_TEXT(library-port.s)
#include TLSF_FILE(TLSF_PORT)
#endif
