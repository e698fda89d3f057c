/* The zkw machine as a C program sees it: the input window, the output window, and the halt. */
#ifndef ZKW_H
#define ZKW_H

typedef unsigned char u8;
typedef unsigned int u32;
typedef unsigned long u64;

/* The number of input bytes. */
static inline u64 zkw_input_length(void) { return *(const volatile u64 *)0x40000000UL; }

/* The input bytes. They are read-only in spirit: what is stored there is memory like any other. */
static inline const u8 *zkw_input(void) { return (const u8 *)0x40000008UL; }

/* The 256 bytes of public output, 0 at the start. */
static inline u8 *zkw_output(void) { return (u8 *)0x50000000UL; }

/* Doubleword `index` of the public output, 0 to 31. */
static inline void zkw_output_word(u64 index, u64 value) { ((volatile u64 *)0x50000000UL)[index] = value; }

/* Ends the run with this exit code. */
static inline _Noreturn void zkw_exit(u64 code)
{
    register u64 a0 __asm__("a0") = code;
    register u64 a7 __asm__("a7") = 93;
    __asm__ volatile("ecall" : : "r"(a0), "r"(a7) : "memory");
    __builtin_unreachable();
}

/* What main returns is the exit code. */
u64 main(void);

#endif
