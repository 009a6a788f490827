/* The start of the program in native/. The start files of the kit's C library need glibc 2.34. `native/build` links
 * this file instead of them, so the program also starts with an older glibc. */

typedef void constructor(int count, char **words, char **environment);

/* The list of functions that must run before `main`. The linker defines both ends. */
extern constructor *const __init_array_start[] __attribute__((visibility("hidden")));
extern constructor *const __init_array_end[] __attribute__((visibility("hidden")));

/* The loader jumps to `_start`. The stack then has the number of the arguments, and the arguments above it. The
 * register rdx has a function that the C library must call at the end. `__libc_start_main` calls run_constructors and
 * main, and ends the program. Since glibc 2.34, it could find the constructors itself, but it still calls a function
 * that it gets for them. */
__asm__(".pushsection .text.start, \"ax\", @progbits\n"
        ".globl _start\n"
        ".type _start, @function\n"
        "_start:\n"
        "    xor %ebp, %ebp\n"
        "    mov %rdx, %r9\n"
        "    xor %r8d, %r8d\n"
        "    lea run_constructors(%rip), %rcx\n"
        "    pop %rsi\n"
        "    mov %rsp, %rdx\n"
        "    lea main(%rip), %rdi\n"
        "    and $-16, %rsp\n"
        "    push %rax\n"
        "    push %rsp\n"
        "    call *__libc_start_main@GOTPCREL(%rip)\n"
        "    hlt\n"
        ".popsection\n");

__attribute__((used)) static int run_constructors(int count, char **words, char **environment)
{
    long length = __init_array_end - __init_array_start;
    for (long i = 0; i < length; i++) __init_array_start[i](count, words, environment);
    return 0;
}

/* What the processor can do, in the bits that its instruction `cpuid` stores in eax, ebx, ecx and edx. */
struct features {
    unsigned present[4], usable[4];
};

/* glibc has this function since 2.33. The compiled `main` calls it to find out whether the processor has the
 * instructions of x86-64-v2. If not, `main` prints a message and ends with status 127. It reads only usable[2] of the
 * parts 0 and 2. All other features are reported as not usable. */
const struct features *__x86_get_cpuid_feature_leaf(unsigned part)
{
    static struct features parts[3];
    /* Of part 0: SSE3, SSSE3, CMPXCHG16B, SSE4.1, SSE4.2 and POPCNT. Of part 2: LAHF and SAHF. */
    unsigned wanted = part == 0 ? 0x982201 : part == 2 ? 1 : 0;
    unsigned eax = part == 0 ? 1 : 0x80000001, ebx, ecx = 0, edx;
    if (!wanted) return &parts[1];
    __asm__("cpuid" : "+a"(eax), "=b"(ebx), "+c"(ecx), "=d"(edx));
    parts[part].usable[2] = ecx & wanted;
    return &parts[part];
}
