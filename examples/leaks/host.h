/* The machine's host calls, for the examples in this folder: the number of the call in a7, its arguments in a0
 * to a2. */

static unsigned host_call(unsigned number, unsigned file, const void *bytes, unsigned length)
{
    register unsigned a0 __asm__("a0") = file;
    register const void *a1 __asm__("a1") = bytes;
    register unsigned a2 __asm__("a2") = length;
    register unsigned a7 __asm__("a7") = number;
    __asm__ volatile("ecall" : "+r"(a0) : "r"(a1), "r"(a2), "r"(a7) : "memory");
    return a0;
}

/* Reads the next bytes of the input, and answers how many came. */
static inline unsigned read_input(void *into, unsigned length)
{
    return host_call(63, 0, into, length);
}

static inline void write_output(const void *bytes, unsigned length)
{
    host_call(64, 1, bytes, length);
}
