/* What a bare board needs beside its C library: on a Cortex-M0 an unaligned word is a fault, so the board that runs its code, which has a
 * Cortex-M3, is told to fault as well. */
#if defined __ARM_ARCH_6M__
#include <stdlib.h>

__attribute__((constructor)) static void fault_at_unaligned_words(void)
{
    volatile unsigned long *control = (volatile unsigned long *)0xE000ED14; /* CCR, and its bit UNALIGN_TRP */
    *control |= 1ul << 3;
    if (!(*control & 1ul << 3))
        abort();
}
#else
typedef int nothing_to_do;
#endif
