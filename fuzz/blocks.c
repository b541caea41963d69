/* Prints at the end, for each block of the instrumented code, its address and whether it was reached. */
#include <stdint.h>
#include <stdio.h>

static const uint8_t *flags, *flags_end;
static const uintptr_t *table;

void __sanitizer_cov_bool_flag_init(uint8_t *start, uint8_t *end);
void __sanitizer_cov_pcs_init(const uintptr_t *start, const uintptr_t *end);

void __sanitizer_cov_bool_flag_init(uint8_t *start, uint8_t *end)
{
    flags = start;
    flags_end = end;
}

void __sanitizer_cov_pcs_init(const uintptr_t *start, const uintptr_t *end)
{
    (void)end;
    table = start;
}

__attribute__((destructor)) static void print_blocks(void)
{
    for (long i = 0; i < flags_end - flags; i++)
        printf("block %lx %d\n", (unsigned long)table[2 * i], flags[i]);
}
