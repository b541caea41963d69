/* Gives each file named to a target, once: for valgrind, which needs no instrumented code. */
#include "target.h"

int main(int argc, char **argv)
{
    static uint8_t bytes[1 << 18];
    for (int i = 1; i < argc; i++) {
        FILE *in = fopen(argv[i], "rb");
        if (!in) {
            perror(argv[i]);
            return 2;
        }
        size_t size = fread(bytes, 1, sizeof bytes, in);
        fclose(in);
        uint8_t *data = block(bytes, size);
        LLVMFuzzerTestOneInput(data, size);
        free(data);
    }
    printf("%d files replayed\n", argc - 1);
    return 0;
}
