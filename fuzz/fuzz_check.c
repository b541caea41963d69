/* Fuzz target of the calls on files. Input: u16 split point, then that many bytes of node file, then the certificate. */
#include "target.h"

int LLVMFuzzerTestOneInput(const uint8_t *data, size_t size)
{
    if (size < 2)
        return 0;
    size_t split = u16_at(data), rest = size - 2;
    size_t n = split < rest ? split : rest, c = rest - n;
    uint8_t *node = block(data + 2, n), *cert = block(data + 2 + n, c);

    conuhawe_answer read = conuhawe_read(node, n);
    check_node_answer(read, node, n);
    size_t node_note = conuhawe_node_note(node, n);
    CHECK(node_note == (read.number == 0 ? n - 16 - 16 * read.value[0] : 0));

    conuhawe_answer check = conuhawe_check(node, n, cert, c);
    size_t cert_note = conuhawe_certificate_note(cert, c);
    CHECK(cert_note <= c);
    if (read.number != 0) {
        CHECK(same_answer(check, read));
    } else {
        CHECK(check.number == 0 || (check.number >= 11 && check.number <= 22));
        check_certificate_answer(check, cert, c);
        if (check.number >= 11 && check.number <= 14)
            CHECK(cert_note == 0);
        else
            CHECK(cert_note + 16 <= c && (c - cert_note - 16) % 80 == 0);
    }

    CHECK(memcmp(node, data + 2, n) == 0 && memcmp(cert, data + 2 + n, c) == 0);
    free(node);
    free(cert);
    return 0;
}
