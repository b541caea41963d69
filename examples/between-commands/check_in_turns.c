/* A station's computer steers the dish along a pass, and between two commands it gives the checker ten lines of a certificate. Arguments: a
 * node file and a certificate. A line is printed for each command and for each turn. Exit status: 0 where the certificate is accepted, 1
 * where it is refused, 2 where the files cannot be read. */
#include "conuhawe.h"

#include <stdio.h>
#include <stdlib.h>

enum {
    QUOTA = 10,   /* lines between two commands */
    ROOM = 65536, /* one byte more than a file may have, so that a longer one is refused by its length */
    PASS = 120,   /* commands of a pass */
    RISES = 1200, /* azimuth where the satellite rises, in tenths of a degree */
    SETS = 2400,  /* azimuth where it sets */
    HIGHEST = 720 /* elevation halfway */
};

/* Points the dish by command t of the pass: azimuth along a straight line, elevation along a parabola. After the pass it stays. */
static void steer(int t)
{
    int at = t < PASS ? t : PASS;
    int azimuth = RISES + (SETS - RISES) * at / PASS;
    int elevation = 4 * HIGHEST * at * (PASS - at) / (PASS * PASS);
    printf("command %d: azimuth %d.%d elevation %d.%d\n", t, azimuth / 10, azimuth % 10, elevation / 10, elevation % 10);
}

static void print_refusal(conuhawe_answer answer)
{
    static const char *const places[] = {"", "file", "record", "constraint", "line", "base", "step"};
    printf("refused %zu %s", answer.number, places[answer.place]);
    if (answer.place == CONUHAWE_RECORD || answer.place == CONUHAWE_CONSTRAINT || answer.place == CONUHAWE_LINE)
        printf(" %zu", answer.index);
}

static void print_turn(conuhawe_turned turned)
{
    conuhawe_answer answer = turned.answer;
    printf("quota %d: checked %zu to line %zu: ", QUOTA, turned.checked, turned.progress.line);
    if (answer.number == CONUHAWE_UNFINISHED)
        printf("unfinished");
    else if (answer.number == CONUHAWE_ACCEPTED)
        printf("accepted depth %zu base %zu step %zu", answer.value[0], answer.value[1], answer.value[2]);
    else
        print_refusal(answer);
    printf("\n");
}

static size_t read_file(const char *path, uint8_t *bytes)
{
    FILE *in = fopen(path, "rb");
    if (!in) {
        perror(path);
        exit(2);
    }
    size_t length = fread(bytes, 1, ROOM, in);
    fclose(in);
    return length;
}

int main(int argc, char **argv)
{
    static uint8_t node[ROOM], certificate[ROOM];
    if (argc != 3) {
        fprintf(stderr, "usage: check_in_turns NODE CERTIFICATE\n");
        return 2;
    }
    /* Both files are read once, so that each turn has the same ones. */
    size_t node_length = read_file(argv[1], node), certificate_length = read_file(argv[2], certificate);

    conuhawe_progress progress = conuhawe_turns_begin();
    for (int t = 0;; t++) {
        steer(t);
        conuhawe_turned turned = conuhawe_turn(node, node_length, certificate, certificate_length, progress, QUOTA);
        print_turn(turned);
        if (turned.answer.number != CONUHAWE_UNFINISHED)
            return turned.answer.number != CONUHAWE_ACCEPTED;
        progress = turned.progress;
    }
}
