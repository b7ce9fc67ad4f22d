/* Lists the SILK frame at the start of a packet as document 01's frame lister does.
 *
 *     cc examples/list_frame.c $(pkg-config --cflags --libs tignarops) -o list_frame
 *     ./list_frame KHZ SUBFRAMES ACTIVE MODE PREVIOUS_TYPE PREVIOUS_LAG < packet
 */
#include <stdio.h>
#include <stdlib.h>
#include <tignarops.h>

enum { MOST_BYTES = 1275, MOST_PULSES = 320, BLOCK = 16 };

static void numbers(const char *word, const int8_t *values, uint32_t n) {
    printf("%s %u", word, n);
    for (uint32_t i = 0; i < n; i++) printf(" %d", values[i]);
    putchar('\n');
}

static void pitch(const tg_indices *x, uint32_t subframes) {
    if (x->signal_type != 2) {
        puts("pitch 0");
        return;
    }
    printf("pitch %u %d %d %d", 4 + subframes, x->lag, x->contour, x->period);
    for (uint32_t i = 0; i < subframes; i++) printf(" %d", x->ltp[i]);
    printf(" %d\n", x->ltp_scale);
}

static void listing(const tg_indices *x, uint32_t khz, uint32_t subframes, const int16_t *pulses, size_t n) {
    printf("frame %u %u\ntype %d %d\n", khz, subframes, x->signal_type, x->offset_type);
    numbers("gains", x->gains, subframes);
    numbers("nlsf", x->nlsf, khz == 16 ? 17 : 11);
    printf("interp %d\n", x->interp);
    pitch(x, subframes);
    printf("seed %d\npulses %zu\n", x->seed, n / BLOCK);
    for (size_t i = 0; i < n; i++) printf("%d%c", pulses[i], i % BLOCK == BLOCK - 1 ? '\n' : ' ');
    puts("end");
}

static int refused(uint32_t number) {
    printf("refused %u\n", number);
    return 1;
}

int main(int argc, char **argv) {
    if (argc != 7) {
        fprintf(stderr, "usage: list_frame KHZ SUBFRAMES ACTIVE MODE PREVIOUS_TYPE PREVIOUS_LAG < packet\n");
        return 2;
    }
    uint32_t setting[5];
    for (int i = 0; i < 5; i++) setting[i] = (uint32_t)strtoul(argv[1 + i], NULL, 10);
    uint8_t packet[MOST_BYTES + 1];
    size_t len = fread(packet, 1, sizeof packet, stdin);

    tg_read opened = tg_dec_open(packet, len);
    if (opened.refusal) return refused(opened.refusal);
    tg_indices empty = {{0}, {0}, {0}, 0, 0, 0, 0, 0, 0, 0, 0};
    tg_indices_read side = tg_decode_indices(packet, len, opened.state, empty, setting[0], setting[1], setting[2],
                                             setting[3], setting[4], (int16_t)atoi(argv[6]));
    if (side.refusal) return refused(side.refusal);
    int16_t pulses[MOST_PULSES];
    size_t n = (5 * setting[0] * setting[1] + BLOCK - 1) / BLOCK * BLOCK;
    tg_read read = tg_decode_pulses(packet, len, side.state, pulses, n, setting[0], setting[1],
                                    (uint32_t)side.record.signal_type, (uint32_t)side.record.offset_type);
    if (read.refusal) return refused(read.refusal);
    listing(&side.record, setting[0], setting[1], pulses, n);
    return 0;
}
