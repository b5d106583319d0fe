/* play: loads document 01's cartridge, plays the trace on standard input in one call and prints by the log what the program `replay` prints. An
 * example of a host in C: all memory is the host's. */
#include "../mmc5.h"
#include <stdio.h>

static uint8_t prg[32768], chr[8192], ram[8192], ciram[2048], exram[1024];
static uint8_t trace[8193], log_bytes[2 * 8192];
static mmc5_state state;

/* The numbers that follow a record's kind byte. */
static const int numbers[] = {0, 1, 2, 2, 1, 0, 2};

int main(void) {
    for (size_t i = 0; i < sizeof prg; i++) prg[i] = (uint8_t)(i / 1024);
    for (size_t i = 0; i < sizeof chr; i++) chr[i] = (uint8_t)(128 + i / 1024);
    mmc5_memory m = {prg, sizeof prg, chr, sizeof chr, ram, sizeof ram, ciram, sizeof ciram, exram, sizeof exram};
    uint32_t answer = mmc5_on_load(&state, &m, 0, 0);
    if (MMC5_REFUSED(answer)) {
        printf("load ! %d\n", MMC5_VALUE(answer));
        return 1;
    }
    size_t length = fread(trace, 1, sizeof trace, stdin);
    uint32_t number = mmc5_on_replay(&state, &m, trace, length, log_bytes, sizeof log_bytes);
    int refusal = MMC5_STOPPED(number);
    if (refusal == 11) {
        printf("? 11\n");
        return 0;
    }
    size_t end = refusal ? MMC5_PLACE(number) : length;
    size_t at = 0;
    unsigned count = 0;
    for (; at < end; count++) {
        int kind = trace[at++];
        /* The last byte of a number is below 128. */
        for (int left = numbers[kind]; left > 0;) left -= trace[at++] < 128;
        answer = MMC5_LOGGED(log_bytes, count);
        char letter = MMC5_LETTER(answer);
        if (letter == '-' || letter == 'B')
            printf("%u %d %c %d\n", count, kind, letter, (int)MMC5_INTERRUPT(answer));
        else
            printf("%u %d %c %d %d\n", count, kind, letter, MMC5_VALUE(answer), (int)MMC5_INTERRUPT(answer));
    }
    if (refusal == 0)
        printf("end %u\n", (unsigned)MMC5_PLACE(number));
    else if (refusal >= 9)
        printf("%u ? %d\n", count, refusal);
    else
        printf("%u %d ! %d\n", count, trace[end], refusal);
    return 0;
}
