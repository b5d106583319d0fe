/* The board for a host in C: the functions of target/staticlib/libmmc5.a, which `host/build` makes. docs/HOST.md says what each number means and what
 * the host must keep. The functions allocate nothing, keep nothing and trust nothing beyond each pointer and its length: an array has
 * the length that stands in its brackets, a buffer the length given after it, and a pointer is never null, at length 0 too. No two lent
 * arrays or buffers overlap where one of them is written. */
#ifndef MMC5_H
#define MMC5_H

#include <stddef.h>
#include <stdint.h>

#ifdef __cplusplus
extern "C" {
#endif

/* The state: 144 words, 288 bytes, that the host lends to each call and keeps between calls. All zero is a state that is not loaded. */
typedef struct mmc5_state {
    uint16_t words[144];
} mmc5_state;

/* The five buffers. PRG-ROM is only read. */
typedef struct mmc5_memory {
    const uint8_t *prg;
    size_t prg_len;
    uint8_t *chr;
    size_t chr_len;
    uint8_t *ram;
    size_t ram_len;
    uint8_t *ciram;
    size_t ciram_len;
    uint8_t *exram;
    size_t exram_len;
} mmc5_memory;

/* An answer: its value, its letter ('-' 'R' 'S' 'M' 'B', or '!' for a refusal), whether the interrupt is up after the call. */
#define MMC5_VALUE(answer) ((uint8_t)(answer))
#define MMC5_LETTER(answer) ((char)((answer) >> 8 & 0x7F))
#define MMC5_INTERRUPT(answer) ((answer) >> 15 & 1)
#define MMC5_REFUSED(answer) (MMC5_LETTER(answer) == '!')

/* A replay's number: the refusal, 0 where the trace was played to its end; the place of the refused record's kind byte, or the records played. */
#define MMC5_STOPPED(number) ((uint8_t)((number) >> 16))
#define MMC5_PLACE(number) ((size_t)((number)&0xFFFF))

/* A replay's log has two bytes for each record that was played: record n's answer, as a call would tell it, is this. */
#define MMC5_LOGGED(log, n) ((uint32_t)(log)[2 * (n)] << 8 | (log)[2 * (n) + 1])

uint32_t mmc5_load(
    uint16_t words[144],
    const uint8_t *prg,
    size_t prg_len,
    const uint8_t *chr,
    size_t chr_len,
    const uint8_t *ram,
    size_t ram_len,
    const uint8_t *ciram,
    size_t ciram_len,
    const uint8_t *exram,
    size_t exram_len,
    uint8_t chr_writable,
    uint8_t mirroring);
uint32_t mmc5_cpu_read(
    uint16_t words[144],
    const uint8_t *prg,
    size_t prg_len,
    const uint8_t *chr,
    size_t chr_len,
    const uint8_t *ram,
    size_t ram_len,
    const uint8_t *ciram,
    size_t ciram_len,
    const uint8_t *exram,
    size_t exram_len,
    uint16_t addr);
uint32_t mmc5_cpu_peek(
    const uint16_t words[144],
    const uint8_t *prg,
    size_t prg_len,
    const uint8_t *chr,
    size_t chr_len,
    const uint8_t *ram,
    size_t ram_len,
    const uint8_t *ciram,
    size_t ciram_len,
    const uint8_t *exram,
    size_t exram_len,
    uint16_t addr);
uint32_t mmc5_cpu_write(
    uint16_t words[144],
    const uint8_t *prg,
    size_t prg_len,
    uint8_t *chr,
    size_t chr_len,
    uint8_t *ram,
    size_t ram_len,
    uint8_t *ciram,
    size_t ciram_len,
    uint8_t *exram,
    size_t exram_len,
    uint16_t addr,
    uint8_t val);
uint32_t mmc5_ppu_fetch(
    uint16_t words[144],
    const uint8_t *prg,
    size_t prg_len,
    const uint8_t *chr,
    size_t chr_len,
    const uint8_t *ram,
    size_t ram_len,
    const uint8_t *ciram,
    size_t ciram_len,
    const uint8_t *exram,
    size_t exram_len,
    uint16_t addr);
uint32_t mmc5_ppu_peek(
    const uint16_t words[144],
    const uint8_t *prg,
    size_t prg_len,
    const uint8_t *chr,
    size_t chr_len,
    const uint8_t *ram,
    size_t ram_len,
    const uint8_t *ciram,
    size_t ciram_len,
    const uint8_t *exram,
    size_t exram_len,
    uint16_t addr);
uint32_t mmc5_sprite_peek(
    const uint16_t words[144],
    const uint8_t *prg,
    size_t prg_len,
    const uint8_t *chr,
    size_t chr_len,
    const uint8_t *ram,
    size_t ram_len,
    const uint8_t *ciram,
    size_t ciram_len,
    const uint8_t *exram,
    size_t exram_len,
    uint16_t addr);
uint32_t mmc5_ppu_write(
    uint16_t words[144],
    const uint8_t *prg,
    size_t prg_len,
    uint8_t *chr,
    size_t chr_len,
    uint8_t *ram,
    size_t ram_len,
    uint8_t *ciram,
    size_t ciram_len,
    uint8_t *exram,
    size_t exram_len,
    uint16_t addr,
    uint8_t val);
uint32_t mmc5_ppu_register(uint16_t words[144], uint16_t addr, uint8_t val);
uint32_t mmc5_clock(uint16_t words[144]);
uint32_t mmc5_reset(uint16_t words[144]);
uint32_t mmc5_mirroring(const uint16_t words[144]);
uint32_t mmc5_interrupt(const uint16_t words[144]);
uint32_t mmc5_cpu_entry(const uint16_t words[144], uint16_t addr);
uint32_t mmc5_ppu_entry(const uint16_t words[144], uint16_t addr);
uint32_t mmc5_cpu_page(
    const uint16_t words[144],
    const uint8_t *prg,
    size_t prg_len,
    const uint8_t *chr,
    size_t chr_len,
    const uint8_t *ram,
    size_t ram_len,
    const uint8_t *ciram,
    size_t ciram_len,
    const uint8_t *exram,
    size_t exram_len,
    uint16_t addr,
    uint8_t *out,
    size_t out_len);
uint32_t mmc5_ppu_page(
    const uint16_t words[144],
    const uint8_t *prg,
    size_t prg_len,
    const uint8_t *chr,
    size_t chr_len,
    const uint8_t *ram,
    size_t ram_len,
    const uint8_t *ciram,
    size_t ciram_len,
    const uint8_t *exram,
    size_t exram_len,
    uint16_t addr,
    uint8_t *out,
    size_t out_len);
uint32_t mmc5_replay(
    uint16_t words[144],
    const uint8_t *prg,
    size_t prg_len,
    uint8_t *chr,
    size_t chr_len,
    uint8_t *ram,
    size_t ram_len,
    uint8_t *ciram,
    size_t ciram_len,
    uint8_t *exram,
    size_t exram_len,
    const uint8_t *trace,
    size_t trace_len,
    uint8_t *log,
    size_t log_len);

/* The same over the two structs. */
static inline uint32_t mmc5_on_load(mmc5_state *s, const mmc5_memory *m, uint8_t chr_writable, uint8_t mirroring) {
    return mmc5_load(s->words, m->prg, m->prg_len, m->chr, m->chr_len, m->ram, m->ram_len, m->ciram, m->ciram_len, m->exram, m->exram_len, chr_writable, mirroring);
}
static inline uint32_t mmc5_on_cpu_read(mmc5_state *s, const mmc5_memory *m, uint16_t addr) {
    return mmc5_cpu_read(s->words, m->prg, m->prg_len, m->chr, m->chr_len, m->ram, m->ram_len, m->ciram, m->ciram_len, m->exram, m->exram_len, addr);
}
static inline uint32_t mmc5_on_cpu_peek(const mmc5_state *s, const mmc5_memory *m, uint16_t addr) {
    return mmc5_cpu_peek(s->words, m->prg, m->prg_len, m->chr, m->chr_len, m->ram, m->ram_len, m->ciram, m->ciram_len, m->exram, m->exram_len, addr);
}
static inline uint32_t mmc5_on_cpu_write(mmc5_state *s, const mmc5_memory *m, uint16_t addr, uint8_t val) {
    return mmc5_cpu_write(s->words, m->prg, m->prg_len, m->chr, m->chr_len, m->ram, m->ram_len, m->ciram, m->ciram_len, m->exram, m->exram_len, addr, val);
}
static inline uint32_t mmc5_on_ppu_fetch(mmc5_state *s, const mmc5_memory *m, uint16_t addr) {
    return mmc5_ppu_fetch(s->words, m->prg, m->prg_len, m->chr, m->chr_len, m->ram, m->ram_len, m->ciram, m->ciram_len, m->exram, m->exram_len, addr);
}
static inline uint32_t mmc5_on_ppu_peek(const mmc5_state *s, const mmc5_memory *m, uint16_t addr) {
    return mmc5_ppu_peek(s->words, m->prg, m->prg_len, m->chr, m->chr_len, m->ram, m->ram_len, m->ciram, m->ciram_len, m->exram, m->exram_len, addr);
}
static inline uint32_t mmc5_on_sprite_peek(const mmc5_state *s, const mmc5_memory *m, uint16_t addr) {
    return mmc5_sprite_peek(s->words, m->prg, m->prg_len, m->chr, m->chr_len, m->ram, m->ram_len, m->ciram, m->ciram_len, m->exram, m->exram_len, addr);
}
static inline uint32_t mmc5_on_ppu_write(mmc5_state *s, const mmc5_memory *m, uint16_t addr, uint8_t val) {
    return mmc5_ppu_write(s->words, m->prg, m->prg_len, m->chr, m->chr_len, m->ram, m->ram_len, m->ciram, m->ciram_len, m->exram, m->exram_len, addr, val);
}
static inline uint32_t mmc5_on_ppu_register(mmc5_state *s, uint16_t addr, uint8_t val) {
    return mmc5_ppu_register(s->words, addr, val);
}
static inline uint32_t mmc5_on_clock(mmc5_state *s) {
    return mmc5_clock(s->words);
}
static inline uint32_t mmc5_on_reset(mmc5_state *s) {
    return mmc5_reset(s->words);
}
static inline uint32_t mmc5_on_mirroring(const mmc5_state *s) {
    return mmc5_mirroring(s->words);
}
static inline uint32_t mmc5_on_interrupt(const mmc5_state *s) {
    return mmc5_interrupt(s->words);
}
static inline uint32_t mmc5_on_cpu_entry(const mmc5_state *s, uint16_t addr) {
    return mmc5_cpu_entry(s->words, addr);
}
static inline uint32_t mmc5_on_ppu_entry(const mmc5_state *s, uint16_t addr) {
    return mmc5_ppu_entry(s->words, addr);
}
static inline uint32_t mmc5_on_cpu_page(const mmc5_state *s, const mmc5_memory *m, uint16_t addr, uint8_t out[1024]) {
    return mmc5_cpu_page(s->words, m->prg, m->prg_len, m->chr, m->chr_len, m->ram, m->ram_len, m->ciram, m->ciram_len, m->exram, m->exram_len, addr, out, 1024);
}
static inline uint32_t mmc5_on_ppu_page(const mmc5_state *s, const mmc5_memory *m, uint16_t addr, uint8_t out[1024]) {
    return mmc5_ppu_page(s->words, m->prg, m->prg_len, m->chr, m->chr_len, m->ram, m->ram_len, m->ciram, m->ciram_len, m->exram, m->exram_len, addr, out, 1024);
}
static inline uint32_t mmc5_on_replay(mmc5_state *s, const mmc5_memory *m, const uint8_t *trace, size_t trace_len, uint8_t *log, size_t log_len) {
    return mmc5_replay(s->words, m->prg, m->prg_len, m->chr, m->chr_len, m->ram, m->ram_len, m->ciram, m->ciram_len, m->exram, m->exram_len, trace, trace_len, log, log_len);
}

#ifdef __cplusplus
}
#endif

#endif
