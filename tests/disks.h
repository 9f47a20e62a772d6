/* Images made by hand for the tests, and memory that ends at a page that traps. Shares nothing with the library. */
#ifndef DISKS_H
#define DISKS_H

#include <stdbool.h>
#include <stdint.h>
#include <stdio.h>
#include <stdlib.h>
#include <string.h>
#include <sys/mman.h>

#define CHECK(test)                                                                                                                 \
    do {                                                                                                                            \
        if (!(test)) {                                                                                                              \
            fprintf(stderr, "%s:%d: not so: %s\n", __FILE__, __LINE__, #test);                                                      \
            exit(1);                                                                                                                \
        }                                                                                                                           \
    } while (0)

typedef struct {
    int kind;   /* 900, 1000 or 3000 */
    int blocks; /* 800 or 1,600 */
    int first;  /* first data block */
    int letters;
    unsigned end;  /* end mark */
    int slots;     /* of the directory in use */
    int directory; /* where that begins */
    int apart;     /* slots from one file of a volume to the next */
    uint8_t type;  /* of a sample */
} shape;

enum { KINDS = 5 };

static const shape SHAPES[KINDS] = {
    {900, 800, 4, 10, 32768, 64, 0, 9, 'S'},
    {900, 1600, 5, 10, 32768, 64, 0, 9, 'S'},
    {1000, 800, 4, 12, 49152, 64, 0, 9, 's'},
    {1000, 1600, 5, 12, 49152, 64, 0, 9, 's'},
    {3000, 1600, 17, 12, 49152, 512, 5120, 85, 211},
};

enum { HEAD = 17408, SLOTS = 512 }; /* directories and map lie in these bytes, whatever the kind; no kind has more slots */

/* Where a slot begins. */
static inline size_t slot_at(const shape *s, int slot) { return (size_t)s->directory + 24 * (size_t)slot; }

/* The byte of a slot's name area after the name's letters. */
static inline uint8_t padding(const shape *s, int at) { return s->kind == 900 ? 0 : s->kind == 1000 ? 32 : at == 15 ? 2 : 0; }

/* The lowest type, and that of a program. */
static inline uint8_t first_type(const shape *s) { return (uint8_t)(s->type - ('S' - 'A')); }

static inline uint8_t program_type(const shape *s) { return (uint8_t)(s->type - ('S' - 'P')); }

static inline bool legal_type(const shape *s, uint8_t type) { return type >= first_type(s) && type < first_type(s) + 26; }

/* n bytes that end at a page which can't be touched. */
static inline uint8_t *guarded(size_t n) {
    size_t page = 4096, whole = (n + page - 1) / page * page;
    uint8_t *at = mmap(NULL, whole + page, PROT_READ | PROT_WRITE, MAP_PRIVATE | MAP_ANONYMOUS, -1, 0);
    CHECK(at != MAP_FAILED);
    CHECK(mprotect(at + whole, page, PROT_NONE) == 0);
    return at + (whole - n);
}

static inline void release(uint8_t *p, size_t n) {
    size_t page = 4096, whole = (n + page - 1) / page * page;
    CHECK(munmap(p + n - whole, whole + page) == 0);
}

/* Room for n bytes that end at a page which can't be touched, so that one byte read or written past them traps. There are four such
 * places; the room of one is taken again by the next call for it. */
enum { EDGE = 2097152 };

static inline uint8_t *edge(int place, size_t n) {
    static uint8_t *ends[4];
    CHECK(n <= EDGE);
    if (!ends[place])
        ends[place] = guarded(EDGE) + EDGE;
    return ends[place] - n;
}

/* A copy there. */
static inline uint8_t *at_edge(int place, const void *from, size_t n) { return memcpy(edge(place, n), from, n); }

/* A name there, cut or padded with spaces to a length of at most 13. */
static inline uint8_t *spelled(const char *name, size_t length) {
    char whole[14];
    snprintf(whole, sizeof whole, "%-13s", name);
    return at_edge(1, whole, length);
}

/* A name of the kind's length there. */
static inline uint8_t *padded(const shape *s, const char *name) { return spelled(name, (size_t)s->letters); }

/* A stream of numbers that is the same at every run. */
static uint64_t seed = 20260701;

static inline uint32_t next_random(void) {
    seed ^= seed << 13;
    seed ^= seed >> 7;
    seed ^= seed << 17;
    return (uint32_t)(seed >> 16);
}

/* A type: mostly a sample's or a program's, so that a name is met in both and twice in one; at times any legal one, seldom any byte. */
static inline uint8_t random_type(const shape *s) {
    uint32_t r = next_random();
    if (r % 16 == 0)
        return (uint8_t)next_random();
    return r % 16 < 4 ? (uint8_t)(first_type(s) + next_random() % 26) : r % 16 < 10 ? s->type : program_type(s);
}

static inline void set_value(uint8_t *image, unsigned block, unsigned value) {
    image[1536 + 2 * block] = (uint8_t)(value & 255);
    image[1537 + 2 * block] = (uint8_t)(value >> 8);
}

static inline unsigned get_value(const uint8_t *image, unsigned block) {
    return image[1536 + 2 * block] + 256u * image[1537 + 2 * block];
}

/* A disk without files; the data area is noise. Byte 16 of an S3000 disk says that its first directory is ignored. */
static inline void make_blank(uint8_t *image, const shape *s) {
    size_t n = 1024 * (size_t)s->blocks;
    memset(image, 0, n);
    for (size_t i = 1024 * (size_t)s->first; i < n; i++)
        image[i] = (uint8_t)next_random();
    for (int slot = 0; s->kind == 1000 && slot < 64; slot++)
        image[24 * slot + 23] = 3;
    for (int block = 0; s->kind != 900 && block < s->first; block++)
        set_value(image, (unsigned)block, 16384);
    image[16] = s->kind == 3000 ? 255 : 0;
}

/* The stored byte of a capital letter or a space. */
static inline uint8_t stored(const shape *s, char c) {
    return s->kind == 900 ? (uint8_t)c : c == ' ' ? 10 : (uint8_t)(c - 'A' + 11);
}

/* Writes a sample's entry and chains the blocks, which hold content and noise after it. */
static inline void add_file(uint8_t *image, const shape *s, int slot, const char *name, const unsigned *blocks, const uint8_t *content, size_t n) {
    uint8_t *entry = image + slot_at(s, slot);
    size_t count = (n + 1023) / 1024, named = strlen(name);
    for (int i = 0; i < 16; i++)
        entry[i] = i < s->letters ? stored(s, (size_t)i < named ? name[i] : ' ') : padding(s, i);
    entry[16] = s->type;
    entry[17] = (uint8_t)(n & 255);
    entry[18] = (uint8_t)(n >> 8 & 255);
    entry[19] = (uint8_t)(n >> 16);
    entry[20] = (uint8_t)(blocks[0] & 255);
    entry[21] = (uint8_t)(blocks[0] >> 8);
    if (s->kind == 3000) {
        entry[22] = 0;
        entry[23] = 12;
    }
    for (size_t k = 0; k < count; k++) {
        size_t part = n - 1024 * k < 1024 ? n - 1024 * k : 1024;
        memcpy(image + 1024 * (size_t)blocks[k], content + 1024 * k, part);
        set_value(image, blocks[k], k + 1 < count ? blocks[k + 1] : s->end);
    }
}

/* Noise in every byte that no rule reads: the rest of empty slots, what lies between the map and the block after it, on S900 disks the map
 * values of system blocks, on S3000 disks the first directory but for its one byte, and the identities of empty slots. */
static inline void make_noise(uint8_t *image, const shape *s) {
    int read = s->kind == 3000 ? 24 : 22;
    for (int slot = 0; slot < s->slots; slot++)
        for (int i = 0; i < read; i++)
            if (i != 16 && image[slot_at(s, slot) + 16] == 0)
                image[slot_at(s, slot) + (size_t)i] = (uint8_t)next_random();
    for (int i = 1536 + 2 * s->blocks; i < 1024 * (s->blocks == 800 ? 4 : 5); i++)
        image[i] = (uint8_t)next_random();
    for (int block = 0; s->kind == 900 && block < s->first; block++)
        set_value(image, (unsigned)block, next_random() % 65536);
    for (int i = 0; s->kind == 3000 && i < 1536; i++)
        image[i] = i == 16 ? 255 : (uint8_t)next_random();
}

#endif
