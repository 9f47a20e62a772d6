/* Disks that hold files, every ninth slot one, on S3000 disks every 85th, two of them of one name in two types; and damage to them. */
#ifndef VOLUMES_H
#define VOLUMES_H

#include "disks.h"

enum { FILES = 7, LONGEST = 98 };

static const size_t FILE_LENGTHS[FILES] = {1, 1023, 1024, 1025, 2048, 5000, 100000};
static const char *const FILE_NAMES[FILES] = {"A", "BASS", "CELLO", "DRUM", "BASS", "FLUTE", "GONG"};
static const char FILE_TYPES[] = "SSPSPSD"; /* as an S900 has them */

typedef struct {
    const shape *s;
    size_t n;                 /* the image's length */
    uint8_t *image, *made;    /* at a page that can't be touched, and a copy of it as it was made */
    uint8_t *contents[FILES]; /* in one piece */
    unsigned chains[FILES][LONGEST];
    size_t used; /* blocks on chains */
} volume;

static inline size_t blocks_for(size_t length) { return (length + 1023) / 1024; }

/* The slot of file f. */
static inline int slot_of_file(const volume *v, int f) { return v->s->apart * f; }

static inline uint8_t type_of_file(const shape *s, int f) { return (uint8_t)(first_type(s) + (FILE_TYPES[f] - 'A')); }

/* The data blocks in an order that rises and falls; 343 has no factor in common with any number of them, so none comes twice. */
static inline unsigned scattered(const shape *s, size_t k) { return (unsigned)s->first + (unsigned)(343 * k % (size_t)(s->blocks - s->first)); }

static inline void make_file(volume *v, int f) {
    for (size_t i = 0; i < FILE_LENGTHS[f]; i++)
        v->contents[f][i] = (uint8_t)next_random();
    for (size_t k = 0; k < blocks_for(FILE_LENGTHS[f]); k++)
        v->chains[f][k] = scattered(v->s, v->used++);
    add_file(v->image, v->s, slot_of_file(v, f), FILE_NAMES[f], v->chains[f], v->contents[f], FILE_LENGTHS[f]);
    v->image[slot_at(v->s, slot_of_file(v, f)) + 16] = type_of_file(v->s, f);
}

static inline void make_volume(volume *v, const shape *s, bool noise) {
    size_t all = 0;
    for (int f = 0; f < FILES; f++)
        all += FILE_LENGTHS[f];
    *v = (volume){.s = s, .n = 1024 * (size_t)s->blocks};
    v->image = guarded(v->n);
    v->made = malloc(v->n);
    v->contents[0] = malloc(all);
    CHECK(v->made && v->contents[0]);
    for (int f = 1; f < FILES; f++)
        v->contents[f] = v->contents[f - 1] + FILE_LENGTHS[f - 1];
    make_blank(v->image, s);
    if (noise)
        make_noise(v->image, s);
    for (int f = 0; f < FILES; f++)
        make_file(v, f);
    memcpy(v->made, v->image, v->n);
}

static inline void drop_volume(volume *v) {
    free(v->contents[0]);
    free(v->made);
    release(v->image, v->n);
}

static inline uint8_t *entry(volume *v, int f) { return v->image + slot_at(v->s, slot_of_file(v, f)); }

/* One change at random, but for what says that the first directory is ignored: that would be another kind. Names, types, lengths and starts
 * are taken from files too, since noise hardly ever meets those. */
static inline void damage(volume *v) {
    bool ignored = v->image[16] == 255;
    uint8_t *to = entry(v, (int)(next_random() % FILES)), *from = entry(v, (int)(next_random() % FILES));
    unsigned blocks = (unsigned)v->s->blocks, block = next_random() % (next_random() % 8 ? blocks : 8), other = next_random() % blocks;
    unsigned value = get_value(v->image, block);
    switch (next_random() % 10) {
    case 0:
        v->image[slot_at(v->s, 0) + next_random() % (24 * (unsigned)v->s->slots)] = (uint8_t)next_random();
        break;
    case 1:
        v->image[1536 + next_random() % (2 * blocks)] = (uint8_t)next_random();
        break;
    case 2:
        memmove(to, from, next_random() % 3 ? 17 : 16);
        break;
    case 3:
    case 4:
        memmove(to + 17, from + 17, next_random() % 2 ? 5 : 3);
        break;
    case 5:
        memmove(v->image + slot_at(v->s, (int)(next_random() % (unsigned)v->s->slots)), from, next_random() % 2 ? 22 : 24);
        break;
    case 6:
        v->image[next_random() % 1536] = (uint8_t)next_random(); /* of no account on an S3000 disk */
        break;
    case 7:
        set_value(v->image, block, next_random() % 4 ? other : v->s->end);
        break;
    case 8:
        to[16] = next_random() % 2 ? from[16] : random_type(v->s);
        break;
    default:
        set_value(v->image, block, get_value(v->image, other));
        set_value(v->image, other, value);
    }
    if ((v->image[16] == 255) != ignored)
        v->image[16] = ignored ? 255 : 0;
}

/* Every refusal that a disk of a legal length can get was met, and none at times: no 3 on S900 disks, and no 2 on S3000 disks, which their
 * identities don't tell. */
static inline void all_met(const shape *s, const size_t *met) {
    for (int number = 0; number <= 9; number++)
        CHECK((met[number] > 0) == (number != 1 && (number != 2 || s->kind != 3000) && (number != 3 || s->kind != 900)));
}

#endif
