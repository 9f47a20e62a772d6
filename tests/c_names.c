/* Names typed in small letters, from C: on S1000 and S3000 disks they are capitals, and all spellings of a name are one; S900 names keep their
 * case. */
#include "disks.h"
#include "skilletjay.h"

typedef struct {
    const shape *s;
    size_t n;
    uint8_t *image, *before;
} disk;

/* ---- calls by a name that is padded to the kind's length */

static bool gives(sj_found f, uint32_t refusal, size_t place, size_t slot) { return f.refusal == refusal && f.place == place && f.slot == slot; }

static sj_found find(const disk *d, const char *name) { return sj_find(d->image, d->n, padded(d->s, name), (size_t)d->s->letters, d->s->type); }

/* Puts a content of one byte. */
static sj_found put(disk *d, const char *name, uint8_t content) {
    return sj_put(d->image, d->n, padded(d->s, name), (size_t)d->s->letters, d->s->type, &content, 1);
}

static uint32_t take_away(disk *d, const char *name) {
    sj_done r = sj_remove(d->image, d->n, padded(d->s, name), (size_t)d->s->letters, d->s->type);
    CHECK(r.place == 0);
    return r.refusal;
}

/* The byte that a file of a slot holds. */
static uint8_t content(const disk *d, size_t slot) {
    uint8_t byte = 0;
    sj_paged p = sj_page(d->image, d->n, slot, 0, &byte, 1);
    CHECK(p.refusal == 0 && p.count == 1 && p.end);
    return byte;
}

/* A slot lists this name, and has these letters on the disk and the kind's bytes after them. */
static void holds(const disk *d, int slot, const char *name, const char *letters) {
    char due[13] = {0};
    const uint8_t *e = d->image + slot_at(d->s, slot);
    sj_listed l = sj_list(d->image, d->n, (size_t)slot);
    snprintf(due, sizeof due, "%-*s", d->s->letters, name);
    CHECK(l.refusal == 0 && memcmp(l.name, due, 12) == 0);
    CHECK(memcmp(e, letters, (size_t)d->s->letters) == 0);
    for (int i = d->s->letters; i < 16; i++)
        CHECK(e[i] == padding(d->s, i));
}

/* ---- what the client asked for */

/* "Bass c2" on an S1000 or S3000 disk, beside another file: kept in capitals, found and removed by any spelling, and put once. */
static void one_name(disk *d) {
    static const char *const spellings[] = {"BASS C2", "bass c2", "bAsS C2", "Bass c2"};
    CHECK(gives(put(d, "other", 1), 0, 0, 0) && gives(put(d, "Bass c2", 2), 0, 0, 1));
    holds(d, 0, "OTHER", "\31\36\22\17\34\12\12\12\12\12\12\12");
    holds(d, 1, "BASS C2", "\14\13\35\35\12\15\2\12\12\12\12\12");
    memcpy(d->before, d->image, d->n);
    for (size_t k = 0; k < sizeof spellings / sizeof *spellings; k++) {
        CHECK(gives(find(d, spellings[k]), 0, 0, 1));
        CHECK(gives(put(d, spellings[k], 3), 12, 1, 0));
    }
    CHECK(gives(find(d, "bass c3"), 10, 0, 0) && take_away(d, "bass c3") == 10);
    CHECK(memcmp(d->before, d->image, d->n) == 0 && content(d, 1) == 2);
    CHECK(take_away(d, "BaSs C2") == 0 && gives(find(d, "BASS C2"), 10, 0, 0) && take_away(d, "OTHER") == 0);
    CHECK(sj_check(d->image, d->n).files == 0);
}

/* "Bass" and "BASS" on an S900 disk are two files, found and removed apart; a third spelling is none of them. */
static void two_names(disk *d) {
    CHECK(gives(put(d, "Bass", 1), 0, 0, 0) && gives(put(d, "BASS", 2), 0, 0, 1));
    holds(d, 0, "Bass", "Bass      ");
    holds(d, 1, "BASS", "BASS      ");
    memcpy(d->before, d->image, d->n);
    CHECK(gives(find(d, "Bass"), 0, 0, 0) && gives(find(d, "BASS"), 0, 0, 1) && gives(find(d, "bass"), 10, 0, 0));
    CHECK(gives(put(d, "Bass", 3), 12, 0, 0) && gives(put(d, "BASS", 3), 12, 1, 0) && take_away(d, "bass") == 10);
    CHECK(memcmp(d->before, d->image, d->n) == 0 && content(d, 0) == 1 && content(d, 1) == 2);
    CHECK(take_away(d, "Bass") == 0 && gives(find(d, "Bass"), 10, 0, 0));
    CHECK(gives(find(d, "BASS"), 0, 0, 1) && content(d, 1) == 2 && take_away(d, "BASS") == 0);
}

/* ---- every letter, and every byte at every place of a name */

/* Each letter put small and found as a capital, and the other way: two names on S900 disks, one on others. */
static void letters(disk *d) {
    for (int k = 0; k < 26; k++) {
        const char small[2] = {(char)('a' + k), 0}, capital[2] = {(char)('A' + k), 0};
        for (int turn = 0; turn < 2; turn++) {
            const char *one = turn ? small : capital, *other = turn ? capital : small;
            bool same = d->s->kind != 900;
            CHECK(gives(put(d, one, 1), 0, 0, 0) && d->image[d->s->directory] == stored(d->s, same ? *capital : *one));
            CHECK(gives(find(d, one), 0, 0, 0) && gives(find(d, other), same ? 0 : 10, 0, 0));
            CHECK(gives(put(d, other, 1), same ? 12 : 0, 0, same ? 0 : 1));
            CHECK(take_away(d, other) == 0 && take_away(d, one) == (same ? 10u : 0u));
        }
    }
}

/* What a disk stores of a character, or -1. */
static int code(const shape *s, int c) {
    static const char akaii[] = "0123456789 ABCDEFGHIJKLMNOPQRSTUVWXYZ#+-.";
    if (s->kind == 900)
        return c >= 32 && c <= 126 ? c : -1;
    for (int k = 0; k < 41; k++)
        if (akaii[k] == c || (k >= 11 && k <= 36 && akaii[k] + 32 == c))
            return k;
    return -1;
}

/* Legal characters are stored as their codes; all others, such as those next to the letters, are refused by 11, and the image is kept. */
static void every_byte(disk *d) {
    size_t n = (size_t)d->s->letters;
    const uint8_t one = 1, type = d->s->type, *e = d->image + d->s->directory;
    CHECK(d->s->kind == 900 || (code(d->s, 64) < 0 && code(d->s, 91) < 0 && code(d->s, 96) < 0 && code(d->s, 123) < 0));
    memcpy(d->before, d->image, HEAD);
    for (size_t at = 0; at < n; at++)
        for (int c = 0; c < 256; c++) {
            uint8_t *name = padded(d->s, "NAME");
            int due = code(d->s, c);
            name[at] = (uint8_t)c;
            CHECK(gives(sj_find(d->image, d->n, name, n, type), due < 0 ? 11 : 10, 0, 0));
            CHECK(gives(sj_put(d->image, d->n, name, n, type, &one, 1), due < 0 ? 11 : 0, 0, 0));
            CHECK(name[at] == c && (due < 0 || (e[at] == due && gives(sj_find(d->image, d->n, name, n, type), 0, 0, 0))));
            CHECK(sj_remove(d->image, d->n, name, n, type).refusal == (due < 0 ? 11u : 0u));
            CHECK(memcmp(d->before, d->image, HEAD) == 0);
        }
}

int main(void) {
    for (int k = 0; k < KINDS; k++) {
        disk d = {.s = &SHAPES[k], .n = 1024 * (size_t)SHAPES[k].blocks};
        d.image = guarded(d.n);
        d.before = malloc(d.n);
        CHECK(d.before);
        make_blank(d.image, d.s);
        if (d.s->kind == 900)
            two_names(&d);
        else
            one_name(&d);
        letters(&d);
        every_byte(&d);
        free(d.before);
        release(d.image, d.n);
    }
    puts("c_names: ok");
    return 0;
}
