/* Salvage from C: each reason for which a slot is dropped, and what stays because another was dropped. The whole image afterwards is, byte by
 * byte, what is due; it is accepted, what is kept pages as its chain says, and a second run changes nothing. */
#include "skilletjay.h"
#include "volumes.h"

/* A volume, and what its salvage has to come to. */
typedef struct {
    volume v;
    uint8_t *due; /* the image afterwards */
    uint8_t report[SLOTS];
} wreck;

/* ---- what is due, told by hand */

/* Nothing is lost of the image as it stands. */
static void lose_nothing(wreck *w) {
    memcpy(w->due, w->v.image, HEAD);
    for (int slot = 0; slot < w->v.s->slots; slot++)
        w->report[slot] = w->v.image[slot_at(w->v.s, slot) + 16] != 0;
}

static void lose_slot(wreck *w, int slot, uint8_t number) {
    memset(w->due + slot_at(w->v.s, slot), 0, 22);
    w->report[slot] = number;
}

/* The first so many blocks that file f was made with are free. */
static void free_blocks(wreck *w, int f, size_t count) {
    for (size_t k = 0; k < count; k++)
        set_value(w->due, w->v.chains[f][k], 0);
}

static void free_chain(wreck *w, int f) { free_blocks(w, f, blocks_for(FILE_LENGTHS[f])); }

static void lose_file(wreck *w, int f, uint8_t number) {
    lose_slot(w, slot_of_file(&w->v, f), number);
    free_chain(w, f);
}

/* ---- what is due, told by the rules */

static size_t length_of(const uint8_t *e) { return e[17] + 256u * e[18] + 65536u * e[19]; }

static bool well_formed(const shape *s, const uint8_t *e) {
    for (int i = 0; i < 16; i++) {
        bool letter = s->kind == 900 ? e[i] >= 32 && e[i] <= 126 : e[i] <= 40;
        if (i < s->letters ? !letter : e[i] != padding(s, i))
            return false;
    }
    bool own = s->kind != 3000 || (e[22] == 0 && e[23] == 12);
    return legal_type(s, e[16]) && length_of(e) > 0 && own;
}

/* A slot's blocks by the map of the image, as far as there is room for them; 6 or 7 if its chain has a fault. */
static uint8_t walk(const volume *v, const uint8_t *e, unsigned chain[1600]) {
    unsigned block = e[20] + 256u * e[21];
    size_t count = blocks_for(length_of(e));
    for (size_t k = 0; k < count; k++) {
        if (block < (unsigned)v->s->first || block >= (unsigned)v->s->blocks)
            return k > 0 && block == v->s->end ? 7 : 6;
        if (k < 1600)
            chain[k] = block;
        block = get_value(v->image, block);
    }
    return block == v->s->end ? 0 : 7;
}

/* What the report has to say of a slot, where it has said so of the lower ones; `taken` are the blocks of those that are kept. */
static uint8_t reason(const wreck *w, int slot, const bool *taken, unsigned chain[1600]) {
    const uint8_t *e = w->v.image + slot_at(w->v.s, slot);
    if (e[16] == 0)
        return 0;
    if (!well_formed(w->v.s, e))
        return 4;
    for (int lower = 0; lower < slot; lower++)
        if (w->report[lower] == 1 && memcmp(w->v.image + slot_at(w->v.s, lower), e, 17) == 0) /* name and type */
            return 5;
    uint8_t fault = walk(&w->v, e, chain);
    for (size_t k = 0; !fault && k < blocks_for(length_of(e)); k++)
        fault = taken[chain[k]] ? 8 : 0;
    return fault ? fault : 1;
}

static void lose_by_rules(wreck *w) {
    const shape *s = w->v.s;
    bool taken[1600] = {false};
    memcpy(w->due, w->v.image, HEAD);
    for (int slot = 0; slot < s->slots; slot++) {
        unsigned chain[1600];
        uint8_t said = reason(w, slot, taken, chain);
        w->report[slot] = said;
        if (said > 1)
            lose_slot(w, slot, said);
        for (size_t k = 0; said == 1 && k < blocks_for(length_of(w->v.image + slot_at(s, slot))); k++)
            taken[chain[k]] = true;
    }
    for (unsigned block = 0; block < (unsigned)s->blocks; block++) {
        bool data = block >= (unsigned)s->first;
        if (data ? !taken[block] : s->kind != 900)
            set_value(w->due, block, data ? 0 : 16384);
    }
}

/* ---- a salvage, held to what is due */

/* One run with a report of so much room, at a page that traps: its answer, its report with all past that kept, and the whole image. */
static void run(wreck *w, const uint8_t *report, size_t count, size_t room) {
    uint8_t *lent = edge(0, room);
    size_t slots = (size_t)w->v.s->slots;
    memset(lent, 0xA5, room);
    sj_counted r = sj_salvage(w->v.image, w->v.n, lent, room);
    CHECK(r.refusal == 0 && r.place == 0 && r.count == count);
    CHECK(memcmp(lent, report, slots) == 0);
    for (size_t i = slots; i < room; i++)
        CHECK(lent[i] == 0xA5);
    CHECK(memcmp(w->due, w->v.image, w->v.n) == 0);
}

/* What a slot pages is what its chain's blocks hold. */
static void reads(const wreck *w, int slot) {
    unsigned chain[1600];
    const uint8_t *e = w->v.image + slot_at(w->v.s, slot);
    size_t length = length_of(e);
    uint8_t *out = edge(2, length);
    CHECK(walk(&w->v, e, chain) == 0);
    sj_paged p = sj_page(w->v.image, w->v.n, (size_t)slot, 0, out, length);
    CHECK(p.refusal == 0 && p.count == length && p.end);
    for (size_t at = 0; at < length; at += 1024)
        CHECK(memcmp(out + at, w->v.made + 1024 * (size_t)chain[at / 1024], length - at < 1024 ? length - at : 1024) == 0);
}

/* The image as it stands is mended to what is due and accepted then; a second run finds nothing to mend. Then the volume is made whole. */
static void mends(wreck *w) {
    static const size_t more[] = {0, 0, 1, 136, 4032};
    size_t others = 0, files = 0;
    int slots = w->v.s->slots;
    uint8_t kept[SLOTS];
    for (unsigned block = 0; block < (unsigned)w->v.s->blocks; block++)
        others += get_value(w->due, block) != get_value(w->v.image, block);
    for (int slot = 0; slot < slots; slot++)
        files += kept[slot] = w->report[slot] == 1;
    run(w, w->report, others, (size_t)slots + more[next_random() % 5]);
    sj_checked c = sj_check(w->v.image, w->v.n);
    CHECK(c.refusal == 0 && c.files == files && c.kind == (uint32_t)w->v.s->kind && c.density == (w->v.s->blocks == 1600));
    for (int slot = next_random() % 4 ? slots : 0; slot < slots; slot++)
        if (kept[slot])
            reads(w, slot);
    run(w, kept, 0, (size_t)slots);
    memcpy(w->v.image, w->v.made, HEAD);
}

/* The same where what is due was told by hand: the rules tell it alike. */
static void mends_as_told(wreck *w) {
    size_t slots = (size_t)w->v.s->slots;
    uint8_t head[HEAD], report[SLOTS];
    memcpy(head, w->due, HEAD);
    memcpy(report, w->report, slots);
    lose_by_rules(w);
    CHECK(memcmp(head, w->due, HEAD) == 0 && memcmp(report, w->report, slots) == 0);
    mends(w);
}

/* The fault of one file: it is dropped for that number, and the blocks that it was made with are free. */
static void loses_file(wreck *w, int f, uint8_t number) {
    lose_nothing(w);
    lose_file(w, f, number);
    mends_as_told(w);
}

/* ---- each reason alone */

static unsigned last_block(const volume *v, int f) { return v->chains[f][blocks_for(FILE_LENGTHS[f]) - 1]; }

static void set_start(uint8_t *e, unsigned block) {
    e[20] = (uint8_t)(block & 255);
    e[21] = (uint8_t)(block >> 8);
}

static void set_length(uint8_t *e, size_t length) {
    e[17] = (uint8_t)(length & 255);
    e[18] = (uint8_t)(length >> 8 & 255);
    e[19] = (uint8_t)(length >> 16);
}

/* 4: a type that is none, another kind's, a byte of the name, one after it, a length of 0; an S3000's identity, which is kept. */
static void malformed(wreck *w) {
    for (int k = 0; k < 6 * FILES; k++) {
        uint8_t *e = entry(&w->v, k / 6);
        if (k % 6 == 5 && w->v.s->kind != 3000)
            continue;
        switch (k % 6) {
        case 0:
            e[16] = 1;
            break;
        case 1:
            e[16] ^= 32;
            break;
        case 2:
            e[next_random() % (unsigned)w->v.s->letters] = w->v.s->kind == 900 ? 127 : 41;
            break;
        case 3:
            e[(unsigned)w->v.s->letters + next_random() % (16 - (unsigned)w->v.s->letters)] ^= 1;
            break;
        case 4:
            set_length(e, 0);
            break;
        default:
            e[22 + k / 6 % 2] ^= 15;
        }
        loses_file(w, k / 6, 4);
    }
}

/* 5: of two files of one name and type the later slot is dropped, whichever has its own. In another type, one that no file has, it is kept. */
static void names_twice(wreck *w) {
    for (int f = 0; f < FILES; f++)
        for (int g = 0; g < FILES; g++)
            if (f != g) {
                memcpy(entry(&w->v, g), entry(&w->v, f), 17);
                loses_file(w, f > g ? f : g, 5);
                memcpy(entry(&w->v, g), entry(&w->v, f), 16);
                entry(&w->v, g)[16] = first_type(w->v.s);
                lose_nothing(w);
                mends_as_told(w);
            }
}

/* Values that are neither a link nor the end mark; the last but two is the other kind's end mark. */
enum { STRAY_VALUES = 7 };

static unsigned stray_value(const shape *s, int k) {
    unsigned values[STRAY_VALUES] = {0, (unsigned)s->first - 1, (unsigned)s->blocks, 16384, s->kind == 900 ? 49152 : 32768, 19152, 65535};
    return values[k];
}

/* 6: a start or, before the last block, a value that leads out of the data area. */
static void chains_left(wreck *w) {
    for (int f = 0; f < FILES; f++) {
        size_t count = blocks_for(FILE_LENGTHS[f]);
        set_start(entry(&w->v, f), w->v.s->end);
        loses_file(w, f, 6);
        for (int k = 0; k < STRAY_VALUES; k++) {
            set_start(entry(&w->v, f), stray_value(w->v.s, k));
            loses_file(w, f, 6);
            for (size_t i = 0; i + 1 < count; i += 1 + count / 4) {
                set_value(w->v.image, w->v.chains[f][i], stray_value(w->v.s, k));
                loses_file(w, f, 6);
            }
        }
    }
}

/* 7: an end mark too early, or anything else where it is due. */
static void ends_misplaced(wreck *w) {
    for (int f = 0; f < FILES; f++) {
        unsigned last = last_block(&w->v, f);
        for (int k = 0; k < STRAY_VALUES; k++) {
            set_value(w->v.image, last, stray_value(w->v.s, k));
            loses_file(w, f, 7);
        }
        for (size_t i = 0; i + 1 < blocks_for(FILE_LENGTHS[f]); i += 1 + i / 4) {
            set_value(w->v.image, w->v.chains[f][i], w->v.s->end);
            loses_file(w, f, 7);
        }
        set_value(w->v.image, last, last);
        loses_file(w, f, 7);
    }
}

/* 7 too: a length that needs more or fewer blocks than the chain has. */
static void lengths_misfit(wreck *w) {
    for (int f = 0; f < FILES; f++) {
        size_t full = 1024 * blocks_for(FILE_LENGTHS[f]), lengths[] = {full + 1, 65536, 16777215, full - 1024};
        for (int k = 0; k < (full > 1024 ? 4 : 3); k++) {
            set_length(entry(&w->v, f), lengths[k]);
            loses_file(w, f, 7);
        }
        set_length(entry(&w->v, f), 16777215);
        set_value(w->v.image, last_block(&w->v, f), w->v.chains[f][0]); /* round and round */
        loses_file(w, f, 7);
    }
}

/* 8: file g has the blocks of file f from the i-th on. The lower slot keeps them; what nobody has any more is free. */
static void shared_blocks(wreck *w) {
    for (int f = 0; f < FILES; f++)
        for (int g = 0; g < FILES; g++) {
            size_t count = blocks_for(FILE_LENGTHS[f]);
            for (size_t i = 0; f != g && i < count; i += 1 + count / 5) {
                set_start(entry(&w->v, g), w->v.chains[f][i]);
                set_length(entry(&w->v, g), 1024 * (count - i));
                lose_nothing(w);
                free_chain(w, g);
                lose_slot(w, slot_of_file(&w->v, f > g ? f : g), 8);
                if (g < f)
                    free_blocks(w, f, i);
                mends_as_told(w);
            }
        }
}

/* 9: blocks on no chain are freed, those of a slot made empty too, which keeps its bytes. 3: system values are set, an S900's kept. */
static void strays(wreck *w) {
    const shape *s = w->v.s;
    unsigned values[] = {1, 256, (unsigned)s->first, 16384, s->end, 65535};
    for (size_t k = 0; k < sizeof values / sizeof *values; k++) {
        unsigned block = scattered(s, w->v.used + k), last = scattered(s, (size_t)(s->blocks - s->first) - 1);
        set_value(w->v.image, block, values[k]);
        set_value(w->v.image, last, block);
        lose_nothing(w);
        set_value(w->due, block, 0);
        set_value(w->due, last, 0);
        mends_as_told(w);
    }
    for (int f = 0; f < FILES; f++) {
        entry(&w->v, f)[16] = 0;
        lose_nothing(w);
        free_chain(w, f);
        mends_as_told(w);
    }
    for (unsigned block = 0; block < (unsigned)s->first; block++) {
        set_value(w->v.image, block, block % 2 ? 16385 : 0);
        set_value(w->v.image, 0, 64);
        lose_nothing(w);
        for (unsigned b = 0; s->kind != 900 && b <= block; b++)
            set_value(w->due, b, 16384);
        mends_as_told(w);
    }
}

/* ---- two reasons at once */

/* Gives file f a fault of a number; 5 and 8 are held against file 0. */
static void spoil(wreck *w, int number, int f) {
    uint8_t *e = entry(&w->v, f);
    switch (number) {
    case 4:
        e[16] = 1;
        break;
    case 5:
        memcpy(e, entry(&w->v, 0), 17);
        break;
    case 6:
        set_start(e, 0);
        break;
    case 7:
        set_length(e, length_of(e) + 1024);
        break;
    default:
        memcpy(e + 17, entry(&w->v, 0) + 17, 5);
    }
}

/* Every two with every two files, and both with one file: the first that applies. */
static void two_at_once(wreck *w) {
    for (int a = 4; a <= 8; a++)
        for (int b = a; b <= 8; b++)
            for (int k = 0; k < FILES * FILES; k++) {
                int f = k / FILES, g = k % FILES;
                if (f == 0 || g == 0)
                    continue;
                spoil(w, b, g);
                spoil(w, a, f);
                lose_nothing(w);
                lose_file(w, g, (uint8_t)b);
                lose_file(w, f, (uint8_t)a);
                mends_as_told(w);
            }
}

/* ---- slots that stay because others are dropped */

/* A name and type that stand in no lower slot but a dropped one are kept; where they stand again they are dropped. */
static void names_of_dropped(wreck *w) {
    static const uint8_t numbers[] = {4, 6, 7, 8};
    for (int k = 0; k < 4 * (FILES - 3); k++) {
        int f = 1 + k / 4, g = f + 1, h = f + 2;
        memcpy(entry(&w->v, g), entry(&w->v, f), 17);
        memcpy(entry(&w->v, h), entry(&w->v, f), 17);
        spoil(w, numbers[k % 4], f);
        lose_nothing(w);
        lose_file(w, f, numbers[k % 4]);
        lose_file(w, h, 5);
        mends_as_told(w);
    }
}

/* A chain that meets no other but a dropped slot's is kept, and with it the blocks that both have; the next one on it is dropped. */
static void chains_of_dropped(wreck *w) {
    static const uint8_t numbers[] = {4, 5, 7};
    for (int k = 0; k < 3 * (FILES - 3); k++) {
        int f = 1 + k / 3, g = f + 1, h = f + 2;
        memcpy(entry(&w->v, g) + 17, entry(&w->v, f) + 17, 5);
        memcpy(entry(&w->v, h) + 17, entry(&w->v, f) + 17, 5);
        spoil(w, numbers[k % 3], f);
        lose_nothing(w);
        lose_slot(w, slot_of_file(&w->v, f), numbers[k % 3]);
        free_chain(w, g);
        lose_file(w, h, 8);
        mends_as_told(w);
    }
}

/* ---- nothing to keep, nothing to lose, noise */

static void accepted(wreck *w) {
    lose_nothing(w);
    mends_as_told(w);
    CHECK(memcmp(w->v.image, w->v.made, w->v.n) == 0);
}

/* Every slot is used and none well formed, every map value wrong: a disk without files is left. 255 in slot 0 would tell another kind. */
static void nothing_kept(wreck *w) {
    const shape *s = w->v.s;
    for (int slot = 0; slot < s->slots; slot++)
        memset(w->v.image + slot_at(s, slot), 254, 22);
    memset(w->v.image + 1536, 255, 2 * (size_t)s->blocks);
    lose_nothing(w);
    for (int slot = 0; slot < s->slots; slot++)
        lose_slot(w, slot, 4);
    for (unsigned block = s->kind == 900 ? (unsigned)s->first : 0; block < (unsigned)s->blocks; block++)
        set_value(w->due, block, block < (unsigned)s->first ? 16384 : 0);
    mends_as_told(w);
}

/* Noise in the directory in use and the map but for the identities. Every other slot has a file's name, and its type or one at random; some its
 * length and start too, so that every rule is asked. */
static void noise(wreck *w) {
    const shape *s = w->v.s;
    for (int turn = 0; turn < 20; turn++) {
        for (int i = 0; i < 24 * s->slots; i++)
            if (i % 24 < 22)
                w->v.image[s->directory + i] = (uint8_t)next_random();
        for (int i = 1536; i < 1536 + 2 * s->blocks; i++)
            w->v.image[i] = (uint8_t)next_random();
        for (int slot = turn % 2; slot < s->slots; slot += 2) {
            int f = (int)(next_random() % FILES);
            memcpy(w->v.image + slot_at(s, slot), w->v.made + slot_at(s, slot_of_file(&w->v, f)), next_random() % 2 ? 17 : 24);
            if (next_random() % 3 == 0)
                w->v.image[slot_at(s, slot) + 16] = random_type(s);
        }
        if (s->kind != 3000 && w->v.image[16] == 255)
            w->v.image[16] = 1; /* 255 would tell another kind */
        lose_by_rules(w);
        mends(w);
    }
}

/* Whether all identities are of the kind; an S3000 disk isn't told by them. */
static bool known(const volume *v) {
    for (int slot = 0; v->s->kind != 3000 && slot < 64; slot++)
        if (v->image[24 * slot + 22] != 0 || v->image[24 * slot + 23] != (v->s->kind == 900 ? 0 : 3))
            return false;
    return true;
}

/* A refused call: its number, and image and report kept. */
static void refused(uint8_t *image, size_t n, size_t room, uint32_t number) {
    static uint8_t head[HEAD];
    size_t kept = n < HEAD ? n : HEAD;
    uint8_t *report = room ? edge(0, room) : NULL;
    if (kept)
        memcpy(head, image, kept);
    if (room)
        memset(report, 0xA5, room);
    sj_counted r = sj_salvage(image, n, report, room);
    CHECK(r.refusal == number && r.place == 0 && r.count == 0);
    CHECK(kept == 0 || memcmp(head, image, kept) == 0);
    for (size_t i = 0; i < room; i++)
        CHECK(report[i] == 0xA5);
}

/* One to twenty changes each time; every reason is met. */
static void random_damage(wreck *w) {
    size_t met[9] = {0}, unknown = 0;
    for (int turn = 0; turn < 1500; turn++) {
        for (int k = turn % 20; k >= 0; k--)
            damage(&w->v);
        if (!known(&w->v)) {
            unknown++;
            refused(w->v.image, w->v.n, 64, 2);
            memcpy(w->v.image, w->v.made, HEAD);
            continue;
        }
        lose_by_rules(w);
        for (int slot = 0; slot < w->v.s->slots; slot++)
            met[w->report[slot]]++;
        mends(w);
    }
    for (int number = 0; number < 9; number++)
        CHECK(number == 2 || number == 3 ? met[number] == 0 : met[number] >= 100);
    CHECK(w->v.s->kind == 3000 ? unknown == 0 : unknown >= 10);
}

/* ---- refusals */

/* 1, then 2, then 21, whatever else is wrong. */
static void refusals(wreck *w) {
    size_t slots = (size_t)w->v.s->slots, rooms[] = {0, 1, 63, slots - 1, slots, slots + 36};
    uint8_t told = w->v.image[16];
    spoil(w, 4, 3);
    for (int k = 0; k < 6; k++) {
        refused(w->v.image, w->v.n - 1, rooms[k], 1);
        refused(w->v.image + 1, w->v.n - 1, rooms[k], 1);
        refused(w->v.image, HEAD, rooms[k], 1);
        refused(NULL, 0, rooms[k], 1);
        if (rooms[k] < slots)
            refused(w->v.image, w->v.n, rooms[k], 21);
        w->v.image[16] = w->v.s->kind == 3000 ? 1 : told; /* the first directory counts */
        for (int slot = 0; slot < 64; slot += 21) {
            w->v.image[24 * slot + 23] ^= 3;
            refused(w->v.image, w->v.n, rooms[k], 2);
            w->v.image[24 * slot + 23] ^= 3;
        }
        w->v.image[16] = told;
    }
    CHECK(memcmp(w->v.image + HEAD, w->v.made + HEAD, w->v.n - HEAD) == 0);
    loses_file(w, 3, 4);
}

int main(void) {
    for (int k = 0; k < 2 * KINDS; k++) {
        wreck w;
        make_volume(&w.v, &SHAPES[k % KINDS], k >= KINDS);
        w.due = malloc(w.v.n);
        CHECK(w.due);
        memcpy(w.due, w.v.made, w.v.n);
        accepted(&w);
        malformed(&w);
        names_twice(&w);
        chains_left(&w);
        ends_misplaced(&w);
        lengths_misfit(&w);
        shared_blocks(&w);
        strays(&w);
        two_at_once(&w);
        names_of_dropped(&w);
        chains_of_dropped(&w);
        nothing_kept(&w);
        refusals(&w);
        random_damage(&w);
        noise(&w);
        CHECK(memcmp(w.v.image, w.v.made, w.v.n) == 0);
        free(w.due);
        drop_volume(&w.v);
    }
    puts("c_salvage: ok");
    return 0;
}
