/* A name in several types, from C: a file is known by its name and type together, on every kind of disk. PIANO is put as a sample and as a
 * program; each is found, listed, paged and removed by its own type alone, and a type that isn't legal is 11 before anything is looked for.
 * The check, a salvage and a script go by both too. */
#include "disks.h"
#include "skilletjay.h"

typedef struct {
    const shape *s;
    size_t n;
    uint8_t *image, *before; /* at a page that can't be touched, and what it has to be */
} disk;

enum { SAMPLE = 2500, PROGRAM = 300 }; /* bytes: three blocks and one */

/* ---- calls by a padded name */

/* The type that a capital stands for; those before A and after Z, @ and [, are none. */
static uint8_t type_of(const shape *s, char letter) { return (uint8_t)(first_type(s) + (letter - 'A')); }

/* What a file of a type holds. */
static uint8_t content(uint8_t type, size_t i) { return (uint8_t)(31 * type + i + i / 251); }

static bool gives(sj_found f, uint32_t refusal, size_t place, size_t slot) { return f.refusal == refusal && f.place == place && f.slot == slot; }

static sj_found find(const disk *d, const char *name, uint8_t type) {
    return sj_find(d->image, d->n, padded(d->s, name), (size_t)d->s->letters, type);
}

static sj_found put(disk *d, const char *name, uint8_t type, size_t length) {
    uint8_t *lent = edge(0, length);
    for (size_t i = 0; i < length; i++)
        lent[i] = content(type, i);
    return sj_put(d->image, d->n, padded(d->s, name), (size_t)d->s->letters, type, lent, length);
}

static uint32_t take_away(disk *d, const char *name, uint8_t type) {
    sj_done r = sj_remove(d->image, d->n, padded(d->s, name), (size_t)d->s->letters, type);
    CHECK(r.place == 0);
    return r.refusal;
}

/* ---- what is held to what */

static void remember(disk *d) { memcpy(d->before, d->image, d->n); }

static void same_image(const disk *d) { CHECK(memcmp(d->before, d->image, d->n) == 0); }

static void accepted(const disk *d, size_t files) {
    sj_checked c = sj_check(d->image, d->n);
    CHECK(c.refusal == 0 && c.place == 0 && c.kind == (uint32_t)d->s->kind && c.files == files);
}

/* A name is found by its type in a slot that lists both and pages what a file of that type holds. */
static void holds(const disk *d, size_t slot, const char *name, uint8_t type, size_t length) {
    char due[13] = {0};
    uint8_t *out = edge(2, length + 1);
    sj_listed l = sj_list(d->image, d->n, slot);
    snprintf(due, sizeof due, "%-*s", d->s->letters, name);
    CHECK(gives(find(d, name, type), 0, 0, slot));
    CHECK(l.refusal == 0 && l.type == type && l.length == length && memcmp(l.name, due, 12) == 0);
    out[length] = 0xA5;
    sj_paged p = sj_page(d->image, d->n, slot, 0, out, length + 1);
    CHECK(p.refusal == 0 && p.count == length && p.end && out[length] == 0xA5);
    for (size_t i = 0; i < length; i++)
        CHECK(out[i] == content(type, i));
}

/* What a removal has to leave: zeros in the slot but for its identity, and its blocks free. They are `count` in rising order. */
static void due_remove(disk *d, int slot, unsigned first, unsigned count) {
    memset(d->before + slot_at(d->s, slot), 0, 22);
    for (unsigned k = 0; k < count; k++)
        set_value(d->before, first + k, 0);
}

/* ---- a sample and a program of one name */

/* PIANO in slot 0 as a sample and in slot 1 as a program, and two other files after them. */
static void make_pair(disk *d) {
    make_blank(d->image, d->s);
    CHECK(gives(put(d, "PIANO", d->s->type, SAMPLE), 0, 0, 0) && gives(put(d, "PIANO", program_type(d->s), PROGRAM), 0, 0, 1));
    CHECK(gives(put(d, "PIANO 2", d->s->type, 1), 0, 0, 2) && gives(put(d, "STRINGS", program_type(d->s), 1024), 0, 0, 3));
    remember(d);
}

static void both_hold(const disk *d) {
    holds(d, 0, "PIANO", d->s->type, SAMPLE);
    holds(d, 1, "PIANO", program_type(d->s), PROGRAM);
    holds(d, 2, "PIANO 2", d->s->type, 1);
    holds(d, 3, "STRINGS", program_type(d->s), 1024);
}

/* Each by its own type; in the 24 others there is no such file, nor have the other two files a second type; either put again is 12 at its slot. */
static void found_by_type(disk *d) {
    make_pair(d);
    accepted(d, 4);
    both_hold(d);
    for (char letter = 'A'; letter <= 'Z'; letter++) {
        uint8_t type = type_of(d->s, letter);
        bool sample = letter == 'S', program = letter == 'P';
        CHECK(sample || program || (gives(find(d, "PIANO", type), 10, 0, 0) && take_away(d, "PIANO", type) == 10));
        CHECK(sample || (gives(find(d, "PIANO 2", type), 10, 0, 0) && take_away(d, "PIANO 2", type) == 10));
        CHECK(program || (gives(find(d, "STRINGS", type), 10, 0, 0) && take_away(d, "STRINGS", type) == 10));
    }
    CHECK(gives(put(d, "PIANO", d->s->type, 1), 12, 0, 0) && gives(put(d, "PIANO", program_type(d->s), 1), 12, 1, 0));
    same_image(d);
}

/* Either is removed alone: no byte of the other's slot, blocks and map values changes. Put again it takes its slot and its blocks again. */
static void removed_alone(disk *d) {
    const uint8_t types[2] = {d->s->type, program_type(d->s)};
    const size_t lengths[2] = {SAMPLE, PROGRAM};
    for (int k = 0; k < 2; k++) {
        make_pair(d);
        CHECK(take_away(d, "PIANO", types[k]) == 0);
        due_remove(d, k, (unsigned)d->s->first + (k ? 3 : 0), k ? 1 : 3);
        same_image(d);
        accepted(d, 3);
        holds(d, (size_t)!k, "PIANO", types[!k], lengths[!k]);
        CHECK(gives(find(d, "PIANO", types[k]), 10, 0, 0) && take_away(d, "PIANO", types[k]) == 10);
        CHECK(gives(put(d, "PIANO", types[!k], 1), 12, (size_t)!k, 0));
        same_image(d);
        CHECK(gives(put(d, "PIANO", types[k], lengths[k]), 0, 0, (size_t)k));
        both_hold(d);
    }
    CHECK(take_away(d, "PIANO", types[0]) == 0 && take_away(d, "PIANO", types[1]) == 0);
    accepted(d, 2);
}

/* PIANO in all 26 types is 26 files. */
static void every_type(disk *d) {
    make_blank(d->image, d->s);
    for (char letter = 'A'; letter <= 'Z'; letter++)
        CHECK(gives(put(d, "PIANO", type_of(d->s, letter), (size_t)letter), 0, 0, (size_t)(letter - 'A')));
    accepted(d, 26);
    remember(d);
    for (char letter = 'A'; letter <= 'Z'; letter++) {
        size_t slot = (size_t)(letter - 'A');
        holds(d, slot, "PIANO", type_of(d->s, letter), (size_t)letter);
        CHECK(gives(put(d, "PIANO", type_of(d->s, letter), 1), 12, slot, 0));
    }
    same_image(d);
    for (char letter = 'B'; letter <= 'Z'; letter = (char)(letter + 2)) {
        CHECK(take_away(d, "PIANO", type_of(d->s, letter)) == 0);
        due_remove(d, letter - 'A', (unsigned)(d->s->first + (letter - 'A')), 1);
    }
    same_image(d);
    accepted(d, 13);
}

/* On S1000 and S3000 disks all spellings of a name are one, within a type; an S900 disk has as many files as spellings and types. */
static void spellings(disk *d) {
    const uint8_t sample = d->s->type, program = program_type(d->s);
    bool one = d->s->kind != 900;
    make_blank(d->image, d->s);
    CHECK(gives(put(d, "Piano", sample, SAMPLE), 0, 0, 0) && gives(put(d, "pIANO", program, PROGRAM), 0, 0, 1));
    CHECK(gives(find(d, "PIANO", sample), one ? 0 : 10, 0, 0) && gives(find(d, "piano", program), one ? 0 : 10, 0, one));
    CHECK(gives(find(d, "pIANO", sample), one ? 0 : 10, 0, 0) && gives(find(d, "Piano", program), one ? 0 : 10, 0, one));
    CHECK(gives(put(d, "piano", sample, 1), one ? 12 : 0, 0, one ? 0 : 2));
    CHECK(gives(put(d, "piano", program, 1), one ? 12 : 0, one, one ? 0 : 3));
    CHECK(gives(put(d, "piano", sample, 1), 12, one ? 0 : 2, 0));
    holds(d, 0, one ? "PIANO" : "Piano", sample, SAMPLE);
    holds(d, 1, one ? "PIANO" : "pIANO", program, PROGRAM);
    CHECK(take_away(d, "PiAnO", program) == (one ? 0u : 10u) && take_away(d, "pIANO", program) == (one ? 10u : 0u));
    accepted(d, one ? 1 : 3);
}

/* ---- a type or a name that isn't legal */

/* Whether find, remove and put, of a byte and of nothing, all refuse a name and a type so. */
static bool refused(const disk *d, uint8_t *name, size_t length, uint8_t type, uint32_t number, size_t place) {
    static const uint8_t byte = 1;
    sj_done r = sj_remove(d->image, d->n, name, length, type);
    bool full = gives(sj_put(d->image, d->n, name, length, type, &byte, 1), number, place, 0);
    bool empty = gives(sj_put(d->image, d->n, name, length, type, NULL, 0), number, place, 0);
    return gives(sj_find(d->image, d->n, name, length, type), number, place, 0) && r.refusal == number && r.place == place && full && empty;
}

/* Names for every byte as a type: two that are there, one that isn't, then such as no disk has. */
static const struct {
    const char *name;
    int more; /* its length past the kind's */
    bool legal;
} NAMES[] = {
    {"PIANO", 0, true},   {"STRINGS", 0, true}, {"ORGAN", 0, true}, {"PI\177NO", 0, false},
    {"PIANO", -1, false}, {"PIANO", 1, false},  {"", -10, false},
};

/* 11 for every type that isn't legal and for every name that isn't, whatever the other is; with both legal it is never 11. */
static void illegal(disk *d) {
    make_pair(d);
    for (size_t k = 0; k < sizeof NAMES / sizeof *NAMES; k++) {
        size_t length = (size_t)(d->s->letters + NAMES[k].more);
        char whole[14];
        uint8_t *name = spelled(NAMES[k].name, length);
        snprintf(whole, sizeof whole, "%-13s", NAMES[k].name);
        for (int type = 0; type < 256; type++) {
            if (NAMES[k].legal && legal_type(d->s, (uint8_t)type))
                CHECK(sj_find(d->image, d->n, name, length, (uint8_t)type).refusal != 11);
            else
                CHECK(refused(d, name, length, (uint8_t)type, 11, 0));
            CHECK(memcmp(name, whole, length) == 0 && memcmp(d->before, d->image, HEAD) == 0);
        }
        same_image(d);
    }
    CHECK(refused(d, NULL, 0, d->s->type, 11, 0) && refused(d, NULL, 0, 0, 11, 0));
    both_hold(d);
}

/* Those next to the legal ones, the empty slot's, the other kinds' and the other case; on an S3000 disk the letter itself. */
static void named_types(const shape *s) {
    static const uint8_t none[3][8] = {
        {0, 255, 64, 91, 's', 'p', 211, 208}, {0, 255, 96, 123, 'S', 'P', 211, 208}, {0, 255, 192, 219, 'S', 's', 'P', 'p'}};
    for (int k = 0; k < 8; k++)
        CHECK(!legal_type(s, none[s->kind == 900 ? 0 : s->kind == 1000 ? 1 : 2][k]));
    CHECK(legal_type(s, s->type) && legal_type(s, program_type(s)) && legal_type(s, type_of(s, 'A')) && legal_type(s, type_of(s, 'Z')));
}

/* Makes a fault of a number, with the file of slot 3 where it is one of a slot; gives its place. */
static size_t spoil(disk *d, uint32_t number) {
    uint8_t *e = d->image + slot_at(d->s, 3);
    unsigned last = (unsigned)d->s->blocks - 1;
    switch (number) {
    case 2:
        d->image[16] = 1; /* on an S3000 disk the first directory counts */
        d->image[22] = 1;
        return 0;
    case 3:
        set_value(d->image, 1, 0);
        return 1;
    case 4:
        e[16] = 1;
        break;
    case 5:
        memcpy(e, d->image + slot_at(d->s, 1), 17);
        break;
    case 6:
        e[20] = 0;
        break;
    case 7:
        e[18] = 8;
        break;
    case 8:
        e[20] = (uint8_t)(d->s->first + 2); /* the sample's last block */
        break;
    default:
        set_value(d->image, last, d->s->end);
        return last;
    }
    return 3;
}

/* Every call by any name and type gives the image's own refusal, and the image is kept. */
static void image_first(disk *d, uint32_t number, size_t place) {
    remember(d);
    for (size_t k = 0; k < sizeof NAMES / sizeof *NAMES; k++) {
        size_t length = (size_t)(d->s->letters + NAMES[k].more);
        for (int type = 0; type < 256; type++)
            CHECK(refused(d, spelled(NAMES[k].name, length), length, (uint8_t)type, number, place));
    }
    same_image(d);
}

static void refused_images(disk *d) {
    disk cut = *d;
    for (uint32_t number = 2; number <= 9; number++) {
        if (number == 3 && d->s->kind == 900)
            continue; /* system values that aren't read */
        make_pair(d);
        image_first(d, number, spoil(d, number));
    }
    cut.n--;
    image_first(&cut, 1, 0);
}

/* ---- a disk full of pairs */

static void pair_name(int slot, char *name) { snprintf(name, 13, "N%u", (unsigned)slot / 2 % SLOTS); }

static uint8_t pair_type(const shape *s, int slot) { return slot % 2 ? program_type(s) : s->type; }

static void full_of_pairs(disk *d) {
    char name[13];
    int slots = d->s->slots;
    make_blank(d->image, d->s);
    for (int slot = 0; slot < slots; slot++) {
        pair_name(slot, name);
        CHECK(gives(put(d, name, pair_type(d->s, slot), 1 + (size_t)slot), 0, 0, (size_t)slot));
    }
    accepted(d, (size_t)slots);
    remember(d);
    CHECK(gives(put(d, "N0", type_of(d->s, 'A'), 1), 14, 0, 0) && gives(put(d, "NEW", d->s->type, 1), 14, 0, 0));
    for (int slot = 0; slot < slots; slot++) {
        pair_name(slot, name);
        holds(d, (size_t)slot, name, pair_type(d->s, slot), 1 + (size_t)slot);
        CHECK(gives(put(d, name, pair_type(d->s, slot), 1), 12, (size_t)slot, 0));
    }
    same_image(d);
    for (int slot = 0; slot < slots; slot += 2) {
        pair_name(slot, name);
        CHECK(take_away(d, name, d->s->type) == 0 && gives(find(d, name, d->s->type), 10, 0, 0));
        due_remove(d, slot, (unsigned)(d->s->first + slot), 1);
        holds(d, (size_t)slot + 1, name, program_type(d->s), 2 + (size_t)slot);
    }
    same_image(d);
    accepted(d, (size_t)slots / 2);
}

/* ---- disks made by hand: the check, and a salvage */

/* Each letter is a file of that type: capitals are called X, small ones Y; a dot is an empty slot. One slot's chain may be broken. The check's answer
 * goes by name and type, and so does the report: each digit is a slot's byte. */
static const struct {
    const char *slots;
    int broken; /* from 0, or -1 */
    uint32_t refusal;
    size_t place;
    const char *report;
} MADE[] = {
    {"SP", -1, 0, 0, "11"},
    {"PS", -1, 0, 0, "11"},
    {"SpPs", -1, 0, 0, "1111"},
    {"ABCDEFGHIJKLMNOPQRSTUVWXYZ", -1, 0, 0, "11111111111111111111111111"},
    {"SS", -1, 5, 1, "15"},
    {"PP", -1, 5, 1, "15"},
    {"S.S", -1, 5, 2, "105"},
    {"SPS", -1, 5, 2, "115"},
    {"SPP", -1, 5, 2, "115"},
    {"SsPpDdSs", -1, 5, 6, "11111155"},
    {".S.P.D.S.P.D", -1, 5, 7, "010101050505"},
    {"SSPP", -1, 5, 1, "1515"},
    {"SPSPS", -1, 5, 2, "11555"},
    {"ABCDEFGHIJKLMNOPQRSTUVWXYZA", -1, 5, 26, "111111111111111111111111115"},
    {"ABCDEFGHIJKLMNOPQRSTUVWXYZZ", -1, 5, 26, "111111111111111111111111115"},
    {"SP", 0, 6, 0, "61"},
    {"SP", 1, 6, 1, "16"},
    {"SS", 0, 5, 1, "61"},
    {"SSS", 0, 5, 1, "615"},
    {"SPS", 0, 5, 2, "611"},
    {"SPSPS", 0, 5, 2, "61155"},
    {"SPSP", 1, 5, 2, "1651"},
    {"PSS", 2, 5, 2, "115"},
};

/* The slot of the k-th letter: the 27th is the directory's last. */
static int made_slot(const shape *s, size_t k) { return (int)k * (s->slots - 1) / 26; }

static const char *made_name(char letter) { return letter >= 'a' ? "Y" : "X"; }

static uint8_t made_type(const shape *s, char letter) { return type_of(s, letter >= 'a' ? (char)(letter - 32) : letter); }

static void make_row(disk *d, size_t row) {
    static const uint8_t byte = 7;
    make_blank(d->image, d->s);
    make_noise(d->image, d->s);
    for (size_t k = 0; MADE[row].slots[k]; k++) {
        char letter = MADE[row].slots[k];
        uint8_t *e = d->image + slot_at(d->s, made_slot(d->s, k));
        unsigned block = (unsigned)d->s->first + (unsigned)k;
        if (letter == '.')
            continue;
        add_file(d->image, d->s, made_slot(d->s, k), made_name(letter), &block, &byte, 1);
        e[16] = made_type(d->s, letter);
        if ((int)k == MADE[row].broken)
            memset(e + 20, 0, 2);
    }
    remember(d);
}

/* The check's answer, and that of the calls by name and type. */
static void check_row(const disk *d, size_t row) {
    size_t place = MADE[row].refusal ? (size_t)made_slot(d->s, MADE[row].place) : 0;
    sj_checked c = sj_check(d->image, d->n);
    CHECK(c.refusal == MADE[row].refusal && c.place == place);
    if (c.refusal) {
        CHECK(refused(d, padded(d->s, "X"), (size_t)d->s->letters, d->s->type, c.refusal, place));
        return;
    }
    for (size_t k = 0; MADE[row].slots[k]; k++) {
        char letter = MADE[row].slots[k];
        CHECK(gives(find(d, made_name(letter), made_type(d->s, letter)), 0, 0, (size_t)made_slot(d->s, k)));
    }
}

static void salvage_row(disk *d, size_t row) {
    uint8_t due[SLOTS] = {0}, *report = edge(0, SLOTS);
    size_t lost = 0, files = 0;
    for (size_t k = 0; MADE[row].slots[k]; k++) {
        int slot = made_slot(d->s, k);
        due[slot] = (uint8_t)(MADE[row].report[k] - '0');
        files += due[slot] == 1;
        lost += due[slot] > 1;
        if (due[slot] > 1)
            due_remove(d, slot, (unsigned)d->s->first + (unsigned)k, 1);
    }
    sj_counted r = sj_salvage(d->image, d->n, report, SLOTS);
    CHECK(r.refusal == 0 && r.place == 0 && r.count == lost && memcmp(report, due, (size_t)d->s->slots) == 0);
    same_image(d);
    accepted(d, files);
    CHECK(sj_salvage(d->image, d->n, report, SLOTS).count == 0);
    same_image(d);
}

static void made_by_hand(disk *d) {
    for (size_t row = 0; row < sizeof MADE / sizeof *MADE; row++) {
        make_row(d, row);
        check_row(d, row);
        same_image(d);
        salvage_row(d, row);
    }
}

/* What a salvage dropped is free again: its slot, and its name in its type. */
static void free_again(disk *d) {
    uint8_t report[SLOTS];
    make_pair(d);
    d->image[slot_at(d->s, 0) + 20] = 0; /* the sample's chain */
    CHECK(gives(find(d, "PIANO", d->s->type), 6, 0, 0) && sj_salvage(d->image, d->n, report, SLOTS).count == 3);
    CHECK(report[0] == 6 && report[1] == 1 && report[2] == 1 && report[3] == 1);
    CHECK(gives(find(d, "PIANO", d->s->type), 10, 0, 0) && gives(put(d, "PIANO", program_type(d->s), 1), 12, 1, 0));
    CHECK(gives(put(d, "PIANO", d->s->type, SAMPLE), 0, 0, 0));
    both_hold(d);
}

/* ---- a script */

/* Its calls are all by the name PIANO: 2 find, 3 remove, 4 put. Byte 1 is the type; @ and [ are none. */
static const struct {
    uint8_t call;
    char letter;
    uint8_t refusal, value; /* the place or the slot */
} CALLS[] = {
    {2, 'S', 10, 0}, {4, 'S', 0, 0},  {2, 'P', 10, 0}, {3, 'P', 10, 0}, {4, 'P', 0, 1},  {4, 'S', 12, 0}, {4, 'P', 12, 1}, {2, 'S', 0, 0},
    {2, 'P', 0, 1},  {2, 'D', 10, 0}, {2, '@', 11, 0}, {3, '[', 11, 0}, {4, '@', 11, 0}, {3, 'D', 10, 0}, {3, 'S', 0, 0},  {2, 'S', 10, 0},
    {2, 'P', 0, 1},  {3, 'S', 10, 0}, {4, 'D', 0, 0},  {3, 'P', 0, 0},  {2, 'P', 10, 0}, {2, 'D', 0, 0},
};

static void script(disk *d) {
    enum { COUNT = sizeof CALLS / sizeof *CALLS, ENTRY = 20, PART = 1044 };
    uint8_t entries[COUNT * ENTRY] = {0}, due[8] = {0}, *out = edge(2, COUNT * PART);
    size_t letters = (size_t)d->s->letters, room = COUNT * PART;
    make_blank(d->image, d->s);
    for (int k = 0; k < COUNT; k++) {
        uint8_t *e = entries + ENTRY * k;
        e[0] = CALLS[k].call;
        e[1] = type_of(d->s, CALLS[k].letter);
        e[8] = (uint8_t)letters;
        e[16] = 1; /* the content is the name's first byte */
    }
    const uint8_t *lent = at_edge(0, entries, sizeof entries);
    CHECK(sj_run(d->image, d->n, lent, sizeof entries, padded(d->s, "PIANO"), letters, out, room) == COUNT);
    for (int k = 0; k < COUNT; k++) {
        due[0] = CALLS[k].refusal;
        due[3] = CALLS[k].value;
        CHECK(memcmp(out + PART * k, due, sizeof due) == 0);
    }
    accepted(d, 1);
}

int main(void) {
    for (int k = 0; k < KINDS; k++) {
        disk d = {.s = &SHAPES[k], .n = 1024 * (size_t)SHAPES[k].blocks};
        d.image = guarded(d.n);
        d.before = malloc(d.n);
        CHECK(d.before);
        found_by_type(&d);
        removed_alone(&d);
        every_type(&d);
        spellings(&d);
        named_types(d.s);
        illegal(&d);
        refused_images(&d);
        full_of_pairs(&d);
        made_by_hand(&d);
        free_again(&d);
        script(&d);
        free(d.before);
        release(d.image, d.n);
    }
    puts("c_types: ok");
    return 0;
}
