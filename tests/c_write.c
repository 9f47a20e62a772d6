/* Sequences of calls from C against a plain record of files by name and type: after each call the image is, byte by byte, what the call has to
 * leave; it is accepted, and every file pages back. A refused call leaves the image as it was. */
#include "skilletjay.h"
#include "volumes.h"

typedef struct {
    bool used;
    char name[13];
    uint8_t type;
    uint8_t *content;
    size_t length;
} file;

typedef struct {
    const shape *s;
    size_t n;
    uint8_t *image, *due; /* due: the image that the calls so far have to leave */
    uint8_t head[HEAD];   /* as it was before the first call */
    file files[SLOTS];
    size_t pairs; /* files put beside one of their name */
} disk;

/* ---- the record */

static size_t free_blocks(const disk *d) {
    size_t free = (size_t)(d->s->blocks - d->s->first);
    for (int k = 0; k < d->s->slots; k++)
        if (d->files[k].used)
            free -= blocks_for(d->files[k].length);
    return free;
}

/* The names made here have letters and spaces, and now and then one sign. */
static bool legal_name(const disk *d, const char *name) {
    return strlen(name) == (size_t)d->s->letters && (d->s->kind == 900 || !strpbrk(name, "!@[`{"));
}

/* A name as the disk keeps it: in capitals, but an S900's. */
static void keep_name(const disk *d, const char *name, char *kept) {
    size_t length = strlen(name);
    for (size_t i = 0; i <= length; i++)
        kept[i] = d->s->kind != 900 && name[i] >= 'a' && name[i] <= 'z' ? (char)(name[i] - 32) : name[i];
}

static bool legal(const disk *d, const char *name, uint8_t type) { return legal_name(d, name) && legal_type(d->s, type); }

/* The lowest slot of a name, of one type or, if that is 0, of any. */
static int slot_of(const disk *d, const char *name, uint8_t type) {
    char kept[13];
    keep_name(d, name, kept);
    for (int k = 0; k < d->s->slots; k++)
        if (d->files[k].used && strcmp(d->files[k].name, kept) == 0 && (type == 0 || d->files[k].type == type))
            return k;
    return -1;
}

static int empty_slot(const disk *d) {
    for (int k = 0; k < d->s->slots; k++)
        if (!d->files[k].used)
            return k;
    return -1;
}

static void record_file(disk *d, int slot, const char *name, uint8_t type, const uint8_t *content, size_t length) {
    file *to = &d->files[slot];
    to->used = true;
    keep_name(d, name, to->name);
    to->type = type;
    to->length = length;
    to->content = malloc(length);
    CHECK(to->content);
    memcpy(to->content, content, length);
}

/* The image that a put of the recorded file has to leave: the lowest free blocks in rising order, zeros after the content. */
static void due_put(disk *d, int slot) {
    const file *f = &d->files[slot];
    unsigned blocks[1600];
    size_t count = 0, whole = blocks_for(f->length);
    for (unsigned block = (unsigned)d->s->first; count < whole; block++)
        if (get_value(d->due, block) == 0)
            blocks[count++] = block;
    add_file(d->due, d->s, slot, f->name, blocks, f->content, f->length);
    d->due[slot_at(d->s, slot) + 16] = f->type;
    memset(d->due + 1024 * (size_t)(blocks[whole - 1] + 1) - (1024 * whole - f->length), 0, 1024 * whole - f->length);
}

/* The image that a removal has to leave: the slot is zeros but for its identity, the chain's blocks are free. */
static void due_remove(disk *d, int slot) {
    uint8_t *e = d->due + slot_at(d->s, slot);
    unsigned block = e[20] + 256u * e[21];
    for (size_t k = blocks_for(d->files[slot].length); k > 0; k--) {
        unsigned next = get_value(d->due, block);
        set_value(d->due, block, 0);
        block = next;
    }
    memset(e, 0, 22);
}

/* ---- the calls, each held to the record */

static void same_image(const disk *d) { CHECK(memcmp(d->due, d->image, d->n) == 0); }

static void put(disk *d, const char *name, uint8_t type, size_t length) {
    uint8_t *content = edge(0, length);
    for (size_t i = 0; i < length; i++)
        content[i] = (uint8_t)next_random();
    bool may = legal(d, name, type);
    int same = may ? slot_of(d, name, type) : -1, slot = empty_slot(d);
    uint32_t want = !may ? 11 : length == 0 ? 13 : same >= 0 ? 12 : slot < 0 ? 14 : blocks_for(length) > free_blocks(d) ? 15 : 0;
    sj_found f = sj_put(d->image, d->n, at_edge(1, name, strlen(name)), strlen(name), type, content, length);
    CHECK(f.refusal == want && f.place == (want == 12 ? (size_t)same : 0) && f.slot == (want ? 0 : (size_t)slot));
    if (!want) {
        d->pairs += slot_of(d, name, 0) >= 0;
        record_file(d, slot, name, type, content, length);
        due_put(d, slot);
    }
    same_image(d);
}

/* Removes by name and type; a find before it and one after it are held to the record too. */
static void take_away(disk *d, const char *name, uint8_t type) {
    size_t named = strlen(name);
    const uint8_t *lent = at_edge(1, name, named);
    int slot = legal(d, name, type) ? slot_of(d, name, type) : -1;
    uint32_t want = !legal(d, name, type) ? 11 : slot < 0 ? 10 : 0;
    sj_found f = sj_find(d->image, d->n, lent, named, type);
    CHECK(f.refusal == want && f.place == 0 && f.slot == (want ? 0 : (size_t)slot));
    sj_done r = sj_remove(d->image, d->n, lent, named, type);
    CHECK(r.refusal == want && r.place == 0);
    CHECK(sj_find(d->image, d->n, lent, named, type).refusal == (want ? want : 10));
    if (slot >= 0) {
        due_remove(d, slot);
        free(d->files[slot].content);
        d->files[slot].used = false;
    }
    same_image(d);
}

/* A slot of the image holds the record's file: it lists, and pages whole. */
static void compare_slot(const disk *d, int slot) {
    const file *f = &d->files[slot];
    sj_listed l = sj_list(d->image, d->n, (size_t)slot);
    CHECK(l.refusal == (f->used ? 0u : 10u));
    if (!f->used)
        return;
    CHECK(l.type == f->type && l.length == f->length && memcmp(l.name, f->name, (size_t)d->s->letters) == 0);
    uint8_t *out = edge(2, f->length + 5);
    memset(out, 0x5A, f->length + 5);
    sj_paged p = sj_page(d->image, d->n, (size_t)slot, 0, out, f->length + 5);
    CHECK(p.refusal == 0 && p.count == f->length && p.end);
    CHECK(memcmp(out, f->content, f->length) == 0 && out[f->length] == 0x5A && out[f->length + 4] == 0x5A);
}

/* Every so many slots, from any on, and the check's counts. */
static void compare_some(const disk *d, int step) {
    size_t count = 0;
    for (int slot = (int)(next_random() % (unsigned)step); slot < d->s->slots; slot += step)
        compare_slot(d, slot);
    for (int slot = 0; slot < d->s->slots; slot++)
        count += d->files[slot].used;
    sj_checked c = sj_check(d->image, d->n);
    CHECK(c.refusal == 0 && c.files == count && c.free == free_blocks(d));
    CHECK(c.kind == (uint32_t)d->s->kind && c.density == (d->s->blocks == 1600));
}

static void compare(const disk *d) { compare_some(d, 1); }

/* Names and contents of nothing may be null: they are refused as illegal and as empty, and the image is kept. */
static void null_arguments(disk *d) {
    const uint8_t type = d->s->type, *name = (const uint8_t *)"NULL        ", content[1] = {1};
    size_t letters = (size_t)d->s->letters;
    sj_found f = sj_put(d->image, d->n, NULL, 0, type, content, 1);
    CHECK(f.refusal == 11 && f.place == 0 && f.slot == 0);
    f = sj_put(d->image, d->n, NULL, 0, type, NULL, 0);
    CHECK(f.refusal == 11 && f.place == 0 && f.slot == 0);
    f = sj_put(d->image, d->n, name, letters, type, NULL, 0);
    CHECK(f.refusal == 13 && f.place == 0 && f.slot == 0);
    f = sj_find(d->image, d->n, NULL, 0, type);
    CHECK(f.refusal == 11 && f.place == 0 && f.slot == 0);
    sj_done r = sj_remove(d->image, d->n, NULL, 0, type);
    CHECK(r.refusal == 11 && r.place == 0);
    same_image(d);
}

/* A content that a slot's length can't tell is refused for room, as one byte less is: no disk has so many blocks, so 16 is never given. */
static void long_contents(disk *d) {
    size_t most = 16777216;
    uint8_t *content = guarded(most);
    const uint8_t *name = (const uint8_t *)"LONG        ";
    for (size_t length = most - 1; length <= most; length++) {
        sj_found f = sj_put(d->image, d->n, name, (size_t)d->s->letters, d->s->type, content + (most - length), length);
        CHECK(f.refusal == (empty_slot(d) < 0 ? 14u : 15u) && f.place == 0 && f.slot == 0);
    }
    same_image(d);
    release(content, most);
}

/* What no call writes: the map below the first data block, all between the map and the block after it, an S3000's first directory. */
static void kept_bytes(const disk *d) {
    size_t map_end = 1536 + 2 * (size_t)d->s->blocks, after = d->s->blocks == 800 ? 4096 : 5120;
    CHECK(memcmp(d->head + 1536, d->image + 1536, 2 * (size_t)d->s->first) == 0);
    CHECK(memcmp(d->head + map_end, d->image + map_end, after - map_end) == 0);
    CHECK(d->s->kind != 3000 || memcmp(d->head, d->image, 1536) == 0);
}

/* ---- sequences */

/* A disk without files, or one that holds some, with noise in the bytes that aren't read. */
static void start(disk *d, const shape *s, bool files) {
    *d = (disk){.s = s, .n = 1024 * (size_t)s->blocks};
    d->image = guarded(d->n);
    d->due = malloc(d->n);
    CHECK(d->due);
    if (files) {
        volume v;
        make_volume(&v, s, true);
        memcpy(d->image, v.image, d->n);
        for (int f = 0; f < FILES; f++) {
            char name[13];
            snprintf(name, sizeof name, "%-*s", s->letters, FILE_NAMES[f]);
            record_file(d, slot_of_file(&v, f), name, type_of_file(s, f), v.contents[f], FILE_LENGTHS[f]);
        }
        drop_volume(&v);
    } else {
        make_blank(d->image, s);
    }
    memcpy(d->due, d->image, d->n);
    memcpy(d->head, d->image, HEAD);
}

/* The calls that are refused on any disk, before the first call of a sequence and after the last. */
static void refused_calls(disk *d) {
    null_arguments(d);
    long_contents(d);
    kept_bytes(d);
    compare(d);
}

static void finish(disk *d) {
    refused_calls(d);
    for (int slot = 0; slot < d->s->slots; slot++)
        if (d->files[slot].used)
            free(d->files[slot].content);
    free(d->due);
    release(d->image, d->n);
}

/* A name of the kind's length, or nearly; its letters are of either case. Often it is that of a file. */
static void random_name(const disk *d, char *name) {
    size_t letters = (size_t)d->s->letters - (next_random() % 40 == 0);
    const file *f = &d->files[next_random() % 64];
    if (f->used && next_random() % 3 == 0) {
        memcpy(name, f->name, sizeof f->name);
        return;
    }
    memset(name, ' ', letters);
    name[letters] = 0;
    name[0] = (char)('A' + next_random() % 26 + (next_random() % 3 ? 0 : 32));
    name[1] = (char)('A' + next_random() % 5 + (next_random() % 3 ? 0 : 32));
    if (next_random() % 50 == 0)
        name[2] = d->s->kind == 900 ? '~' : "!@[`{"[next_random() % 5];
}

static size_t random_length(const disk *d) {
    static const size_t edges[] = {0, 1, 1023, 1024, 1025, 2048, 3000};
    switch (next_random() % 8) {
    case 0:
        return 1024 * free_blocks(d) + next_random() % 2;
    case 1:
        return next_random() % 200000;
    default:
        return edges[next_random() % 7];
    }
}

/* Removes files that are there: names at random are seldom those of one. At times another type of the name is tried first. */
static void thin_out(disk *d) {
    char name[13];
    for (int slot = 0; slot < d->s->slots; slot += 1 + (int)(next_random() % 40))
        if (d->files[slot].used) {
            uint8_t type = d->files[slot].type;
            snprintf(name, sizeof name, "%s", d->files[slot].name);
            if (next_random() % 2)
                take_away(d, name, random_type(d->s));
            take_away(d, name, type);
        }
}

typedef struct {
    int slot;
    size_t sum; /* of the counts so far */
} download;

/* The next page of a download that goes on while other files come and go. When it has ended, or its file was removed, the next slot's begins. */
static void page_on(const disk *d, download *on) {
    const file *f = &d->files[on->slot];
    if (f->used) {
        size_t size = 1 + next_random() % 3000, left = f->length - on->sum;
        uint8_t *out = edge(2, size);
        sj_paged p = sj_page(d->image, d->n, (size_t)on->slot, on->sum, out, size);
        CHECK(p.refusal == 0 && p.count == (left < size ? left : size) && p.end == (p.count == left));
        CHECK(memcmp(out, f->content + on->sum, p.count) == 0);
        on->sum += p.count;
        if (!p.end)
            return;
    }
    *on = (download){.slot = (on->slot + 1) % d->s->slots};
}

static void sequence(const shape *s, int calls, bool files) {
    disk d;
    download on = {0};
    char name[13];
    start(&d, s, files);
    refused_calls(&d);
    for (int k = 0; k < calls; k++) {
        random_name(&d, name);
        bool filling = k % 600 < 400;
        if (next_random() % 10 < (filling ? 8u : 3u))
            put(&d, name, random_type(s), random_length(&d));
        else if (next_random() % 4)
            take_away(&d, name, random_type(s));
        else
            thin_out(&d);
        page_on(&d, &on);
        compare_some(&d, s->slots / 64);
    }
    CHECK(d.pairs >= 30);
    finish(&d);
}

/* Small files only, so that the directory fills: 14. Every name is put as a sample and as a program. */
static void full_directory(const shape *s, bool files) {
    disk d;
    size_t more = s->slots == 64 ? 100 : 4;
    start(&d, s, files);
    for (int k = 0; k < s->slots + 2; k++) {
        char name[13];
        snprintf(name, sizeof name, "%c%c%*s", 'A' + k / 2 % 26, 'A' + k / 52, s->letters - 2, "");
        put(&d, name, k % 2 ? program_type(s) : s->type, 1 + more * (size_t)k);
    }
    CHECK(empty_slot(&d) < 0);
    finish(&d);
}

/* ---- refused images */

static void alike(const sj_checked *c, sj_found f, sj_done r) {
    CHECK(f.refusal == c->refusal && f.place == c->place && f.slot == 0);
    CHECK(r.refusal == c->refusal && r.place == c->place);
}

/* A refused image is refused first, whatever the arguments, and kept; gives the refusal. `before` is the image but for its head. */
static uint32_t write_refused(volume *v, uint8_t *before) {
    char name[13];
    size_t letters = (size_t)snprintf(name, sizeof name, "%-*s", v->s->letters, FILE_NAMES[next_random() % FILES]);
    uint8_t type = random_type(v->s), *lent = at_edge(1, name, letters), *content = at_edge(0, name, letters);
    memcpy(before, v->image, HEAD);
    sj_checked c = sj_check(v->image, v->n);
    if (c.refusal) {
        alike(&c, sj_put(v->image, v->n, lent, letters, type, content, letters), sj_remove(v->image, v->n, lent, letters, type));
        alike(&c, sj_put(v->image, v->n, NULL, 0, 0, NULL, 0), sj_remove(v->image, v->n, NULL, 0, 0));
    }
    CHECK(memcmp(before, v->image, v->n) == 0);
    return c.refusal;
}

static void refused_images(const shape *s) {
    size_t met[10] = {0};
    volume v;
    make_volume(&v, s, false);
    uint8_t *before = malloc(v.n);
    CHECK(before);
    memcpy(before, v.made, v.n);
    for (int turn = 0; turn < 1000; turn++) {
        for (int k = turn % 3; k >= 0; k--)
            damage(&v);
        met[write_refused(&v, before)]++;
        memcpy(v.image, v.made, HEAD);
    }
    all_met(s, met);
    free(before);
    drop_volume(&v);
}

int main(void) {
    for (int k = 0; k < 2 * KINDS; k++) {
        sequence(&SHAPES[k / 2], 2000, k % 2);
        full_directory(&SHAPES[k / 2], k % 2);
    }
    for (int k = 0; k < KINDS; k++)
        refused_images(&SHAPES[k]);
    CHECK(sj_put(NULL, 0, NULL, 0, 0, NULL, 0).refusal == 1);
    CHECK(sj_remove(NULL, 0, NULL, 0, 0).refusal == 1);
    puts("c_write: ok");
    return 0;
}
