/* The reading calls from C: pages of every size join to the file, whatever is called between them; a damaged disk is refused by its number
 * and place, the same by every call; any bytes may be lent, and nothing is touched past its end. */
#include "skilletjay.h"
#include "volumes.h"

static size_t file_slot(const volume *v, int f) { return (size_t)slot_of_file(v, f); }

/* ---- disks that are whole */

static void check_disk(const volume *v) {
    sj_checked c = sj_check(v->image, v->n);
    CHECK(c.refusal == 0 && c.place == 0 && c.files == FILES);
    CHECK(c.kind == (uint32_t)v->s->kind && c.density == (v->s->blocks == 1600));
    CHECK(c.free == (size_t)(v->s->blocks - v->s->first) - v->used);
}

static void list_slot(const volume *v, size_t slot) {
    uint8_t name[13] = {0};
    size_t apart = (size_t)v->s->apart;
    bool there = slot % apart == 0 && slot / apart < FILES;
    sj_listed l = sj_list(v->image, v->n, slot);
    if (there)
        snprintf((char *)name, sizeof name, "%-*s", v->s->letters, FILE_NAMES[slot / apart]);
    CHECK(l.refusal == (there ? 0u : 10u) && l.place == 0);
    CHECK(l.length == (there ? FILE_LENGTHS[slot / apart] : 0) && memcmp(l.name, name, 12) == 0);
    CHECK(l.type == (there ? type_of_file(v->s, (int)(slot / apart)) : 0));
}

/* A file's name is found at its own length and at no other; a sign in it is legal or not by the kind. */
static void find_file(const volume *v, int f) {
    char name[14];
    size_t letters = (size_t)v->s->letters;
    uint8_t type = type_of_file(v->s, f);
    snprintf(name, sizeof name, "%-13s", FILE_NAMES[f]);
    for (size_t length = 0; length <= 13; length++) {
        sj_found found = sj_find(v->image, v->n, at_edge(1, name, length), length, type);
        CHECK(found.refusal == (length == letters ? 0u : 11u) && found.place == 0);
        CHECK(found.slot == (length == letters ? file_slot(v, f) : 0));
    }
    name[0] = '!';
    CHECK(sj_find(v->image, v->n, at_edge(1, name, letters), letters, type).refusal == (v->s->kind == 900 ? 10u : 11u));
}

/* A file's name is found in the types of the files that have it, each in its own slot; every other legal type is 10, every other byte 11. */
static void find_types(const volume *v, int f) {
    char name[13];
    size_t letters = (size_t)snprintf(name, sizeof name, "%-*s", v->s->letters, FILE_NAMES[f]);
    for (int type = 0; type < 256; type++) {
        sj_found due = {.refusal = legal_type(v->s, (uint8_t)type) ? 10 : 11};
        for (int g = 0; g < FILES; g++)
            if (strcmp(FILE_NAMES[g], FILE_NAMES[f]) == 0 && type_of_file(v->s, g) == type)
                due = (sj_found){.slot = file_slot(v, g)};
        sj_found found = sj_find(v->image, v->n, at_edge(1, name, letters), letters, (uint8_t)type);
        CHECK(found.refusal == due.refusal && found.place == 0 && found.slot == due.slot);
    }
}

/* A page of a file to an output that ends at a page which traps: the bytes that are due, the rest kept, the end where the file ends. */
static sj_paged page(const volume *v, int f, size_t offset, size_t size) {
    size_t left = FILE_LENGTHS[f] - offset;
    uint8_t *out = edge(0, size);
    memset(out, 0xA5, size);
    sj_paged p = sj_page(v->image, v->n, file_slot(v, f), offset, out, size);
    CHECK(p.refusal == 0 && p.place == 0 && p.count == (left < size ? left : size));
    CHECK(memcmp(out, v->contents[f] + offset, p.count) == 0);
    for (size_t i = p.count; i < size; i++)
        CHECK(out[i] == 0xA5);
    CHECK(p.end == (p.count == left));
    return p;
}

/* Pages of one size, each from where the last one stopped, join to the file; only the last says the end. */
static void download(const volume *v, int f, size_t size) {
    size_t sum = 0;
    for (bool end = false; !end;) {
        sj_paged p = page(v, f, sum, size);
        sum += p.count;
        end = p.end;
    }
    CHECK(sum == FILE_LENGTHS[f]);
}

/* Every small size about each edge of a block and the file's end. */
static void small_pages(const volume *v, int f) {
    size_t length = FILE_LENGTHS[f], most = 1024 * blocks_for(length);
    for (size_t at = 0; at <= most && at <= 8192; at += 1024)
        for (size_t offset = at < 3 ? 0 : at - 3; offset <= at + 3 && offset <= length; offset++)
            for (size_t size = 0; size <= 40; size++)
                page(v, f, offset, size);
    for (size_t size = 0; size <= 40; size++)
        page(v, f, length - (length < size ? length : size), size);
}

/* At the length there is nothing left but the end, past it nothing; outputs of nothing may be null. */
static void page_limits(const volume *v, int f) {
    size_t length = FILE_LENGTHS[f], slot = file_slot(v, f);
    uint8_t out[3] = {1, 2, 3};
    sj_paged p = sj_page(v->image, v->n, slot, length, out, 3);
    CHECK(p.refusal == 0 && p.count == 0 && p.end && out[0] == 1);
    p = sj_page(v->image, v->n, slot, length + 1, out, 3);
    CHECK(p.refusal == 17 && p.place == 0 && p.count == 0 && !p.end && out[0] == 1 && out[2] == 3);
    p = sj_page(v->image, v->n, slot, SIZE_MAX, out, 3);
    CHECK(p.refusal == 17 && p.place == 0 && p.count == 0 && !p.end && out[0] == 1 && out[2] == 3);
    p = sj_page(v->image, v->n, slot, 0, NULL, 0);
    CHECK(p.refusal == 0 && p.count == 0 && !p.end);
    p = sj_page(v->image, v->n, slot, length, NULL, 0);
    CHECK(p.refusal == 0 && p.count == 0 && p.end);
}

/* The blocks that hold a file, in its order, to outputs of every sort of room that end at a page which traps. */
static void file_blocks(const volume *v, int f) {
    size_t count = blocks_for(FILE_LENGTHS[f]), rooms[] = {0, count - 1, count, count + 1, 1600}, slot = file_slot(v, f);
    for (size_t k = 0; k < sizeof rooms / sizeof *rooms; k++) {
        uint16_t *out = (uint16_t *)(void *)edge(0, 2 * rooms[k]);
        memset(out, 0xA5, 2 * rooms[k]);
        sj_counted r = sj_blocks(v->image, v->n, slot, out, rooms[k]);
        bool room = rooms[k] >= count;
        CHECK(r.refusal == (room ? 0u : 21u) && r.place == 0 && r.count == (room ? count : 0));
        for (size_t i = 0; i < rooms[k]; i++)
            CHECK(out[i] == (i < r.count ? v->chains[f][i] : 0xA5A5));
    }
    CHECK(sj_blocks(v->image, v->n, slot, NULL, 0).refusal == 21);
    CHECK(sj_blocks(v->image, v->n, slot + 1, NULL, 0).refusal == 10 && sj_blocks(v->image, v->n, SIZE_MAX, NULL, 0).refusal == 10);
}

/* All calls but that for a page ask for nothing but the length and the head: what follows the head can't be touched here. */
static void head_only(const volume *v) {
    volume head = *v;
    size_t pages = 20480, room = pages + v->n, n = 1024 * (size_t)v->s->first;
    uint8_t *at = mmap(NULL, room, PROT_NONE, MAP_PRIVATE | MAP_ANONYMOUS, -1, 0);
    CHECK(at != MAP_FAILED && mprotect(at, pages, PROT_READ | PROT_WRITE) == 0);
    head.image = memcpy(at + pages - n, v->made, n);
    check_disk(&head);
    for (size_t slot = 0; slot < (size_t)v->s->slots + 6; slot++)
        list_slot(&head, slot);
    for (int f = 0; f < FILES; f++) {
        find_file(&head, f);
        file_blocks(&head, f);
    }
    CHECK(munmap(at, room) == 0);
}

/* For its pages a file's own blocks are enough besides: every other block is overwritten here. */
static void own_blocks(const volume *v, int f) {
    volume own = *v;
    uint16_t blocks[1600];
    own.image = guarded(v->n);
    memset(own.image, 0x5A, v->n);
    memcpy(own.image, v->made, 1024 * (size_t)v->s->first);
    size_t count = sj_blocks(own.image, v->n, file_slot(v, f), blocks, 1600).count;
    for (size_t k = 0; k < count; k++)
        memcpy(own.image + 1024 * (size_t)blocks[k], v->made + 1024 * (size_t)blocks[k], 1024);
    download(&own, f, 1000);
    release(own.image, v->n);
}

/* One call of any sort, such as may stand between a download's pages. */
static void other_call(const volume *v) {
    int f = (int)(next_random() % FILES);
    switch (next_random() % 5) {
    case 0:
        check_disk(v);
        break;
    case 1:
        list_slot(v, next_random() % ((unsigned)v->s->slots + 6));
        break;
    case 2:
        find_file(v, f);
        break;
    case 3:
        file_blocks(v, f);
        break;
    default:
        page(v, f, next_random() % (FILE_LENGTHS[f] + 1), next_random() % 3000);
    }
}

/* Every file is downloaded at once, a page of each in turn and other calls between: none may leave anything behind that a page sees. */
static void downloads_in_turn(const volume *v, size_t size) {
    size_t sums[FILES] = {0};
    bool ended[FILES] = {false};
    for (int open = FILES; open > 0;)
        for (int f = 0; f < FILES; f++) {
            if (ended[f])
                continue;
            sj_paged p = page(v, f, sums[f], size);
            sums[f] += p.count;
            ended[f] = p.end;
            open -= p.end;
            for (int k = (int)(next_random() % 4); k > 0; k--)
                other_call(v);
        }
    for (int f = 0; f < FILES; f++)
        CHECK(sums[f] == FILE_LENGTHS[f]);
}

static void whole_disk(const volume *v) {
    static const size_t sizes[] = {1, 7, 1000, 1023, 1024, 1025, 2047, 4096, 65536, 200000};
    uint8_t out[1] = {9};
    check_disk(v);
    head_only(v);
    for (size_t slot = 0; slot < (size_t)v->s->slots + 6; slot++)
        list_slot(v, slot);
    list_slot(v, SIZE_MAX - 1);
    for (int f = 0; f < FILES; f++) {
        find_file(v, f);
        find_types(v, f);
        file_blocks(v, f);
        own_blocks(v, f);
        page_limits(v, f);
        small_pages(v, f);
        for (size_t z = 0; z < sizeof sizes / sizeof *sizes; z++)
            if (FILE_LENGTHS[f] / sizes[z] < 5000)
                download(v, f, sizes[z]);
    }
    for (size_t z = 2; z < sizeof sizes / sizeof *sizes; z++)
        downloads_in_turn(v, sizes[z]);
    sj_found none = sj_find(v->image, v->n, NULL, 0, v->s->type);
    CHECK(none.refusal == 11 && none.place == 0 && none.slot == 0);
    CHECK(sj_page(v->image, v->n, 1, 0, out, 1).refusal == 10 && out[0] == 9);
    CHECK(sj_page(v->image, v->n, SIZE_MAX, SIZE_MAX, out, 1).refusal == 10 && out[0] == 9);
    CHECK(sj_list(v->image, v->n, SIZE_MAX).refusal == 10);
}

/* ---- every reading call on any bytes */

/* A name that is there, in any type: what is found has both, and an illegal type is 11. */
static void find_other(const uint8_t *image, size_t n, const sj_listed *l, size_t letters) {
    uint8_t type = (uint8_t)(l->type + next_random() % 4 - next_random() % 4);
    uint8_t first = letters == 10 ? 'A' : l->type < 128 ? 'a' : 193;
    sj_found f = sj_find(image, n, at_edge(1, l->name, letters), letters, type);
    CHECK(f.place == 0 && (f.refusal == 11) == (type < first || type > first + 25));
    if (f.refusal == 0) {
        sj_listed other = sj_list(image, n, f.slot);
        CHECK(other.refusal == 0 && other.type == type && memcmp(other.name, l->name, 12) == 0);
    } else {
        CHECK((f.refusal == 10 || f.refusal == 11) && f.slot == 0 && type != l->type);
    }
}

/* An accepted image: as many slots list as the check counted, each name is found by its type in its slot, each file ends at its length and has
 * the blocks that it needs, and these and the free ones make the data area. */
static void read_accepted(const uint8_t *image, size_t n, const sj_checked *c) {
    size_t files = 0, blocks = 0, letters = c->kind == 900 ? 10 : 12, slots = c->kind == 3000 ? 512 : 64;
    uint16_t own[1600];
    for (size_t slot = 0; slot < slots; slot++) {
        sj_listed l = sj_list(image, n, slot);
        CHECK(l.refusal == 0 || l.refusal == 10);
        if (l.refusal)
            continue;
        files++;
        sj_counted held = sj_blocks(image, n, slot, own, 1600);
        CHECK(held.refusal == 0 && held.count == blocks_for(l.length));
        blocks += held.count;
        sj_found f = sj_find(image, n, at_edge(1, l.name, letters), letters, l.type);
        CHECK(f.refusal == 0 && f.slot == slot);
        find_other(image, n, &l, letters);
        CHECK(sj_page(image, n, slot, l.length, NULL, 0).end && !sj_page(image, n, slot, 0, NULL, 0).end);
    }
    CHECK(files == c->files && blocks + c->free == (c->kind == 3000 ? 1583 : c->density ? 1595 : 796));
}

static void same_found(sj_found f, const sj_checked *c) { CHECK(f.refusal == c->refusal && f.place == c->place && f.slot == 0); }

static void same_counted(sj_counted r, const sj_checked *c) { CHECK(r.refusal == c->refusal && r.place == c->place && r.count == 0); }

static void same_paged(sj_paged p, const sj_checked *c) { CHECK(p.refusal == c->refusal && p.place == c->place && p.count == 0 && !p.end); }

/* A refused image: every call gives the check's refusal and place and nothing else, and keeps the output, whatever else it was lent. */
static void read_refused(const uint8_t *image, size_t n, const sj_checked *c) {
    static const uint8_t nothing[12];
    size_t slot = next_random() % 2 ? 9 * (next_random() % FILES) : next_random() % 518;
    size_t offset = next_random() % 2 ? 0 : next_random() % 5000, room = next_random() % 64;
    size_t named = next_random() % 4 ? 10 + 2 * (next_random() % 2) : next_random() % 14;
    char name[14];
    CHECK(c->kind == 0 && c->density == 0 && c->files == 0 && c->free == 0);
    sj_listed l = sj_list(image, n, slot);
    CHECK(l.refusal == c->refusal && l.place == c->place && l.type == 0 && l.length == 0 && memcmp(l.name, nothing, 12) == 0);
    snprintf(name, sizeof name, "%-13s", FILE_NAMES[next_random() % FILES]);
    same_found(sj_find(image, n, at_edge(1, name, named), named, random_type(&SHAPES[next_random() % KINDS])), c);
    same_found(sj_find(image, n, NULL, 0, 0), c);
    uint8_t *out = edge(0, room);
    memset(out, 7, room);
    same_paged(sj_page(image, n, slot, offset, out, room), c);
    same_counted(sj_blocks(image, n, slot, (uint16_t *)(void *)(out + room % 2), room / 2), c);
    for (size_t i = 0; i < room; i++)
        CHECK(out[i] == 7);
    same_paged(sj_page(image, n, slot, offset, NULL, 0), c);
    same_counted(sj_blocks(image, n, slot, NULL, 0), c);
}

/* Gives the check's answer, after every other call was held to it and the image's head was seen to be kept. */
static sj_checked read_any(const uint8_t *image, size_t n) {
    static uint8_t head[HEAD];
    size_t kept = n < HEAD ? n : HEAD;
    if (kept)
        memcpy(head, image, kept);
    sj_checked c = sj_check(image, n);
    CHECK(c.refusal <= 9);
    if (c.refusal)
        read_refused(image, n, &c);
    else
        read_accepted(image, n, &c);
    CHECK(kept == 0 || memcmp(head, image, kept) == 0);
    return c;
}

/* ---- faults made one by one */

static unsigned last_block(const volume *v, int f) { return v->chains[f][blocks_for(FILE_LENGTHS[f]) - 1]; }

static void set_start(uint8_t *e, unsigned block) {
    e[20] = (uint8_t)(block & 255);
    e[21] = (uint8_t)(block >> 8);
}

static void set_length(uint8_t *e, size_t length) {
    e[17] = (uint8_t)(length & 255);
    e[18] = (uint8_t)(length >> 8 & 255);
    e[19] = (uint8_t)(length >> 16);
}

/* Whether every call gives this answer on the disk as it stands; then it is made whole again. */
static bool answers(volume *v, uint32_t refusal, size_t place) {
    sj_checked c = read_any(v->image, v->n);
    memcpy(v->image, v->made, HEAD);
    return c.refusal == refusal && c.place == place;
}

static size_t later(const volume *v, int f, int g) { return file_slot(v, f > g ? f : g); }

/* 5: of two files of one name and type the later slot is the place, whichever has its own. In another type, here one that no file has, the name
 * is no repetition, and an empty slot has none. */
static void names_twice(volume *v) {
    for (int f = 0; f < FILES; f++)
        for (int g = 0; g < FILES; g++) {
            memmove(entry(v, g), entry(v, f), 17);
            CHECK(answers(v, f == g ? 0 : 5, f == g ? 0 : later(v, f, g)));
            memmove(entry(v, g), entry(v, f), 16);
            entry(v, g)[16] = first_type(v->s);
            CHECK(answers(v, 0, 0));
        }
    memcpy(entry(v, 2), entry(v, 5), 17);
    memcpy(entry(v, 4), entry(v, 5), 17);
    CHECK(answers(v, 5, file_slot(v, 4)));
    memcpy(v->image + slot_at(v->s, 1), entry(v, 3), 16);
    CHECK(answers(v, 0, 0));
}

/* Values that are neither a link nor the end mark: a free block's, the blocks next to the data area, a system block's, the other kind's
 * end mark, a slip of the source for the S1000's, the largest. */
enum { STRAY_VALUES = 7 };

static unsigned stray_value(const shape *s, int k) {
    unsigned values[STRAY_VALUES] = {0, (unsigned)s->first - 1, (unsigned)s->blocks, 16384, s->kind == 900 ? 49152 : 32768, 19152, 65535};
    return values[k];
}

/* 6: a start or, before the last block, a value that leads out of the data area. */
static void chains_left(volume *v) {
    for (int f = 0; f < FILES; f++) {
        set_start(entry(v, f), v->s->end);
        CHECK(answers(v, 6, file_slot(v, f)));
        for (int k = 0; k < STRAY_VALUES; k++) {
            set_start(entry(v, f), stray_value(v->s, k));
            CHECK(answers(v, 6, file_slot(v, f)));
            for (size_t i = 0; i + 1 < blocks_for(FILE_LENGTHS[f]); i++) {
                set_value(v->image, v->chains[f][i], stray_value(v->s, k));
                CHECK(answers(v, 6, file_slot(v, f)));
            }
        }
    }
}

/* 7: an end mark too early, or anything else where it is due. */
static void ends_misplaced(volume *v) {
    for (int f = 0; f < FILES; f++) {
        unsigned last = last_block(v, f), links[3] = {last, (unsigned)v->s->first, (unsigned)v->s->blocks - 1};
        for (int k = 0; k < STRAY_VALUES; k++) {
            set_value(v->image, last, stray_value(v->s, k));
            CHECK(answers(v, 7, file_slot(v, f)));
        }
        for (int k = 0; k < 3; k++) {
            set_value(v->image, last, links[k]);
            CHECK(answers(v, 7, file_slot(v, f)));
        }
        for (size_t i = 0; i + 1 < blocks_for(FILE_LENGTHS[f]); i++) {
            set_value(v->image, v->chains[f][i], v->s->end);
            CHECK(answers(v, 7, file_slot(v, f)));
        }
    }
}

/* 7 too: a length that needs more or fewer blocks than the chain has; lengths of the same number of blocks are as good as the file's own. */
static void lengths_misfit(volume *v) {
    for (int f = 0; f < FILES; f++) {
        size_t full = 1024 * blocks_for(FILE_LENGTHS[f]), lengths[4] = {full + 1, 16777215, full, full - 1023};
        for (int k = 0; k < 4; k++) {
            set_length(entry(v, f), lengths[k]);
            CHECK(answers(v, k < 2 ? 7 : 0, k < 2 ? file_slot(v, f) : 0));
        }
        if (full > 1024) {
            set_length(entry(v, f), full - 1024);
            CHECK(answers(v, 7, file_slot(v, f)));
        }
        set_length(entry(v, f), 16777215);
        set_value(v->image, last_block(v, f), v->chains[f][0]); /* round and round */
        CHECK(answers(v, 7, file_slot(v, f)));
    }
}

/* 8: one file begins on another's chain, at any of its blocks, or ends there; the later slot is the place. */
static void blocks_shared(volume *v) {
    for (int f = 0; f < FILES; f++)
        for (int g = 0; g < FILES; g++) {
            size_t count = blocks_for(FILE_LENGTHS[f]), own = blocks_for(FILE_LENGTHS[g]);
            for (size_t i = 0; i < count && f != g; i++) {
                set_start(entry(v, g), v->chains[f][i]);
                set_length(entry(v, g), 1024 * (count - i));
                CHECK(answers(v, 8, later(v, f, g)));
            }
            if (f != g && own > 1) {
                set_value(v->image, v->chains[g][own - 2], last_block(v, f));
                CHECK(answers(v, 8, later(v, f, g)));
            }
        }
    for (int g = 2; g < FILES; g += 2)
        memcpy(entry(v, g) + 17, entry(v, 1) + 17, 5);
    CHECK(answers(v, 8, file_slot(v, 2)));
}

/* ---- two faults at once */

/* Makes a fault of a number with file f, which isn't file 0; gives its place. */
static size_t make_fault(volume *v, uint32_t number, int f) {
    uint8_t *e = entry(v, f);
    unsigned system = (unsigned)(f % v->s->first), stray = scattered(v->s, v->used + (size_t)f);
    switch (number) {
    case 2:
        if (v->s->kind == 3000)
            v->image[16] = 0; /* the first directory counts */
        v->image[24 * 9 * f + 22] = 1;
        return 0;
    case 3:
        set_value(v->image, system, 16385);
        return system;
    case 4:
        e[16] = 1;
        break;
    case 5:
        memcpy(e, entry(v, 0), 17);
        break;
    case 6:
        set_start(e, 0);
        break;
    case 7:
        set_value(v->image, last_block(v, f), 0);
        break;
    case 8:
        memcpy(e + 17, entry(v, 0) + 17, 5);
        break;
    default:
        set_value(v->image, stray, v->s->end);
        return stray;
    }
    return file_slot(v, f);
}

/* The number that is asked first is given; 6 and 7 are asked together, and of two alike the lower place is given. */
static void both_faults(volume *v, uint32_t a, int f, uint32_t b, int g) {
    size_t at = make_fault(v, a, f), other = make_fault(v, b, g);
    bool alike = a == b || (a == 6 && b == 7), first = !alike || at <= other;
    CHECK(answers(v, first ? a : b, first ? at : other));
}

/* Every two numbers with every two files, and every one alone; on S900 disks there is no 3, and 2 on S3000 disks is another kind's. */
static void two_faults(volume *v) {
    for (uint32_t a = 2; a <= 9; a++)
        for (uint32_t b = a; b <= 9; b++)
            for (int f = 1; f < FILES; f++)
                for (int g = 1; g < FILES; g++)
                    if ((f != g || a == b) && (v->s->kind != 900 || (a != 3 && b != 3)))
                        both_faults(v, a, f, b, g);
}

/* ---- damage at random */

/* One to three changes each time; every refusal that a disk of this length can get is met. */
static void random_damage(volume *v) {
    size_t met[10] = {0};
    for (int turn = 0; turn < 3000; turn++) {
        for (int k = turn % 3; k >= 0; k--)
            damage(v);
        met[read_any(v->image, v->n).refusal]++;
        memcpy(v->image, v->made, HEAD);
    }
    all_met(v->s, met);
}

/* ---- other lengths, and noise */

/* Lengths about both legal ones: the disk is cut there, or filled up to there. */
static void cut_disk(const volume *v) {
    static const size_t legal[] = {819200, 1638400};
    for (int z = 0; z < 2; z++)
        for (size_t n = legal[z] - 3; n <= legal[z] + 3; n++) {
            uint8_t *image = guarded(n);
            memset(image, 0xE5, n);
            memcpy(image, v->made, n < v->n ? n : v->n);
            sj_checked c = read_any(image, n);
            CHECK((c.refusal == 1) == (n != legal[z]) && (c.refusal != 1 || c.place == 0));
            CHECK(n != v->n || c.refusal == 0);
            release(image, n);
        }
}

static void fill(uint8_t *image, size_t n) {
    for (size_t i = 0; i < n; i++)
        image[i] = (uint8_t)next_random();
}

/* Noise of both legal lengths, then with the identities and the system values put right, so that the rules after them are asked as well. */
static void legal_noise(const shape *s) {
    size_t n = 1024 * (size_t)s->blocks;
    uint8_t *image = guarded(n);
    fill(image, n);
    image[16] = 1;
    sj_checked c = read_any(image, n);
    CHECK(c.refusal == 2 && c.place == 0);
    for (int slot = 0; slot < 64; slot++) {
        image[24 * slot + 22] = 0;
        image[24 * slot + 23] = s->kind == 900 ? 0 : 3;
    }
    image[16] = s->kind == 3000 ? 255 : 1; /* asked before the identities */
    c = read_any(image, n);
    CHECK(c.refusal == (s->kind == 900 ? 4u : 3u));
    for (int block = 0; block < s->first; block++)
        set_value(image, (unsigned)block, 16384);
    CHECK(read_any(image, n).refusal == 4);
    release(image, n);
}

static void noise(void) {
    CHECK(read_any(NULL, 0).refusal == 1);
    for (size_t n = 1; n < 6000; n += 61) {
        uint8_t *image = guarded(n);
        fill(image, n);
        CHECK(read_any(image, n).refusal == 1);
        release(image, n);
    }
    for (int k = 0; k < 3 * KINDS; k++)
        legal_noise(&SHAPES[k % KINDS]);
}

int main(void) {
    for (int k = 0; k < 2 * KINDS; k++) {
        volume v;
        make_volume(&v, &SHAPES[k % KINDS], k >= KINDS);
        whole_disk(&v);
        names_twice(&v);
        chains_left(&v);
        ends_misplaced(&v);
        lengths_misfit(&v);
        blocks_shared(&v);
        two_faults(&v);
        random_damage(&v);
        cut_disk(&v);
        CHECK(memcmp(v.image, v.made, v.n) == 0);
        drop_volume(&v);
    }
    noise();
    puts("c_read: ok");
    return 0;
}
