/* S3000 disks from C, byte by byte: what tells them, the rules of a used slot and of the system blocks, what put writes and remove leaves, the
 * first directory that nothing reads or writes, and the last of 512 slots. */
#include "disks.h"
#include "skilletjay.h"

enum { N = 1638400, LOW = 819200, DIRECTORY = 5120, DATA = 17408, ALL = 512, FREE = 1583 };

static const shape *const S = &SHAPES[4];

static uint8_t *image, *due; /* at a page that can't be touched, and what it has to be */

/* ---- what is held to what */

static uint8_t *entry(uint8_t *of, int slot) { return of + DIRECTORY + 24 * slot; }

static void same_image(void) { CHECK(memcmp(image, due, N) == 0); }

static void accepted(size_t files, size_t free) {
    sj_checked c = sj_check(image, N);
    CHECK(c.refusal == 0 && c.place == 0 && c.kind == 3000 && c.density == 1 && c.files == files && c.free == free);
}

/* Every call but salvage refuses the image by this number and place, and keeps all that it is lent. */
static void refused(uint8_t *of, size_t n, uint32_t number, size_t place) {
    static const uint8_t name[12] = "A           ", content[1] = {1};
    uint8_t out[4] = {9, 9, 9, 9};
    uint16_t blocks[2] = {9, 9};
    sj_checked c = sj_check(of, n);
    CHECK(c.refusal == number && c.place == place && c.kind == 0 && c.density == 0 && c.files == 0 && c.free == 0);
    sj_listed l = sj_list(of, n, 0);
    CHECK(l.refusal == number && l.place == place);
    sj_found f = sj_find(of, n, name, 12, 211);
    CHECK(f.refusal == number && f.place == place);
    f = sj_put(of, n, name, 12, 211, content, 1);
    CHECK(f.refusal == number && f.place == place);
    sj_paged p = sj_page(of, n, 0, 0, out, 4);
    CHECK(p.refusal == number && p.place == place && out[0] == 9);
    sj_counted b = sj_blocks(of, n, 0, blocks, 2);
    CHECK(b.refusal == number && b.place == place && blocks[0] == 9);
    sj_done r = sj_remove(of, n, name, 12, 211);
    CHECK(r.refusal == number && r.place == place);
}

/* A disk without files, all noise but for what is read; what is due is the same. */
static void make_disk(void) {
    make_blank(image, S);
    make_noise(image, S);
    memcpy(due, image, N);
}

/* Adds a file of one block to the image and to what is due. */
static void add_block(int slot, const char *name, unsigned block) {
    static const uint8_t content[1] = {7};
    add_file(image, S, slot, name, &block, content, 1);
    memcpy(due, image, N);
}

/* One byte of the image is another: the image is refused so. Then the byte is as it was. */
static void byte_refused(size_t at, uint8_t value, uint32_t number, size_t place) {
    uint8_t was = image[at];
    image[at] = value;
    refused(image, N, number, place);
    image[at] = was;
    same_image();
}

/* ---- what tells an S3000 disk */

/* Every value of byte 16 but 255 makes the first directory the one that counts: its identities, none that a kind has, are refused. */
static void one_byte_tells(void) {
    make_disk();
    accepted(0, FREE);
    for (int value = 0; value < 255; value++)
        byte_refused(16, (uint8_t)value, 2, 0);
    refused(image, N - 1, 1, 0);
    refused(image + 1, N - 1, 1, 0);
    same_image();
}

/* It is asked before the identities: those of an S1000 or an S900 all over, and even files there, change nothing. */
static void before_identities(void) {
    make_disk();
    for (int kind = 0; kind < 2; kind++) {
        for (int slot = 0; slot < 64; slot++) {
            image[24 * slot + 22] = 0;
            image[24 * slot + 23] = kind ? 3 : 0;
        }
        accepted(0, FREE);
        image[16] = 1; /* else it is a disk of that kind, and its slot 0 malformed; block 5 is past an S1000's system blocks */
        refused(image, N, 4, 0);
        memset(image, 0, 24);
        image[23] = kind ? 3 : 0;
        for (int slot = 0; slot < 64; slot++)
            image[24 * slot + 16] = 0;
        refused(image, N, 9, 5);
        image[16] = 255;
    }
    accepted(0, FREE);
}

/* No disk of low density is an S3000's, whatever its identities and system values. */
static void low_density(void) {
    uint8_t *low = guarded(LOW), report[ALL];
    for (int k = 0; k < 3; k++) {
        make_blank(low, &SHAPES[k == 2 ? 0 : 2 * k]);
        for (unsigned block = 0; k == 2 && block < 17; block++)
            set_value(low, block, 16384);
        low[16] = 255;
        refused(low, LOW, 2, 0);
        memset(report, 9, sizeof report);
        sj_counted r = sj_salvage(low, LOW, report, sizeof report);
        CHECK(r.refusal == 2 && r.place == 0 && r.count == 0 && report[0] == 9 && low[16] == 255);
    }
    release(low, LOW);
}

/* An S900 or S1000 disk of high density that says so lacks system blocks: 3 at the first that isn't marked. */
static void other_kinds(void) {
    for (int k = 1; k < 4; k += 2) {
        make_blank(image, &SHAPES[k]);
        image[16] = 255;
        for (unsigned block = k == 1 ? 0 : 5; block < 17; block++) {
            refused(image, N, 3, block);
            set_value(image, block, 16384);
        }
        memset(image + DIRECTORY, 0, DATA - DIRECTORY);
        accepted(0, FREE);
    }
}

/* ---- what is read of it */

/* What no rule reads: every byte of the first directory but one, of the label, of empty slots but their types. */
static void unread_bytes(void) {
    make_disk();
    add_block(511, "LAST", 1599);
    for (size_t at = 0; at < DATA; at++) {
        bool read = at == 16 || (at >= 1536 && at < 4736) || at >= DIRECTORY + 24 * 511;
        if (read || (at >= DIRECTORY && (at - DIRECTORY) % 24 == 16))
            continue;
        image[at] ^= (uint8_t)(1 + next_random() % 255);
        if (at % 11 == 0)
            accepted(1, FREE - 1);
    }
    accepted(1, FREE - 1);
}

/* The calls that read ask for the length and the first 17,408 bytes alone, and a page for its file's blocks besides. */
static void head_only(void) {
    size_t pages = 20480, last = 1599 * 1024;
    make_disk();
    add_block(511, "LAST", 1599);
    uint8_t *at = mmap(NULL, pages + N, PROT_NONE, MAP_PRIVATE | MAP_ANONYMOUS, -1, 0), byte = 0;
    CHECK(at != MAP_FAILED && mprotect(at, pages, PROT_READ | PROT_WRITE) == 0);
    const uint8_t *head = memcpy(at + pages - DATA, image, DATA);
    uint16_t block = 0;
    CHECK(sj_check(head, N).files == 1 && sj_list(head, N, 511).length == 1 && sj_list(head, N, 0).refusal == 10);
    CHECK(sj_find(head, N, (const uint8_t *)"last        ", 12, 211).slot == 511);
    CHECK(sj_blocks(head, N, 511, &block, 1).count == 1 && block == 1599);
    size_t from = (pages - DATA + last) / 4096 * 4096;
    CHECK(mprotect(at + from, 8192, PROT_READ | PROT_WRITE) == 0);
    at[pages - DATA + last] = 42;
    sj_paged p = sj_page(head, N, 511, 0, &byte, 1);
    CHECK(p.refusal == 0 && p.count == 1 && p.end && byte == 42);
    CHECK(munmap(at, pages + N) == 0);
}

/* ---- the rules */

/* 3: each of the 17 system blocks, and the lowest of several. A value of 16,384 in the 18th is a stray. */
static void system_blocks(void) {
    static const unsigned values[] = {0, 1, 17, 16383, 16385, 49152, 65535};
    make_disk();
    for (unsigned block = 0; block < 17; block++)
        for (size_t k = 0; k < sizeof values / sizeof *values; k++) {
            set_value(image, block, values[k]);
            set_value(image, 16, k % 2 ? values[k] : get_value(image, 16));
            refused(image, N, 3, block);
            memcpy(image, due, HEAD);
        }
    set_value(image, 17, 16384);
    refused(image, N, 9, 17);
}

/* 4: every value of every byte of a used slot that has a rule of its own. */
static void slot_bytes(int slot) {
    make_disk();
    add_block(slot, "BASS C", 17);
    size_t at = DIRECTORY + 24 * (size_t)slot;
    for (size_t i = 0; i < 24; i++)
        for (int value = 0; value < 256; value++) {
            bool letter = i < 12 && value <= 40, padded = i >= 12 && i < 16 && value == (i == 15 ? 2 : 0);
            bool type = i == 16 && value >= 193 && value <= 218, own = i >= 22 && value == (i == 23 ? 12 : 0);
            if ((i >= 17 && i < 22) || (i == 16 && value == 0))
                continue;
            if (letter || padded || type || own) {
                image[at + i] = (uint8_t)value;
                accepted(1, FREE - 1);
                memcpy(image, due, HEAD);
            } else {
                byte_refused(at + i, (uint8_t)value, 4, (size_t)slot);
            }
        }
    byte_refused(at + 16, 0, 9, 17);             /* empty: its block is a stray */
    byte_refused(at + 17, 0, 4, (size_t)slot);   /* a length of 0 */
    byte_refused(at + 18, 4, 7, (size_t)slot);   /* of 1,025 */
    byte_refused(at + 20, 16, 6, (size_t)slot);  /* a start of 16 */
    byte_refused(at + 20, 18, 7, (size_t)slot);  /* a free block */
    byte_refused(at + 21, 255, 6, (size_t)slot); /* none */
}

/* Which is asked first, and which of two slots is the place: a wrong identity is 4 like any malformed slot. */
static void order_of_rules(void) {
    make_disk();
    add_block(70, "A", 17);
    add_block(511, "B", 18);
    entry(image, 511)[23] = 3;
    refused(image, N, 4, 511);
    memcpy(entry(image, 70) + 20, "\0", 2); /* 6 in a lower slot */
    refused(image, N, 4, 511);
    entry(image, 70)[22] = 12;
    refused(image, N, 4, 70);
    set_value(image, 16, 0);
    refused(image, N, 3, 16);
    memcpy(image, due, HEAD);
    memcpy(entry(image, 511), entry(image, 70), 16);
    refused(image, N, 5, 511);
    entry(image, 511)[16] = 208; /* the name in another type */
    accepted(2, FREE - 2);
    memcpy(image, due, HEAD);
    memcpy(entry(image, 511) + 20, entry(image, 70) + 20, 2);
    refused(image, N, 8, 511);
    memcpy(image, due, HEAD);
    set_value(image, 18, 32768); /* an S900's end mark */
    refused(image, N, 7, 511);
}

/* ---- put and remove */

static sj_found put(const char *name, uint8_t type, size_t length) {
    static uint8_t content[FREE * 1024 + 1];
    memset(content, 0x77, length);
    return sj_put(image, N, at_edge(1, name, 12), 12, type, at_edge(0, content, length), length);
}

/* The 24 bytes of a slot that put has to write, its blocks' map values and what they hold. */
static void due_file(int slot, const char *codes, uint8_t type, size_t length, unsigned first) {
    const uint8_t numbers[5] = {(uint8_t)length, (uint8_t)(length >> 8), (uint8_t)(length >> 16), (uint8_t)first, (uint8_t)(first >> 8)};
    size_t count = (length + 1023) / 1024;
    uint8_t *e = entry(due, slot);
    memcpy(e, codes, 12);
    memcpy(e + 12, "\0\0\0\2", 4);
    e[16] = type;
    memcpy(e + 17, numbers, 5);
    memcpy(e + 22, "\0\14", 2);
    for (size_t k = 0; k < count; k++)
        set_value(due, first + (unsigned)k, k + 1 < count ? first + (unsigned)k + 1 : 49152);
    memset(due + 1024 * (size_t)first, 0, 1024 * count);
    memset(due + 1024 * (size_t)first, 0x77, length);
}

/* A slot's 24 bytes over whatever stood there, and no byte of anything else; the identity stays when the file goes. */
static void put_and_remove(void) {
    make_disk();
    memset(entry(image, 0), 0xEE, 24);
    entry(image, 0)[16] = 0;
    memcpy(due, image, N);
    CHECK(put("Bass c2     ", 211, 1025).slot == 0);
    due_file(0, "\14\13\35\35\12\15\2\12\12\12\12\12", 211, 1025, 17);
    same_image();
    CHECK(put("STRING #+-. ", 208, 5).slot == 1);
    due_file(1, "\35\36\34\23\30\21\12\45\46\47\50\12", 208, 5, 19);
    same_image();
    sj_listed l = sj_list(image, N, 0);
    CHECK(l.refusal == 0 && l.type == 211 && l.length == 1025 && memcmp(l.name, "BASS C2     ", 12) == 0);
    CHECK(sj_remove(image, N, (const uint8_t *)"bass C2     ", 12, 211).refusal == 0);
    memset(entry(due, 0), 0, 22);
    set_value(due, 17, 0);
    set_value(due, 18, 0);
    same_image();
    CHECK(entry(image, 0)[23] == 12);
    CHECK(put("NEW         ", 193, 1024).slot == 0);
    due_file(0, "\30\17\41\12\12\12\12\12\12\12\12\12", 193, 1024, 17);
    same_image();
    accepted(2, FREE - 2);
}

/* The type is the byte itself: 83 isn't 211. No illegal type or name is put, found or removed, and nothing changes. */
static void types(void) {
    const uint8_t *name = (const uint8_t *)"type        ";
    make_disk();
    for (int type = 0; type < 256; type++) {
        sj_found f = put("TYPE        ", (uint8_t)type, 1);
        bool legal = type >= 193 && type <= 218;
        CHECK(f.refusal == (legal ? 0u : 11u) && f.place == 0 && f.slot == 0);
        CHECK(!legal || sj_list(image, N, 0).type == type);
        CHECK(sj_find(image, N, name, 12, (uint8_t)type).refusal == (legal ? 0u : 11u));
        CHECK(sj_remove(image, N, name, 12, (uint8_t)type).refusal == (legal ? 0u : 11u));
        if (!legal)
            CHECK(sj_check(image, N).files == 0);
    }
    memcpy(due + DIRECTORY, "\0\0\0\0\0\0\0\0\0\0\0\0\0\0\0\0\0\0\0\0\0\0\0\14", 24);
    memset(due + 1024 * 17, 0, 1024);
    due[1024 * 17] = 0x77;
    same_image();
}

/* The data area has 1,583 blocks: a file may have them all, and no byte more. */
static void whole_data_area(void) {
    uint16_t *blocks = (uint16_t *)(void *)edge(2, 2 * FREE);
    make_disk();
    CHECK(put("ALL         ", 211, 1024 * FREE + 1).refusal == 15);
    same_image();
    CHECK(put("ALL         ", 211, 1024 * FREE).refusal == 0);
    due_file(0, "\13\26\26\12\12\12\12\12\12\12\12\12", 211, 1024 * FREE, 17);
    same_image();
    accepted(1, 0);
    CHECK(sj_blocks(image, N, 0, blocks, FREE - 1).refusal == 21 && sj_blocks(image, N, 0, blocks, FREE).count == FREE);
    for (int k = 0; k < FREE; k++)
        CHECK(blocks[k] == 17 + k);
    CHECK(put("ONE         ", 211, 1).refusal == 15);
    same_image();
}

/* ---- all 512 slots */

static void name_of(int slot, char *name) { snprintf(name, 13, "FILE %-7u", (unsigned)slot % ALL); }

static uint8_t type_of(int slot) { return (uint8_t)(193 + slot % 26); }

/* Fills every slot in rising order; the next put is refused by 14, one of a name that is there in its type by 12. */
static void fill_slots(void) {
    char name[13];
    make_disk();
    for (int slot = 0; slot < ALL; slot++) {
        name_of(slot, name);
        CHECK(put(name, type_of(slot), 1 + (size_t)slot).slot == (size_t)slot);
    }
    accepted(ALL, FREE - ALL);
    memcpy(due, image, N);
    sj_found f = put("ONE MORE    ", 211, 1);
    CHECK(f.refusal == 14 && f.place == 0 && f.slot == 0);
    f = put("file 511    ", type_of(511), 1);
    CHECK(f.refusal == 12 && f.place == 511 && f.slot == 0);
    f = put("file 511    ", type_of(512), 1);
    CHECK(f.refusal == 14 && f.place == 0 && f.slot == 0);
    same_image();
}

/* Every slot lists, is found, pages and has its block; what is past the last is no slot. */
static void read_slots(void) {
    static const size_t none[] = {512, 513, 1024, 65536, SIZE_MAX};
    char name[13];
    uint8_t out[600];
    uint16_t block;
    for (int slot = 0; slot < ALL; slot++) {
        name_of(slot, name);
        sj_listed l = sj_list(image, N, (size_t)slot);
        CHECK(l.refusal == 0 && memcmp(l.name, name, 12) == 0 && l.type == type_of(slot) && l.length == 1 + (size_t)slot);
        CHECK(sj_find(image, N, at_edge(1, name, 12), 12, type_of(slot)).slot == (size_t)slot);
        sj_paged p = sj_page(image, N, (size_t)slot, 0, out, sizeof out);
        CHECK(p.refusal == 0 && p.count == 1 + (size_t)slot && p.end && out[slot] == 0x77);
        CHECK(sj_blocks(image, N, (size_t)slot, &block, 1).count == 1 && block == 17 + slot);
    }
    for (size_t k = 0; k < sizeof none / sizeof *none; k++) {
        CHECK(sj_list(image, N, none[k]).refusal == 10 && sj_page(image, N, none[k], 0, out, 1).refusal == 10);
        CHECK(sj_blocks(image, N, none[k], &block, 1).refusal == 10);
    }
}

/* The last slot is emptied and used again, then one in the middle. */
static void reuse_slots(void) {
    for (int slot = 511; slot > 0; slot -= 255) {
        char name[13];
        uint8_t type = type_of(slot);
        name_of(slot, name);
        CHECK(sj_remove(image, N, at_edge(1, name, 12), 12, type).refusal == 0);
        memset(entry(due, slot), 0, 22);
        set_value(due, 17 + (unsigned)slot, 0);
        same_image();
        CHECK(sj_list(image, N, (size_t)slot).refusal == 10 && sj_find(image, N, at_edge(1, name, 12), 12, type).refusal == 10);
        CHECK(put("AGAIN       ", 211, 3).slot == (size_t)slot);
        due_file(slot, "\13\21\13\23\30\12\12\12\12\12\12\12", 211, 3, 17 + (unsigned)slot);
        same_image();
        CHECK(sj_remove(image, N, (const uint8_t *)"AGAIN       ", 12, 211).refusal == 0 && put(name, type, 3).slot == (size_t)slot);
        memcpy(due, image, N);
    }
}

/* ---- scripts */

static void set_number(uint8_t *at, size_t value) {
    for (int i = 0; i < 4; i++)
        at[i] = (uint8_t)(value >> 8 * i);
}

/* One entry: byte 0, byte 1, and the four numbers after them. */
static void set_entry(uint8_t *e, int call, int type, size_t a, size_t b, size_t c, size_t d) {
    memset(e, 0, 20);
    e[0] = (uint8_t)call;
    e[1] = (uint8_t)type;
    set_number(e + 4, a);
    set_number(e + 8, b);
    set_number(e + 12, c);
    set_number(e + 16, d);
}

/* Put with 211 and with 83, a list of slots 511 and 512, a page; a find with 211, 208 and 83, and a removal. */
static void script(void) {
    enum { CALLS = 9, PART = 1044 };
    static const uint8_t pool[] = "Script      content";
    static const uint8_t replies[CALLS][7] = {{[3] = 255, 1}, {11}, {[3] = 7, [6] = 211}, {10}, {[3] = 7}, {[3] = 255, 1}, {10}, {11}, {0}};
    uint8_t entries[20 * CALLS], *out = edge(2, PART * CALLS);
    make_disk();
    for (int slot = 0; slot < ALL; slot++)
        if (slot != 511)
            add_block(slot, (char[]){(char)('A' + slot % 26), (char)('A' + slot / 26), 0}, 17 + (unsigned)slot);
    set_entry(entries, 4, 211, 0, 12, 12, 7);
    set_entry(entries + 20, 4, 83, 0, 12, 12, 7);
    set_entry(entries + 40, 0, 0, 511, 0, 0, 0);
    set_entry(entries + 60, 0, 0, 512, 0, 0, 0);
    set_entry(entries + 80, 1, 0, 511, 0, 0, 0);
    set_entry(entries + 100, 2, 211, 0, 12, 0, 0);
    set_entry(entries + 120, 2, 208, 0, 12, 0, 0);
    set_entry(entries + 140, 2, 83, 0, 12, 0, 0);
    set_entry(entries + 160, 3, 211, 0, 12, 0, 0);
    CHECK(sj_run(image, N, at_edge(0, entries, sizeof entries), sizeof entries, at_edge(1, pool, 19), 19, out, PART * CALLS) == CALLS);
    for (int k = 0; k < CALLS; k++)
        CHECK(memcmp(out + PART * k, replies[k], 7) == 0);
    CHECK(memcmp(out + 2 * PART + 8, "SCRIPT      ", 12) == 0 && memcmp(out + 4 * PART + 20, "content", 7) == 0 && out[4 * PART + 7] == 1);
    memset(entry(due, 511), 0, 24);
    entry(due, 511)[23] = 12;
    memset(due + 1024 * (17 + 511), 0, 1024);
    memcpy(due + 1024 * (17 + 511), "content", 7);
    same_image();
}

/* ---- salvage */

/* 21 up to 511 bytes of report, none with 512; what is past those is kept. */
static void reports(void) {
    static const size_t rooms[] = {0, 1, 63, 64, 65, 511, 512, 513, 4096};
    make_disk();
    add_block(511, "LAST", 17);
    for (size_t k = 0; k < sizeof rooms / sizeof *rooms; k++) {
        uint8_t *report = edge(0, rooms[k]);
        memset(report, 9, rooms[k]);
        sj_counted r = sj_salvage(image, N, report, rooms[k]);
        bool room = rooms[k] >= ALL;
        CHECK(r.refusal == (room ? 0u : 21u) && r.place == 0 && r.count == 0);
        for (size_t i = 0; i < rooms[k]; i++)
            CHECK(report[i] == (!room || i >= ALL ? 9 : i == 511));
        same_image();
    }
}

/* What the report says of a slot, once the image is mended to what is due with so many map values changed. */
static void mends(size_t count, const int (*told)[2], int slots) {
    uint8_t *report = edge(0, ALL), want[ALL] = {0};
    for (int k = 0; k < slots; k++)
        want[told[k][0]] = (uint8_t)told[k][1];
    sj_counted r = sj_salvage(image, N, report, ALL);
    CHECK(r.refusal == 0 && r.place == 0 && r.count == count && memcmp(report, want, ALL) == 0);
    same_image();
    CHECK(sj_check(image, N).refusal == 0);
    CHECK(sj_salvage(image, N, report, ALL).count == 0);
    same_image();
}

/* All 17 system values are set, a dropped slot keeps its identity, and what is freed is freed. */
static void mended(void) {
    static const int told[][2] = {{3, 1}, {64, 4}, {200, 5}, {300, 6}, {400, 8}, {510, 7}, {511, 1}};
    make_disk();
    add_block(3, "A", 17);
    add_block(64, "B", 18);
    add_block(200, "A", 19);
    add_block(300, "C", 20);
    add_block(510, "E", 22);
    add_block(511, "F", 23);
    add_block(400, "D", 17); /* the block of slot 3 */
    for (unsigned block = 0; block < 17; block++)
        set_value(image, block, block % 2 ? 0 : 16385);
    entry(image, 64)[23] = 11; /* kept as it is */
    entry(image, 300)[20] = 16;
    set_value(image, 22, 16384);
    set_value(image, 1599, 49152);
    memcpy(due, image, N);
    for (unsigned block = 0; block < 17; block++)
        set_value(due, block, 16384);
    for (int k = 0; k < 7; k++)
        if (told[k][1] > 1)
            memset(entry(due, told[k][0]), 0, 22);
    for (unsigned block = 18; block < 1600; block++)
        set_value(due, block, block == 23 ? 49152 : 0);
    mends(17 + 5, told, 7);
    CHECK(entry(image, 64)[23] == 11 && entry(image, 200)[23] == 12);
}

int main(void) {
    image = guarded(N);
    due = malloc(N);
    CHECK(due);
    one_byte_tells();
    before_identities();
    low_density();
    other_kinds();
    unread_bytes();
    head_only();
    system_blocks();
    for (int slot = 0; slot < ALL; slot += 73)
        slot_bytes(slot);
    order_of_rules();
    put_and_remove();
    types();
    whole_data_area();
    fill_slots();
    read_slots();
    reuse_slots();
    script();
    reports();
    mended();
    free(due);
    release(image, N);
    puts("c_s3000: ok");
    return 0;
}
