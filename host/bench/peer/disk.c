/* The disk rules of document 01, and of document 02's requests five and six, by hand in plain C: what the library's check, find, put, remove and
 * salvage are timed against. Each function has the signature of the library's. */
#include "skilletjay.h"

#include <string.h>

enum { BLOCK = 1024, FEW_SLOTS = 64, MOST_SLOTS = 512, ENTRY = 24, MAP_AT = 1536, SYSTEM = 16384, MOST_BLOCKS = 1600, LONGEST = 16777215 };

/* The bytes at a slot's front by which its file is known: those of its name, and the type. */
enum { KNOWN = 17 };

typedef struct {
    unsigned kind, density;
    size_t blocks, first, slots, directory, end_mark, letters;
    uint8_t low, high, pad, last, least, most; /* the last byte of a name's area is no padding */
    size_t identity;
} layout;

typedef struct {
    uint32_t number; /* 0: none */
    size_t place;
} fault;

static size_t number2(const uint8_t *p) { return p[0] | (size_t)p[1] << 8; }

static size_t number3(const uint8_t *p) { return number2(p) | (size_t)p[2] << 16; }

static void store2(uint8_t *p, size_t value) {
    p[0] = (uint8_t)value;
    p[1] = (uint8_t)(value >> 8);
}

static size_t value_at(const uint8_t *image, size_t block) { return number2(image + MAP_AT + 2 * block); }

static void set_value(uint8_t *image, size_t block, size_t value) { store2(image + MAP_AT + 2 * block, value); }

static size_t slot_at(const layout *disk, size_t slot) { return disk->directory + ENTRY * slot; }

static bool is_used(const uint8_t *entry) { return entry[16] != 0; }

/* Whether a slot has the name and the type of one that is used. The type is asked for first: an empty slot has another. */
static bool is_same(const uint8_t *entry, const uint8_t *used) { return entry[16] == used[16] && memcmp(entry, used, 16) == 0; }

static bool is_link(const layout *disk, size_t value) { return disk->first <= value && value < disk->blocks; }

static size_t blocks_for(size_t length) { return (length + BLOCK - 1) / BLOCK; }

static bool is_akaii(const layout *disk) { return disk->kind != 900; }

static bool all_identities(const uint8_t *image, size_t identity) {
    for (int slot = 0; slot < FEW_SLOTS; slot++)
        if (number2(image + ENTRY * slot + 22) != identity)
            return false;
    return true;
}

/* Refusals 1 and 2. */
static fault read_layout(const uint8_t *image, size_t length, layout *disk) {
    bool high = length == 1638400;
    if (!high && length != 819200)
        return (fault){1, 0};
    size_t blocks = high ? 1600 : 800, first = high ? 5 : 4;
    if (image[16] == 255) {
        *disk = (layout){3000, high, blocks, 17, MOST_SLOTS, 5120, 49152, 12, 0, 40, 0, 2, 'A' + 128, 'Z' + 128, 0xC00};
        return (fault){high ? 0 : 2, 0};
    }
    if (all_identities(image, 0))
        *disk = (layout){900, high, blocks, first, FEW_SLOTS, 0, 32768, 10, 32, 126, 0, 0, 'A', 'Z', 0};
    else if (all_identities(image, 0x300))
        *disk = (layout){1000, high, blocks, first, FEW_SLOTS, 0, 49152, 12, 0, 40, 32, 32, 'a', 'z', 0x300};
    else
        return (fault){2, 0};
    return (fault){0, 0};
}

static fault system_fault(const uint8_t *image, const layout *disk) {
    if (is_akaii(disk))
        for (size_t block = 0; block < disk->first; block++)
            if (value_at(image, block) != SYSTEM)
                return (fault){3, block};
    return (fault){0, 0};
}

static bool is_well_formed(const uint8_t *entry, const layout *disk) {
    for (size_t i = 0; i < disk->letters; i++)
        if (entry[i] < disk->low || entry[i] > disk->high)
            return false;
    for (size_t i = disk->letters; i < 15; i++)
        if (entry[i] != disk->pad)
            return false;
    return entry[15] == disk->last && disk->least <= entry[16] && entry[16] <= disk->most && number3(entry + 17) >= 1
           && number2(entry + 22) == disk->identity;
}

static fault form_fault(const uint8_t *image, const layout *disk) {
    for (size_t slot = 0; slot < disk->slots; slot++) {
        const uint8_t *entry = image + slot_at(disk, slot);
        if (is_used(entry) && !is_well_formed(entry, disk))
            return (fault){4, slot};
    }
    return (fault){0, 0};
}

static fault pair_fault(const uint8_t *image, const layout *disk) {
    const uint8_t *first = image + disk->directory;
    for (size_t slot = 1; slot < disk->slots; slot++) {
        const uint8_t *entry = image + slot_at(disk, slot);
        if (!is_used(entry))
            continue;
        for (const uint8_t *lower = first; lower < entry; lower += ENTRY)
            if (is_same(lower, entry))
                return (fault){5, slot};
    }
    return (fault){0, 0};
}

/* The top bits of products, which all bytes of a name and the type take part in. */
static inline size_t hash(const uint8_t *entry, unsigned bits) {
    uint64_t half[2], type = entry[16];
    memcpy(half, entry, 16);
    return ((half[0] * 0x9E3779B97F4A7C15u ^ half[1] ^ type << 40) * 0xD6E8FEB86659FD93u) >> (64 - bits);
}

/* By a table of hashes with a cell for each slot twice over: where a cell is taken, the next one is asked. */
static inline fault hash_fault_in(const uint8_t *image, const layout *disk, uint16_t *table, unsigned bits) {
    size_t cells = (size_t)1 << bits;
    memset(table, 0, cells * sizeof *table); /* a slot plus 1, or 0 */
    for (size_t slot = 0; slot < disk->slots; slot++) {
        const uint8_t *entry = image + slot_at(disk, slot);
        if (!is_used(entry))
            continue;
        size_t cell = hash(entry, bits);
        for (; table[cell] != 0; cell = (cell + 1) % cells)
            if (is_same(image + slot_at(disk, table[cell] - 1u), entry))
                return (fault){5, slot};
        table[cell] = (uint16_t)(slot + 1);
    }
    return (fault){0, 0};
}

enum { CELLS = 2 * MOST_SLOTS, CELL_BITS = 10, FEW_BITS = 7 };

static fault hash_fault(const uint8_t *image, const layout *disk) {
    uint16_t table[CELLS];
    return disk->slots > FEW_SLOTS ? hash_fault_in(image, disk, table, CELL_BITS) : hash_fault_in(image, disk, table, FEW_BITS);
}

static fault name_fault(const uint8_t *image, const layout *disk) {
    return disk->slots > FEW_SLOTS ? hash_fault(image, disk) : pair_fault(image, disk);
}

/* The number of a chain's first fault, 6 or 7, or 0. */
static uint32_t walk(const uint8_t *image, const layout *disk, const uint8_t *entry) {
    size_t block = number2(entry + 20);
    if (!is_link(disk, block))
        return 6;
    for (size_t left = blocks_for(number3(entry + 17)) - 1; left > 0; left--) {
        block = value_at(image, block);
        if (!is_link(disk, block))
            return block == disk->end_mark ? 7 : 6;
    }
    return value_at(image, block) == disk->end_mark ? 0 : 7;
}

static fault chain_fault(const uint8_t *image, const layout *disk) {
    for (size_t slot = 0; slot < disk->slots; slot++) {
        const uint8_t *entry = image + slot_at(disk, slot);
        uint32_t number = is_used(entry) ? walk(image, disk, entry) : 0;
        if (number != 0)
            return (fault){number, slot};
    }
    return (fault){0, 0};
}

/* All chains are faultless here: each ends at its end mark. */
static fault share_fault(const uint8_t *image, const layout *disk, bool *taken) {
    for (size_t slot = 0; slot < disk->slots; slot++) {
        const uint8_t *entry = image + slot_at(disk, slot);
        if (!is_used(entry))
            continue;
        for (size_t block = number2(entry + 20); block != disk->end_mark; block = value_at(image, block)) {
            if (taken[block])
                return (fault){8, slot};
            taken[block] = true;
        }
    }
    return (fault){0, 0};
}

/* Counts the free blocks too. */
static fault stray_fault(const uint8_t *image, const layout *disk, const bool *taken, size_t *free) {
    size_t zeros = 0;
    for (size_t block = disk->first; block < disk->blocks; block++) {
        if (value_at(image, block) == 0)
            zeros++;
        else if (!taken[block])
            return (fault){9, block};
    }
    *free = zeros;
    return (fault){0, 0};
}

static size_t count_files(const uint8_t *image, const layout *disk) {
    size_t files = 0;
    for (size_t slot = 0; slot < disk->slots; slot++)
        files += is_used(image + slot_at(disk, slot));
    return files;
}

/* Refusals 1 to 9 in their order, one rule after another; 5 by the function given. */
static inline fault check_by(fault (*names)(const uint8_t *, const layout *), const uint8_t *image, size_t length, layout *disk, size_t *free) {
    bool taken[MOST_BLOCKS] = {false};
    fault found = read_layout(image, length, disk);
    if (found.number == 0)
        found = system_fault(image, disk);
    if (found.number == 0)
        found = form_fault(image, disk);
    if (found.number == 0)
        found = names(image, disk);
    if (found.number == 0)
        found = chain_fault(image, disk);
    if (found.number == 0)
        found = share_fault(image, disk, taken);
    if (found.number == 0)
        found = stray_fault(image, disk, taken, free);
    return found;
}

static fault check(const uint8_t *image, size_t length, layout *disk, size_t *free) { return check_by(name_fault, image, length, disk, free); }

static sj_checked told(fault found, const uint8_t *image, const layout *disk, size_t free) {
    if (found.number != 0)
        return (sj_checked){found.number, found.place, 0, 0, 0, 0};
    return (sj_checked){0, 0, disk->kind, disk->density, count_files(image, disk), free};
}

sj_checked peer_check(const uint8_t *image, size_t image_len) {
    layout disk;
    size_t free = 0;
    fault found = check(image, image_len, &disk, &free);
    return told(found, image, &disk, free);
}

/* The check that compares all pairs of names, however many. */
sj_checked peer_check_pairs(const uint8_t *image, size_t image_len) {
    layout disk;
    size_t free = 0;
    fault found = check_by(pair_fault, image, image_len, &disk, &free);
    return told(found, image, &disk, free);
}

/* The check that finds names by their hashes, however few. */
sj_checked peer_check_hashes(const uint8_t *image, size_t image_len) {
    layout disk;
    size_t free = 0;
    fault found = check_by(hash_fault, image, image_len, &disk, &free);
    return told(found, image, &disk, free);
}

static const char AKAII[] = "0123456789 ABCDEFGHIJKLMNOPQRSTUVWXYZ#+-.";

/* The bytes by which a file is known on the disk, if name and type are legal. But for S900 disks a to z in a name are taken as A to Z. */
static bool known_as(const layout *disk, const uint8_t *name, size_t length, uint8_t type, uint8_t *known) {
    if (length != disk->letters || type < disk->least || type > disk->most)
        return false;
    memset(known, disk->pad, 15);
    known[15] = disk->last;
    known[16] = type;
    for (size_t i = 0; i < length; i++) {
        uint8_t capital = name[i] >= 'a' && name[i] <= 'z' ? name[i] - 32 : name[i];
        const char *code = is_akaii(disk) ? memchr(AKAII, capital, sizeof AKAII - 1) : NULL;
        if (is_akaii(disk) ? code == NULL : name[i] < 32 || name[i] > 126)
            return false;
        known[i] = is_akaii(disk) ? (uint8_t)(code - AKAII) : name[i];
    }
    return true;
}

/* The slot of the file that is known by these bytes, or the number of slots. */
static size_t slot_of(const uint8_t *image, const layout *disk, const uint8_t *known) {
    size_t slot = 0;
    while (slot < disk->slots && !is_same(image + slot_at(disk, slot), known))
        slot++;
    return slot;
}

static size_t empty_slot(const uint8_t *image, const layout *disk) {
    size_t slot = 0;
    while (slot < disk->slots && is_used(image + slot_at(disk, slot)))
        slot++;
    return slot;
}

/* Stores content in the lowest free blocks, chains them, and gives the first. */
static size_t store_content(uint8_t *image, const layout *disk, const uint8_t *content, size_t length) {
    size_t block = disk->first, start = 0, last = 0;
    for (size_t from = 0; from < length; from += BLOCK, last = block++) {
        while (value_at(image, block) != 0)
            block++;
        if (from == 0)
            start = block;
        else
            set_value(image, last, block);
        size_t part = length - from < BLOCK ? length - from : BLOCK;
        memcpy(image + BLOCK * block, content + from, part);
        memset(image + BLOCK * block + part, 0, BLOCK - part);
    }
    set_value(image, last, disk->end_mark);
    return start;
}

static sj_found refused(uint32_t number, size_t place) { return (sj_found){number, place, 0}; }

sj_found peer_find(const uint8_t *image, size_t image_len, const uint8_t *name, size_t name_len, uint8_t type) {
    layout disk;
    size_t free;
    uint8_t known[KNOWN];
    fault found = check(image, image_len, &disk, &free);
    if (found.number != 0)
        return refused(found.number, found.place);
    if (!known_as(&disk, name, name_len, type, known))
        return refused(11, 0);
    size_t slot = slot_of(image, &disk, known);
    return slot == disk.slots ? refused(10, 0) : (sj_found){0, 0, slot};
}

sj_found peer_put(uint8_t *image, size_t image_len, const uint8_t *name, size_t name_len, uint8_t type, const uint8_t *content,
                  size_t content_len) {
    layout disk;
    size_t free;
    uint8_t known[KNOWN];
    fault found = check(image, image_len, &disk, &free);
    if (found.number != 0)
        return refused(found.number, found.place);
    if (!known_as(&disk, name, name_len, type, known))
        return refused(11, 0);
    if (content_len == 0)
        return refused(13, 0);
    size_t taken = slot_of(image, &disk, known), slot = empty_slot(image, &disk);
    if (taken < disk.slots)
        return refused(12, taken);
    if (slot == disk.slots)
        return refused(14, 0);
    if (blocks_for(content_len) > free)
        return refused(15, 0);
    if (content_len > LONGEST)
        return refused(16, 0);
    uint8_t *entry = image + slot_at(&disk, slot);
    memcpy(entry, known, KNOWN);
    store2(entry + 17, content_len);
    entry[19] = (uint8_t)(content_len >> 16);
    store2(entry + 20, store_content(image, &disk, content, content_len));
    store2(entry + 22, disk.identity);
    return (sj_found){0, 0, slot};
}

sj_done peer_remove(uint8_t *image, size_t image_len, const uint8_t *name, size_t name_len, uint8_t type) {
    layout disk;
    size_t free;
    uint8_t known[KNOWN];
    fault found = check(image, image_len, &disk, &free);
    if (found.number != 0)
        return (sj_done){found.number, found.place};
    if (!known_as(&disk, name, name_len, type, known))
        return (sj_done){11, 0};
    size_t slot = slot_of(image, &disk, known);
    if (slot == disk.slots)
        return (sj_done){10, 0};
    uint8_t *entry = image + slot_at(&disk, slot);
    for (size_t block = number2(entry + 20), next; block != disk.end_mark; block = next) {
        next = value_at(image, block);
        set_value(image, block, 0);
    }
    memset(entry, 0, 22);
    return (sj_done){0, 0};
}

/* Name and type of a well-formed slot in 16 bytes: the type in place of a filler, which says nothing. */
typedef struct {
    uint64_t half[2];
} key;

static key key_of(const uint8_t *entry) {
    uint8_t bytes[16];
    key own;
    memcpy(bytes, entry, 16);
    bytes[13] = entry[16];
    memcpy(own.half, bytes, 16);
    return own;
}

/* The files that a salvage has kept so far. */
typedef struct {
    size_t files;
    key keys[MOST_SLOTS];
    uint16_t cells[CELLS];      /* a file plus 1, or 0: used where a disk has many slots */
    uint16_t keep[MOST_BLOCKS]; /* all ones where a block is on a chain of theirs, else 0 */
} kept;

/* Takes a chain's blocks, or gives the number of its first fault, 6, 7 or 8. One walk, which notes the blocks on its way: a step waits for the
 * map value before it, and to go over the notes does not. */
static uint32_t take_chain(const uint8_t *image, const layout *disk, const uint8_t *entry, uint16_t *keep) {
    uint16_t chain[MOST_BLOCKS], shared = 0;
    size_t last = blocks_for(number3(entry + 17)) - 1, block = number2(entry + 20);
    if (last >= MOST_BLOCKS)
        return walk(image, disk, entry); /* no disk has so many blocks: there is a fault */
    if (!is_link(disk, block))
        return 6;
    for (size_t at = 0; at < last; at++) {
        chain[at] = (uint16_t)block;
        shared |= keep[block];
        block = value_at(image, block);
        if (!is_link(disk, block))
            return block == disk->end_mark ? 7 : 6;
    }
    if (value_at(image, block) != disk->end_mark)
        return 7;
    chain[last] = (uint16_t)block;
    if (shared || keep[block])
        return 8;
    for (size_t at = 0; at <= last; at++)
        keep[chain[at]] = 0xFFFF;
    return 0;
}

/* Whether a file of the same name and type is kept; gives the cell of the two if the disk has many slots. */
static bool is_kept(const kept *so_far, const layout *disk, const uint8_t *entry, const key *own, size_t *cell) {
    if (disk->slots <= FEW_SLOTS) {
        for (size_t file = 0; file < so_far->files; file++)
            if (so_far->keys[file].half[0] == own->half[0] && so_far->keys[file].half[1] == own->half[1])
                return true;
        return false;
    }
    for (*cell = hash(entry, CELL_BITS); so_far->cells[*cell] != 0; *cell = (*cell + 1) % CELLS)
        if (memcmp(&so_far->keys[so_far->cells[*cell] - 1], own, sizeof *own) == 0)
            return true;
    return false;
}

/* What a salvage reports of a slot. */
static uint8_t judge(const uint8_t *image, const layout *disk, const uint8_t *entry, kept *so_far) {
    key *own = &so_far->keys[so_far->files];
    size_t cell = 0;
    if (!is_used(entry))
        return 0;
    if (!is_well_formed(entry, disk))
        return 4;
    *own = key_of(entry);
    if (is_kept(so_far, disk, entry, own, &cell))
        return 5;
    uint32_t number = take_chain(image, disk, entry, so_far->keep);
    if (number != 0)
        return (uint8_t)number;
    so_far->files++;
    if (disk->slots > FEW_SLOTS)
        so_far->cells[cell] = (uint16_t)so_far->files;
    return 1;
}

/* Marks the system blocks, frees what is on no kept chain, and counts what is another value then. A mask of all ones or none has no byte
 * order, so that the values are taken as they lie, and the count has 16 bits too: the compiler then handles several at once. */
static size_t mend_map(uint8_t *image, const layout *disk, const uint16_t *keep) {
    uint16_t marked = 0, freed = 0;
    for (size_t block = 0; is_akaii(disk) && block < disk->first; block++) {
        marked += value_at(image, block) != SYSTEM;
        set_value(image, block, SYSTEM);
    }
    for (size_t block = disk->first; block < disk->blocks; block++) {
        uint16_t value, after;
        memcpy(&value, image + MAP_AT + 2 * block, 2);
        after = value & keep[block];
        memcpy(image + MAP_AT + 2 * block, &after, 2);
        freed += value != after;
    }
    return (size_t)marked + freed;
}

sj_counted peer_salvage(uint8_t *image, size_t image_len, uint8_t *report, size_t report_len) {
    layout disk;
    kept so_far;
    fault found = read_layout(image, image_len, &disk);
    if (found.number != 0)
        return (sj_counted){found.number, found.place, 0};
    if (report_len < disk.slots)
        return (sj_counted){21, 0, 0};
    so_far.files = 0;
    memset(so_far.keep, 0, sizeof so_far.keep);
    if (disk.slots > FEW_SLOTS)
        memset(so_far.cells, 0, sizeof so_far.cells);
    for (size_t slot = 0; slot < disk.slots; slot++) {
        report[slot] = judge(image, &disk, image + slot_at(&disk, slot), &so_far);
        if (report[slot] > 1)
            memset(image + slot_at(&disk, slot), 0, 22);
    }
    return (sj_counted){0, 0, mend_map(image, &disk, so_far.keep)};
}
