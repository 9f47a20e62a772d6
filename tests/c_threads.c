/* The header's sentence on threads: calls share nothing. Many threads read one image at once, each writes an image of its own between, and
 * all is as if each were alone. */
#include "disks.h"
#include "skilletjay.h"
#include <pthread.h>

enum { THREADS = 8, ROUNDS = 1000, FILES = 6, LONGEST = 30000 };

/* One image for all threads, which can't be written to, and its files' contents. */
static uint8_t *shared, contents[FILES][LONGEST];
static const shape *const S = &SHAPES[3];

/* For each kind a disk without files, and the same after `change` alone. */
static uint8_t *blank[KINDS], *changed[KINDS];

static pthread_barrier_t begin;

static size_t bytes_of(const shape *s) { return 1024 * (size_t)s->blocks; }

static size_t length_of(int file) { return 1 + (size_t)file * 5003; }

/* A name of one letter, padded. */
static void name_of(const shape *s, char letter, uint8_t *name) {
    memset(name, ' ', (size_t)s->letters);
    name[0] = (uint8_t)letter;
}

/* ---- what a thread does */

/* Every call that reads, on the image that all have. */
static void read_all(size_t step) {
    uint8_t name[12], out[LONGEST];
    uint16_t blocks[64];
    sj_checked c = sj_check(shared, bytes_of(S));
    CHECK(c.refusal == 0 && c.kind == 1000 && c.density == 1 && c.files == FILES);
    for (int k = 0; k < FILES; k++) {
        size_t n = length_of(k), at = 0, slot = (size_t)k;
        name_of(S, (char)('a' + k), name);
        sj_listed l = sj_list(shared, bytes_of(S), slot);
        CHECK(l.refusal == 0 && l.name[0] == 'A' + k && l.length == n);
        CHECK(sj_find(shared, bytes_of(S), name, 12, S->type).slot == slot);
        CHECK(sj_blocks(shared, bytes_of(S), slot, blocks, 64).count == (n + 1023) / 1024 && blocks[0] == S->first + k);
        for (bool end = false; !end;) {
            sj_paged p = sj_page(shared, bytes_of(S), slot, at, out + at, n - at < step ? n - at : step);
            CHECK(p.refusal == 0 && p.count > 0);
            at += p.count;
            end = p.end;
        }
        CHECK(at == n && memcmp(out, contents[k], n) == 0);
    }
    CHECK(sj_list(shared, bytes_of(S), 63).refusal == SJ_NO_SUCH_FILE && strlen(sj_words(SJ_NO_SUCH_FILE)) > 0);
}

/* Puts and removals, one of them refused, on an image that nobody else has; a name is put again in another type. */
static void change(const shape *s, uint8_t *image) {
    uint8_t name[12], type = s->type;
    for (int k = 0; k < FILES; k++) {
        name_of(s, (char)('A' + k), name);
        CHECK(sj_put(image, bytes_of(s), name, (size_t)s->letters, type, contents[k], length_of(k)).slot == (size_t)k);
    }
    CHECK(sj_put(image, bytes_of(s), name, (size_t)s->letters, type, contents[0], 1).refusal == SJ_NAME_IN_USE);
    name_of(s, 'C', name);
    CHECK(sj_put(image, bytes_of(s), name, (size_t)s->letters, program_type(s), contents[1], 300).slot == FILES);
    CHECK(sj_remove(image, bytes_of(s), name, (size_t)s->letters, type).refusal == 0);
    name_of(s, 'Z', name);
    CHECK(sj_put(image, bytes_of(s), name, (size_t)s->letters, type, contents[5], LONGEST - 5000).slot == 2);
}

static void *work(void *given) {
    size_t number = (size_t)(uintptr_t)given, n = bytes_of(&SHAPES[number % KINDS]);
    uint8_t *own = malloc(n);
    CHECK(own);
    pthread_barrier_wait(&begin);
    for (int round = 0; round < ROUNDS; round++) {
        read_all(500 + 397 * number);
        memcpy(own, blank[number % KINDS], n);
        change(&SHAPES[number % KINDS], own);
        CHECK(memcmp(own, changed[number % KINDS], n) == 0);
    }
    free(own);
    return NULL;
}

/* ---- what they have */

static void make_shared(void) {
    shared = guarded(bytes_of(S));
    make_blank(shared, S);
    for (int k = 0; k < FILES; k++) {
        unsigned blocks[LONGEST / 1024 + 1];
        const char name[2] = {(char)('A' + k), 0};
        for (unsigned j = 0; j < sizeof blocks / sizeof *blocks; j++)
            blocks[j] = (unsigned)S->first + (unsigned)k + FILES * j;
        for (size_t i = 0; i < LONGEST; i++)
            contents[k][i] = (uint8_t)next_random();
        add_file(shared, S, k, name, blocks, contents[k], length_of(k));
    }
    CHECK(mprotect(shared, bytes_of(S), PROT_READ) == 0); /* whole pages */
}

int main(void) {
    pthread_t threads[THREADS];
    make_shared();
    for (int k = 0; k < KINDS; k++) {
        size_t n = bytes_of(&SHAPES[k]);
        blank[k] = malloc(n);
        changed[k] = malloc(n);
        CHECK(blank[k] && changed[k]);
        make_blank(blank[k], &SHAPES[k]);
        memcpy(changed[k], blank[k], n);
        change(&SHAPES[k], changed[k]);
    }
    CHECK(pthread_barrier_init(&begin, NULL, THREADS) == 0);
    for (uintptr_t k = 0; k < THREADS; k++)
        CHECK(pthread_create(&threads[k], NULL, work, (void *)k) == 0);
    for (int k = 0; k < THREADS; k++)
        CHECK(pthread_join(threads[k], NULL) == 0);
    for (int k = 0; k < KINDS; k++) {
        free(blank[k]);
        free(changed[k]);
    }
    puts("c_threads: ok");
    return 0;
}
