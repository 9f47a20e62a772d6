/* Scripts of calls from C: each reply, each page and the image are what the same calls give when they are made one by one; a script ends
 * before the first entry that is no call; script, pool and output end at pages that can't be touched. */
#include "skilletjay.h"
#include "volumes.h"

enum { ENTRY = 20, PART = 1044, PAGE = 1024, CALLS = 40, POOL = 70000, NAMES = POOL - 26 * 12 };

static uint8_t script[ENTRY * CALLS + 19], pool[POOL], out[PART * CALLS + 7], want[sizeof out];

static void set_number(uint8_t *at, int width, size_t value) {
    for (int i = 0; i < width; i++)
        at[i] = (uint8_t)(value >> 8 * i);
}

static size_t get_number(const uint8_t *at) { return at[0] + 256u * at[1] + 65536u * at[2] + 16777216u * (size_t)at[3]; }

/* The pool ends with 26 names of 12 letters, the first ten of which are an S900 name, A to M in both cases; so the last name stands at the pool's edge. */
static void make_pool(void) {
    for (int i = 0; i < NAMES; i++)
        pool[i] = (uint8_t)next_random();
    for (int i = 0; i < 26 * 12; i++)
        pool[NAMES + i] = i % 12 ? ' ' : (uint8_t)((i / 12 % 2 ? 'a' : 'A') + i / 24);
}

static void make_entry(const shape *s, uint8_t *e) {
    uint32_t r = next_random();
    for (int i = 0; i < ENTRY; i++)
        e[i] = (uint8_t)next_random();
    e[0] = r % 97 == 0 ? (uint8_t)(5 + r % 251) : (uint8_t)(r % 5);
    e[1] = random_type(s);
    if (e[0] < 2) {
        set_number(e + 4, 4, next_random() % 30 ? next_random() % 8 : 505 + next_random() % 8);
        set_number(e + 8, 4, next_random() % 3 ? 0 : next_random() % 4000);
        return;
    }
    set_number(e + 4, 4, NAMES + 12 * (next_random() % 26));
    set_number(e + 8, 4, (size_t)s->letters - (next_random() % 30 == 0));
    if (next_random() % 60 == 0)
        set_number(e + 8, 4, POOL);
    if (e[0] == 4) {
        size_t at = next_random() % POOL, most = POOL - at;
        set_number(e + 12, 4, at);
        set_number(e + 16, 4, next_random() % 60 ? next_random() % (most + 1) : most + 1);
    }
}

static void reply(uint8_t *part, size_t number, size_t value, uint8_t type, bool end, const uint8_t *name) {
    set_number(part, 3, number);
    set_number(part + 3, 3, value);
    part[6] = type;
    part[7] = end;
    for (int i = 0; i < 12; i++)
        part[8 + i] = name ? name[i] : 0;
}

static bool in_pool(size_t at, size_t n) { return at <= POOL && n <= POOL - at; }

/* The call that an entry is, made by itself; false if it is none. */
static bool make_call(uint8_t *image, size_t n, const uint8_t *e, uint8_t *part) {
    size_t a = get_number(e + 4), b = get_number(e + 8), c = get_number(e + 12), d = get_number(e + 16);
    if (e[0] > 4 || (e[0] >= 2 && !in_pool(a, b)) || (e[0] == 4 && !in_pool(c, d)))
        return false;
    if (e[0] == 0) {
        sj_listed l = sj_list(image, n, a);
        reply(part, l.refusal, l.refusal ? l.place : l.length, l.type, false, l.name);
    } else if (e[0] == 1) {
        sj_paged p = sj_page(image, n, a, b, part + ENTRY, PAGE);
        reply(part, p.refusal, p.refusal ? p.place : p.count, 0, p.end, NULL);
    } else if (e[0] == 3) {
        sj_done r = sj_remove(image, n, pool + a, b, e[1]);
        reply(part, r.refusal, r.place, 0, false, NULL);
    } else {
        sj_found f = e[0] == 2 ? sj_find(image, n, pool + a, b, e[1]) : sj_put(image, n, pool + a, b, e[1], pool + c, d);
        reply(part, f.refusal, f.refusal ? f.place : f.slot, 0, false, NULL);
    }
    return true;
}

static void run_one(const shape *s, uint8_t *image, uint8_t *other, size_t n) {
    size_t script_len = next_random() % (sizeof script + 1), out_len = next_random() % 4 ? sizeof out : next_random() % (sizeof out + 1);
    for (int k = 0; k < CALLS; k++)
        make_entry(s, script + ENTRY * k);
    for (size_t i = 0; i < sizeof out; i++)
        out[i] = want[i] = (uint8_t)next_random();
    memcpy(other, image, n);
    size_t most = script_len / ENTRY < out_len / PART ? script_len / ENTRY : out_len / PART, made = 0;
    while (made < most && make_call(other, n, script + ENTRY * made, want + PART * made))
        made++;
    const uint8_t *lent_script = at_edge(0, script, script_len), *lent_pool = at_edge(1, pool, POOL);
    uint8_t *lent_out = at_edge(2, out, out_len);
    CHECK(sj_run(image, n, lent_script, script_len, lent_pool, POOL, lent_out, out_len) == made);
    CHECK(memcmp(lent_out, want, out_len) == 0 && memcmp(image, other, n) == 0);
    CHECK(memcmp(lent_script, script, script_len) == 0 && memcmp(lent_pool, pool, POOL) == 0);
}

/* The replies to one list, page, find, remove and put that are all refused; the pages are kept. */
static void all_refused(const uint8_t *replies, const uint32_t *refusals) {
    uint8_t due[PART];
    memset(due, 7, sizeof due);
    for (int k = 0; k < 5; k++) {
        reply(due, refusals[k], 0, 0, false, NULL);
        CHECK(memcmp(replies + PART * k, due, sizeof due) == 0);
    }
}

/* Every slice null in turn: no entry or no room for a reply is no call, and a pool of nothing holds only names and contents of nothing. */
static void run_nulls(uint8_t *image, size_t n) {
    static const uint32_t empty[5] = {10, 10, 11, 11, 11}, no_image[5] = {1, 1, 1, 1, 1};
    uint8_t entries[5 * ENTRY] = {0}, replies[5 * PART];
    memset(replies, 7, sizeof replies);
    for (int k = 0; k < 5; k++)
        entries[ENTRY * k] = (uint8_t)k;
    CHECK(sj_run(image, n, NULL, 0, pool, POOL, replies, sizeof replies) == 0 && replies[0] == 7);
    CHECK(sj_run(image, n, entries, sizeof entries, pool, POOL, NULL, 0) == 0);
    CHECK(sj_run(image, n, entries, sizeof entries, NULL, 0, replies, sizeof replies) == 5);
    all_refused(replies, empty);
    CHECK(sj_run(NULL, 0, entries, sizeof entries, NULL, 0, replies, sizeof replies) == 5);
    all_refused(replies, no_image);
    CHECK(sj_run(NULL, 0, NULL, 0, NULL, 0, NULL, 0) == 0);
}

static void run_many(const shape *s) {
    size_t n = 1024 * (size_t)s->blocks;
    uint8_t *image = guarded(n), *other = malloc(n);
    CHECK(other);
    make_blank(image, s);
    run_nulls(image, n);
    for (int i = 0; i < 150; i++)
        run_one(s, image, other, n);
    CHECK(sj_check(image, n).refusal == 0);
    free(other);
    release(image, n);
}

/* On a refused image every call of a script is refused, and the script goes on. */
static void run_damaged(const shape *s) {
    size_t met[10] = {0};
    volume v;
    make_volume(&v, s, true);
    uint8_t *other = malloc(v.n);
    CHECK(other);
    for (int turn = 0; turn < 300; turn++) {
        for (int k = turn % 3; k >= 0; k--)
            damage(&v);
        met[sj_check(v.image, v.n).refusal]++;
        run_one(s, v.image, other, v.n);
        memcpy(v.image, v.made, v.n);
    }
    all_met(s, met);
    free(other);
    drop_volume(&v);
}

int main(void) {
    make_pool();
    for (int k = 0; k < KINDS; k++) {
        run_many(&SHAPES[k]);
        run_damaged(&SHAPES[k]);
    }
    puts("c_run: ok");
    return 0;
}
