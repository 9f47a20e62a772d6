/* Sample and program files from C: the worked words, every value of every header byte against rules written here a second time, words
 * at the edges, outputs one too short; what is packed unpacks, and what is refused changes nothing. */
#include "disks.h"
#include "skilletjay.h"

enum { WORDS = 22, MOST = 400 };

typedef struct {
    size_t header, count_at, data; /* data: half bytes that a word takes */
    sj_counted (*unpack)(const uint8_t *, size_t, int16_t *, size_t);
    sj_counted (*pack)(const uint8_t *, size_t, const int16_t *, size_t, uint8_t *, size_t);
} sampler;

static const sampler S900 = {60, 16, 3, sj_s900_unpack, sj_s900_pack};
static const sampler S1000 = {150, 26, 4, sj_s1000_unpack, sj_s1000_pack};

static size_t long_at(const uint8_t *b, size_t at) { return b[at] + 256u * b[at + 1] + 65536u * b[at + 2] + 16777216u * (size_t)b[at + 3]; }

static void set_long(uint8_t *b, size_t at, size_t value) {
    for (int i = 0; i < 4; i++)
        b[at + (size_t)i] = (uint8_t)(value >> 8 * i);
}

/* The lowest offset of a header whose rule fails, or -1. */
static int fault_900(const uint8_t *h) {
    for (int i = 0; i < 10; i++)
        if (h[i] < 32 || h[i] > 126)
            return i;
    for (int i = 10; i < 16; i++)
        if (h[i])
            return i;
    for (int i = 24; i < 26; i++)
        if (h[i])
            return i;
    if (h[26] != 'O' && h[26] != 'L' && h[26] != 'A')
        return 26;
    if (h[27])
        return 27;
    size_t n = long_at(h, 16), end = long_at(h, 28), start = long_at(h, 32), loop = long_at(h, 36);
    return end > n ? 28 : start > end ? 32 : loop > end ? 36 : -1;
}

static int fault_1000(const uint8_t *h) {
    if (h[0] != 3)
        return 0;
    if (h[2] > 127)
        return 2;
    for (int i = 3; i < 15; i++)
        if (h[i] > 40)
            return i;
    if (h[15] != 128)
        return 15;
    if (h[16] > 8)
        return 16;
    if (h[19] > 3)
        return 19;
    for (int i = 20; i < 22; i++)
        if ((int8_t)h[i] < -50 || (int8_t)h[i] > 50)
            return i;
    size_t n = long_at(h, 26), start = long_at(h, 30), end = long_at(h, 34);
    return start > end ? 30 : end > n ? 34 : -1;
}

static int fault(const sampler *s, const uint8_t *h) { return s->header == 60 ? fault_900(h) : fault_1000(h); }

static bool odd(const sampler *s, size_t n) { return s->header == 60 && n % 2; }

/* Whether a word may be packed: on an S900 it has 12 bits. */
static bool fits(const sampler *s, int word) { return s->header == 150 || (word >= -2048 && word <= 2047); }

/* The place of refusal 18, or -1: of a file, and of a header for so many words. */
static int file_place(const sampler *s, const uint8_t *file, size_t length) {
    if (length < s->header)
        return 0;
    size_t n = long_at(file, s->count_at);
    if (odd(s, n) || s->header + n * s->data / 2 != length)
        return (int)s->count_at;
    return fault(s, file);
}

static int header_place(const sampler *s, const uint8_t *header, size_t length, size_t words) {
    if (length != s->header)
        return 0;
    size_t n = long_at(header, s->count_at);
    return odd(s, n) || n != words ? (int)s->count_at : fault(s, header);
}

static void make_header(const sampler *s, uint8_t *h, size_t n) {
    for (size_t i = 0; i < s->header; i++)
        h[i] = (uint8_t)next_random();
    if (s->header == 60) {
        memcpy(h, "BASS C2   \0\0\0\0\0\0", 16);
        memcpy(h + 24, "\0\0L\0", 4);
        set_long(h, 28, n), set_long(h, 32, n / 2), set_long(h, 36, n);
    } else {
        memset(h + 3, 10, 12);
        h[0] = 3, h[2] = 60, h[15] = 128, h[16] = 8, h[19] = 3, h[20] = 206, h[21] = 50;
        set_long(h, 30, n / 2), set_long(h, 34, n);
    }
    set_long(h, s->count_at, n);
}

/* A sample's words as the published layout stores them. */
static void store(const sampler *s, const int16_t *words, size_t n, uint8_t *to) {
    for (size_t i = 0; i < n; i++)
        if (s->header == 150) {
            to[2 * i] = (uint8_t)(words[i] & 255);
            to[2 * i + 1] = (uint8_t)(words[i] >> 8 & 255);
        } else if (i < n / 2) {
            to[2 * i] = (uint8_t)((words[i] & 15) << 4 | (words[n / 2 + i] & 15));
            to[2 * i + 1] = (uint8_t)(words[i] >> 4 & 255);
        } else {
            to[n + i - n / 2] = (uint8_t)(words[i] >> 4 & 255);
        }
}

/* Unpacks into room for some words; all is as the rules say. */
static void try_unpack(const sampler *s, const uint8_t *file, size_t length, const int16_t *words, size_t room) {
    int16_t before[MOST];
    for (size_t i = 0; i < room; i++)
        before[i] = (int16_t)next_random();
    int place = file_place(s, file, length);
    size_t n = place < 0 ? long_at(file, s->count_at) : 0;
    int16_t *out = (int16_t *)(void *)at_edge(0, before, 2 * room);
    sj_counted r = s->unpack(at_edge(1, file, length), length, out, room);
    if (place >= 0) {
        CHECK(r.refusal == 18 && r.place == (size_t)place && r.count == 0);
    } else if (room < n) {
        CHECK(r.refusal == 21 && r.place == 0 && r.count == 0);
    } else {
        CHECK(r.refusal == 0 && r.place == 0 && r.count == n);
        CHECK(memcmp(out, words, 2 * n) == 0);
    }
    CHECK(memcmp(out + r.count, before + r.count, 2 * (room - r.count)) == 0);
}

/* Packs into room for some bytes; all is as the rules say, and what was packed unpacks. Gives the answer. */
static sj_counted try_pack(const sampler *s, const uint8_t *header, size_t length, const int16_t *words, size_t n, size_t room) {
    uint8_t before[2 * MOST], data[2 * MOST];
    for (size_t i = 0; i < room; i++)
        before[i] = (uint8_t)next_random();
    int place = header_place(s, header, length, n), index = -1;
    for (size_t i = n; i-- > 0;)
        if (!fits(s, words[i]))
            index = (int)i;
    size_t due = s->header + n * s->data / 2;
    uint8_t *out = at_edge(0, before, room);
    sj_counted r = s->pack(at_edge(1, header, length), length, (int16_t *)(void *)at_edge(2, words, 2 * n), n, out, room);
    if (place >= 0) {
        CHECK(r.refusal == 18 && r.place == (size_t)place && r.count == 0);
    } else if (index >= 0) {
        CHECK(r.refusal == 19 && r.place == (size_t)index && r.count == 0);
    } else if (room < due) {
        CHECK(r.refusal == 21 && r.place == 0 && r.count == 0);
    } else {
        CHECK(r.refusal == 0 && r.place == 0 && r.count == due);
        store(s, words, n, data);
        CHECK(memcmp(out, header, s->header) == 0 && memcmp(out + s->header, data, due - s->header) == 0);
    }
    CHECK(memcmp(out + r.count, before + r.count, room - r.count) == 0);
    if (r.refusal == 0) {
        memcpy(data, out, due);
        try_unpack(s, data, due, words, n + 1);
    }
    return r;
}

/* Words at random that the sampler takes, and the file that holds them. */
static void make_sample(const sampler *s, size_t n, int16_t *words, uint8_t *file) {
    for (size_t i = 0; i < n; i++)
        words[i] = s->header == 60 ? (int16_t)(next_random() % 4096) - 2048 : (int16_t)next_random();
    make_header(s, file, n);
    store(s, words, n, file + s->header);
}

/* Samples of few words, odd numbers of them too: every length of the file, rooms about what is due, headers of other sizes, a word more. */
static void sample_sizes(const sampler *s) {
    uint8_t file[150 + 4 * WORDS];
    int16_t words[WORDS + 1] = {0};
    for (size_t n = 0; n <= WORDS; n++) {
        size_t due = s->header + n * s->data / 2;
        make_sample(s, n, words, file);
        for (size_t room = 0; room <= n + 1; room++)
            try_unpack(s, file, due, words, room);
        for (size_t length = 0; length <= due + 2; length++)
            try_unpack(s, file, length, words, n);
        for (size_t room = due - 1; room <= due + 2; room++)
            try_pack(s, file, s->header, words, n, room);
        try_pack(s, file, s->header - 1, words, n, due);
        try_pack(s, file, s->header + 1, words, n, due);
        try_pack(s, file, s->header, words, n + 1, due + 4);
    }
}

/* Samples of more words, packed and unpacked: whatever a loop over many words at a time can leave to its end. */
static void longer_samples(const sampler *s) {
    uint8_t file[2 * MOST];
    int16_t words[MOST];
    for (size_t n = WORDS; n <= MOST - 80; n++) {
        make_sample(s, n, words, file);
        sj_counted r = try_pack(s, file, s->header, words, n, s->header + n * s->data / 2);
        CHECK(r.refusal == (odd(s, n) ? 18u : 0u));
    }
}

static void try_both(const sampler *s, const uint8_t *file, const int16_t *words) {
    try_unpack(s, file, s->header + WORDS * s->data / 2, words, WORDS);
    try_pack(s, file, s->header, words, WORDS, 2 * MOST);
}

/* Every value of every byte of the header, alone. */
static void header_bytes(const sampler *s) {
    uint8_t file[150 + 4 * WORDS];
    int16_t words[WORDS];
    make_sample(s, WORDS, words, file);
    for (size_t at = 0; at < s->header; at++)
        for (int value = 0; value < 256; value++) {
            uint8_t was = file[at];
            file[at] = (uint8_t)value;
            try_both(s, file, words);
            file[at] = was;
        }
}

/* Several rules broken at once: markers about N, and bytes anywhere but in N. */
static void broken_rules(const sampler *s) {
    uint8_t file[150 + 4 * WORDS];
    int16_t words[WORDS];
    make_sample(s, WORDS, words, file);
    for (int k = 0; k < 20000; k++) {
        make_header(s, file, WORDS);
        for (size_t at = s->header == 60 ? 28 : 30; at <= (s->header == 60 ? 36 : 34); at += 4)
            set_long(file, at, WORDS - 2 + next_random() % 4);
        size_t at = next_random() % s->header;
        if (k % 4 == 0 && (at < s->count_at || at > s->count_at + 3))
            file[at] = (uint8_t)next_random();
        try_both(s, file, words);
    }
}

/* Counts whose file length would wrap in 32 bits. */
static void wrapped_counts(const sampler *s) {
    uint8_t file[150 + 4 * WORDS];
    int16_t words[WORDS];
    make_sample(s, WORDS, words, file);
    for (unsigned k = 0; k < 64; k++) {
        set_long(file, s->count_at, (size_t)(k % 2 ? 2863311530u : 2147483648u) - 32 + k);
        try_both(s, file, words);
    }
}

/* Words that fit but for those at a and b, a not above b: each is outside 12 bits or not, and the lower one outside is the place. */
static void pack_two(const sampler *s, size_t a, int lower, size_t b, int upper) {
    uint8_t file[150 + 4 * WORDS];
    int16_t words[WORDS];
    make_sample(s, WORDS, words, file);
    words[b] = (int16_t)upper;
    words[a] = (int16_t)lower;
    sj_counted r = try_pack(s, file, s->header, words, WORDS, 2 * MOST);
    bool outside = !fits(s, lower) || !fits(s, upper);
    CHECK(r.refusal == (outside ? 19u : 0u) && r.place == (!outside ? 0 : fits(s, lower) ? b : a));
}

/* Both edges of 12 bits at every word and every two words, and values all over 16 bits; each time all other words fit. */
static void words_outside(const sampler *s) {
    static const int edges[] = {-32768, -2049, -2048, 2047, 2048, 32767};
    size_t n = sizeof edges / sizeof *edges;
    for (size_t a = 0; a < WORDS; a++)
        for (size_t i = 0; i < n; i++) {
            pack_two(s, a, edges[i], a, edges[i]);
            for (size_t b = a + 1; b < WORDS; b++)
                for (size_t k = 0; k < n; k++)
                    pack_two(s, a, edges[i], b, edges[k]);
        }
    for (int value = -32768; value <= 32767; value += value < -2100 || value > 2100 ? 31 : 1) {
        size_t at = next_random() % WORDS;
        pack_two(s, at, value, at, value);
    }
}

static bool gives(sj_counted r, uint32_t refusal, size_t place, size_t count) { return r.refusal == refusal && r.place == place && r.count == count; }

/* Null slices of length 0 in every combination, in calls that refuse them and in calls that are done without a word. */
static void null_slices(const sampler *s) {
    uint8_t none[150], two[156], out[156];
    int16_t words[2];
    make_header(s, none, 0);
    make_sample(s, 2, words, two);
    memset(out, 7, sizeof out);
    CHECK(gives(s->unpack(NULL, 0, NULL, 0), 18, 0, 0));
    CHECK(gives(s->unpack(NULL, 0, words, 2), 18, 0, 0));
    CHECK(gives(s->unpack(none, s->header, NULL, 0), 0, 0, 0));
    CHECK(gives(s->unpack(two, s->header + s->data, NULL, 0), 21, 0, 0));
    CHECK(gives(s->pack(NULL, 0, NULL, 0, NULL, 0), 18, 0, 0));
    CHECK(gives(s->pack(NULL, 0, NULL, 0, out, sizeof out), 18, 0, 0));
    CHECK(gives(s->pack(NULL, 0, words, 2, NULL, 0), 18, 0, 0));
    CHECK(gives(s->pack(NULL, 0, words, 2, out, sizeof out), 18, 0, 0));
    CHECK(gives(s->pack(two, s->header, NULL, 0, NULL, 0), 18, s->count_at, 0));
    CHECK(gives(s->pack(two, s->header, NULL, 0, out, sizeof out), 18, s->count_at, 0));
    CHECK(gives(s->pack(two, s->header, words, 2, NULL, 0), 21, 0, 0));
    CHECK(gives(s->pack(none, s->header, NULL, 0, NULL, 0), 21, 0, 0));
    for (size_t i = 0; i < sizeof out; i++)
        CHECK(out[i] == 7);
    CHECK(gives(s->pack(none, s->header, NULL, 0, out, sizeof out), 0, 0, s->header));
    CHECK(memcmp(out, none, s->header) == 0 && out[s->header] == 7);
}

static void samples(const sampler *s) {
    sample_sizes(s);
    longer_samples(s);
    header_bytes(s);
    broken_rules(s);
    wrapped_counts(s);
    words_outside(s);
    null_slices(s);
}

static void worked_words(void) {
    const int16_t p11[2] = {291, -1}, p12[2] = {-2048, 2047};
    uint8_t header[60], out[63];
    make_header(&S900, header, 2);
    CHECK(sj_s900_pack(header, 60, p11, 2, out, 63).count == 63 && out[60] == 63 && out[61] == 18 && out[62] == 255);
    CHECK(sj_s900_pack(header, 60, p12, 2, out, 63).count == 63 && out[60] == 15 && out[61] == 128 && out[62] == 127);
}

/* ---- programs: count bytes from an offset on, each from low to high or, where there is one, the other value */
typedef struct {
    int at, count, low, high, other;
    bool own; /* the place is the byte's, else the first byte's */
} rule;

#define ONE(at, low, high) {at, 1, low, high, low, false}

static const rule PROGRAM[] = {
    ONE(0, 1, 1), ONE(1, 150, 150), ONE(2, 0, 0), {3, 12, 0, 40, 0, true}, ONE(15, 0, 127), {16, 1, 0, 15, 255, false},
    ONE(17, 1, 16), ONE(18, 0, 3), ONE(19, 24, 127), ONE(20, 24, 127), ONE(21, -2, 2), {22, 1, 0, 7, 255, false},
    ONE(23, 0, 99), ONE(24, -50, 50), ONE(25, 0, 99), ONE(26, -50, 50), ONE(27, -50, 50), ONE(28, -50, 50), ONE(29, 0, 99),
    ONE(30, 0, 99), ONE(31, 0, 99), ONE(32, -50, 50), ONE(33, 0, 99), ONE(34, 0, 99), ONE(35, 0, 99), ONE(36, 0, 99),
    ONE(37, 0, 99), ONE(38, 0, 99), ONE(39, 0, 12), ONE(40, -12, 12), ONE(41, 0, 1), {44, 12, -25, 25, 0, false}, ONE(56, 0, 1),
    ONE(57, -50, 50), ONE(58, 0, 1), ONE(59, 0, 1), ONE(61, 0, 1), ONE(62, 0, 99), ONE(63, 0, 99), ONE(64, 0, 99),
    ONE(66, -50, 50), ONE(67, -50, 50), ONE(68, -50, 50), ONE(69, -50, 50), ONE(70, 0, 2), ONE(71, 0, 1),
};

#define ZONE(at)                                                                                                                    \
    {at, 12, 0, 40, 0, true}, ONE(at + 12, 0, 127), ONE(at + 13, 0, 127), ONE(at + 15, -50, 50), ONE(at + 16, -50, 50),             \
        ONE(at + 17, -50, 50), ONE(at + 18, -50, 50), ONE(at + 19, 0, 4)

/* without the next address and the four 16-bit numbers at 140 */
static const rule KEYGROUP[] = {
    ONE(0, 2, 2), ONE(3, 24, 127), ONE(4, 24, 127), ONE(6, -50, 50), ONE(7, 0, 99), ONE(8, 0, 24), ONE(9, -50, 50),
    ONE(10, -50, 50), ONE(11, -50, 50), ONE(12, 0, 99), ONE(13, 0, 99), ONE(14, 0, 99), ONE(15, 0, 99), ONE(16, -50, 50),
    ONE(17, -50, 50), ONE(18, -50, 50), ONE(19, -50, 50), ONE(20, 0, 99), ONE(21, 0, 99), ONE(22, 0, 99), ONE(23, 0, 99),
    ONE(24, -50, 50), ONE(25, -50, 50), ONE(26, -50, 50), ONE(27, -50, 50), ONE(28, -50, 50), ONE(29, -50, 50), ONE(30, 0, 1),
    ZONE(34), ZONE(58), ZONE(82), ZONE(106), ONE(130, -50, 50), ONE(131, 0, 1), {132, 4, 0, 1, 0, false}, {136, 4, 0, 7, 0, false},
    ONE(148, -50, 50),
};

static void lower(size_t *place, size_t other) {
    if (other < *place)
        *place = other;
}

static void lowest_fault(const rule *rules, size_t n, const uint8_t *part, size_t base, size_t *place) {
    for (size_t k = 0; k < n; k++)
        for (int i = 0; i < rules[k].count; i++) {
            int at = rules[k].at + i, v = rules[k].low < 0 ? (int8_t)part[at] : part[at];
            if ((v < rules[k].low || v > rules[k].high) && v != rules[k].other)
                lower(place, base + (size_t)(rules[k].own ? at : rules[k].at));
        }
}

/* The place of refusal 20, or SIZE_MAX. */
static size_t program_place(const uint8_t *file, size_t length) {
    size_t place = SIZE_MAX, n = length > 42 ? file[42] : 0;
    if (length < 150)
        return 0;
    if (n < 1 || n > 99 || length != 150 * (n + 1))
        return 42;
    lowest_fault(PROGRAM, sizeof PROGRAM / sizeof *PROGRAM, file, 0, &place);
    if (place == 2)
        place = 1;
    for (size_t k = 1; k <= n; k++) {
        const uint8_t *part = file + 150 * k;
        lowest_fault(KEYGROUP, sizeof KEYGROUP / sizeof *KEYGROUP, part, 150 * k, &place);
        if (part[1] + 256u * part[2] != 150 * (k + 1))
            lower(&place, 150 * k + 1);
        for (size_t i = 140; i < 148; i += 2) {
            int v = (int16_t)(part[i] + 256u * part[i + 1]);
            if (v < -9999 || v > 9999)
                lower(&place, 150 * k + 140);
        }
    }
    return place;
}

static void try_program(const uint8_t *file, size_t length) {
    size_t place = program_place(file, length);
    sj_counted r = sj_program(at_edge(0, file, length), length);
    if (place == SIZE_MAX)
        CHECK(r.refusal == 0 && r.place == 0 && r.count == file[42]);
    else
        CHECK(r.refusal == 20 && r.place == place && r.count == 0);
}

static void set_short(uint8_t *at, int value) {
    at[0] = (uint8_t)(value & 255);
    at[1] = (uint8_t)(value >> 8 & 255);
}

static void obey(const rule *rules, size_t n, uint8_t *part) {
    for (size_t k = 0; k < n; k++)
        for (int i = 0; i < rules[k].count; i++) {
            int value = rules[k].low + (int)(next_random() % (uint32_t)(rules[k].high - rules[k].low + 1));
            part[rules[k].at + i] = (uint8_t)(next_random() % 8 ? value : rules[k].other);
        }
}

/* A program of n keygroups in which every byte that has a rule holds a value at random that the rule allows, and every other byte noise. */
static void make_program(uint8_t *file, size_t n) {
    for (size_t i = 0; i < 150 * (n + 1); i++)
        file[i] = (uint8_t)next_random();
    obey(PROGRAM, sizeof PROGRAM / sizeof *PROGRAM, file);
    file[42] = (uint8_t)n;
    for (size_t k = 1; k <= n; k++) {
        uint8_t *part = file + 150 * k;
        obey(KEYGROUP, sizeof KEYGROUP / sizeof *KEYGROUP, part);
        set_short(part + 1, (int)(150 * (k + 1)));
        for (size_t i = 140; i < 148; i += 2)
            set_short(part + i, (int)(next_random() % 19999) - 9999);
    }
}

/* Each of the 16-bit numbers of the last keygroup, on both sides of both its edges. */
static void edge_numbers(uint8_t *file) {
    make_program(file, 3);
    for (size_t at = 590; at < 598; at += 2)
        for (int far = 9998; far <= 10001; far++)
            for (int sign = -1; sign <= 1; sign += 2) {
                uint8_t was[2] = {file[at], file[at + 1]};
                set_short(file + at, sign * far);
                CHECK(gives(sj_program(file, 600), far > 9999 ? 20 : 0, far > 9999 ? 590 : 0, far > 9999 ? 0 : 3));
                try_program(file, 600);
                memcpy(file + at, was, 2);
            }
}

static void programs(void) {
    static uint8_t file[150 * 101];
    for (size_t n = 1; n <= 100; n++) {
        make_program(file, n);
        CHECK(sj_program(file, 150 * (n + 1)).refusal == (n < 100 ? 0u : 20u));
        try_program(file, 150 * (n + 1));
        try_program(file, 150 * (n + 1) - 1);
        try_program(file, 150 * n);
    }
    for (size_t length = 0; length <= 151; length++)
        try_program(file, length);
    make_program(file, 3);
    for (size_t at = 0; at < 600; at++)
        for (int value = 0; value < 256; value++) {
            uint8_t was = file[at];
            file[at] = (uint8_t)value;
            try_program(file, 600);
            file[at] = was;
        }
    edge_numbers(file);
    for (int k = 0; k < 20000; k++) {
        make_program(file, 2);
        for (int i = 0; i < 4; i++)
            file[next_random() % 450] = (uint8_t)next_random();
        try_program(file, 450);
    }
}

int main(void) {
    worked_words();
    samples(&S900);
    samples(&S1000);
    programs();
    CHECK(gives(sj_program(NULL, 0), 20, 0, 0));
    puts("c_files: ok");
    return 0;
}
