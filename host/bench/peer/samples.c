/* Sample files after document 01 by hand in plain C: what the library's packers and unpackers are timed against. Each function has
 * the signature of the library's. */
#include "skilletjay.h"

#include <string.h>

enum { HEADER_900 = 60, HEADER_1000 = 150, COUNT_900 = 16, COUNT_1000 = 26, SOUND = -1 };

static size_t number4(const uint8_t *p) { return p[0] | (size_t)p[1] << 8 | (size_t)p[2] << 16 | (size_t)p[3] << 24; }

static sj_counted refused(uint32_t number, size_t place) { return (sj_counted){number, place, 0}; }

/* The lowest offset of a header whose rule fails, or SOUND. */
static int fault_900(const uint8_t *header) {
    size_t count = number4(header + 16), end = number4(header + 28);
    for (int i = 0; i < 10; i++)
        if (header[i] < 32 || header[i] > 126)
            return i;
    for (int i = 10; i < 16; i++)
        if (header[i] != 0)
            return i;
    if (header[24] != 0)
        return 24;
    if (header[25] != 0)
        return 25;
    if (header[26] != 'O' && header[26] != 'L' && header[26] != 'A')
        return 26;
    if (header[27] != 0)
        return 27;
    if (end > count)
        return 28;
    if (number4(header + 32) > end)
        return 32;
    return number4(header + 36) > end ? 36 : SOUND;
}

static bool is_tuning(uint8_t byte) { return -50 <= (int8_t)byte && (int8_t)byte <= 50; }

static int fault_1000(const uint8_t *header) {
    size_t count = number4(header + 26), end = number4(header + 34);
    if (header[0] != 3)
        return 0;
    if (header[2] > 127)
        return 2;
    for (int i = 3; i < 15; i++)
        if (header[i] > 40)
            return i;
    if (header[15] != 128)
        return 15;
    if (header[16] > 8)
        return 16;
    if (header[19] > 3)
        return 19;
    if (!is_tuning(header[20]))
        return 20;
    if (!is_tuning(header[21]))
        return 21;
    if (number4(header + 30) > end)
        return 30;
    return end > count ? 34 : SOUND;
}

sj_counted peer_s900_unpack(const uint8_t *file, size_t file_len, int16_t *words, size_t words_len) {
    if (file_len < HEADER_900)
        return refused(18, 0);
    size_t count = number4(file + COUNT_900), half = count / 2;
    if (count % 2 != 0 || file_len != HEADER_900 + count + half)
        return refused(18, COUNT_900);
    int place = fault_900(file);
    if (place != SOUND)
        return refused(18, (size_t)place);
    if (words_len < count)
        return refused(21, 0);
    const uint8_t *data = file + HEADER_900, *uppers = data + count;
    for (size_t i = 0; i < half; i++) {
        words[i] = (int16_t)((int8_t)data[2 * i + 1] * 16 + (data[2 * i] >> 4));
        words[half + i] = (int16_t)((int8_t)uppers[i] * 16 + (data[2 * i] & 15));
    }
    return (sj_counted){0, 0, count};
}

static bool is_outside(int16_t word) { return word < -2048 || word > 2047; }

/* Whether 12 bits do not hold some word: asked of all before the lowest is looked for, so that gcc asks many at a time. */
static bool is_any_outside(const int16_t *words, size_t count) {
    int any = 0;
    for (size_t i = 0; i < count; i++)
        any |= is_outside(words[i]);
    return any != 0;
}

static size_t lowest_outside(const int16_t *words) {
    size_t i = 0;
    while (!is_outside(words[i]))
        i++;
    return i;
}

sj_counted peer_s900_pack(const uint8_t *header, size_t header_len, const int16_t *words, size_t words_len, uint8_t *out, size_t out_len) {
    if (header_len != HEADER_900)
        return refused(18, 0);
    size_t count = number4(header + COUNT_900), half = count / 2;
    if (count % 2 != 0 || count != words_len)
        return refused(18, COUNT_900);
    int place = fault_900(header);
    if (place != SOUND)
        return refused(18, (size_t)place);
    if (is_any_outside(words, count))
        return refused(19, lowest_outside(words));
    if (out_len < HEADER_900 + count + half)
        return refused(21, 0);
    memcpy(out, header, HEADER_900);
    uint8_t *data = out + HEADER_900, *uppers = data + count;
    for (size_t i = 0; i < half; i++) {
        data[2 * i] = (uint8_t)((words[i] & 15) << 4 | (words[half + i] & 15));
        data[2 * i + 1] = (uint8_t)(words[i] >> 4);
        uppers[i] = (uint8_t)(words[half + i] >> 4);
    }
    return (sj_counted){0, 0, HEADER_900 + count + half};
}

sj_counted peer_s1000_unpack(const uint8_t *file, size_t file_len, int16_t *words, size_t words_len) {
    if (file_len < HEADER_1000)
        return refused(18, 0);
    size_t count = number4(file + COUNT_1000);
    if (file_len != HEADER_1000 + 2 * count)
        return refused(18, COUNT_1000);
    int place = fault_1000(file);
    if (place != SOUND)
        return refused(18, (size_t)place);
    if (words_len < count)
        return refused(21, 0);
    const uint8_t *data = file + HEADER_1000;
    for (size_t i = 0; i < count; i++)
        words[i] = (int16_t)(data[2 * i] | data[2 * i + 1] << 8);
    return (sj_counted){0, 0, count};
}

sj_counted peer_s1000_pack(const uint8_t *header, size_t header_len, const int16_t *words, size_t words_len, uint8_t *out, size_t out_len) {
    if (header_len != HEADER_1000)
        return refused(18, 0);
    size_t count = number4(header + COUNT_1000);
    if (count != words_len)
        return refused(18, COUNT_1000);
    int place = fault_1000(header);
    if (place != SOUND)
        return refused(18, (size_t)place);
    if (out_len < HEADER_1000 + 2 * count)
        return refused(21, 0);
    memcpy(out, header, HEADER_1000);
    uint8_t *data = out + HEADER_1000;
    for (size_t i = 0; i < count; i++) {
        data[2 * i] = (uint8_t)words[i];
        data[2 * i + 1] = (uint8_t)(words[i] >> 8);
    }
    return (sj_counted){0, 0, HEADER_1000 + 2 * count};
}
