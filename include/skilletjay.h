/* Skilletjay: floppy images of Akai S900, S950, S1000 and S3000 samplers, read and written by proved code.
 *
 * Every function takes any bytes and ends. None keeps a pointer, allocates, or writes to anything but what is lent to it as
 * not const. Slices are a pointer and a length; a slice of length 0 may be a null pointer. Nothing that is lent to one call
 * may overlap anything else that is lent to it.
 *
 * `refusal` is SJ_DONE, 0, when the call was done, else the number of the refusal; then `place` is its place and every other field is 0.
 *
 * Calls share nothing. Any number of them may read one image at once, each from a thread of its own; one that writes to it (sj_put, sj_remove,
 * sj_salvage, sj_run) needs it alone.
 *
 * Every call on an image but sj_salvage checks it first and refuses by 1 to 9 before it looks at its other arguments.
 *
 * A disk is an S900's or an S1000's, of low density or high, or an S3000's (byte 16 of the image is 255), of high density alone. Its directory has 64
 * slots, an S3000's 512; they count from 0. A type is the byte on the disk: A to Z (S900), a to z (S1000), 193 to 218 (S3000), which is A to Z with 128
 * added: there 211 is S, and 83 is no type.
 *
 * A file is known by its name and its type together: names need differ only within one type, so that PIANO may be a sample and a program on one disk.
 */
#ifndef SKILLETJAY_H
#define SKILLETJAY_H

#include <stdbool.h>
#include <stddef.h>
#include <stdint.h>

#define SJ_VERSION "0.6.0"
#define SJ_VERSION_MAJOR 0
#define SJ_VERSION_MINOR 6
#define SJ_VERSION_PATCH 0

#ifdef __cplusplus
extern "C" {
#endif

/* What a result's `refusal` may be. Places count from 0; the lowest one is given, and it is 0 where none is named here. */
typedef enum {
    SJ_DONE = 0,

    /* of the image: sj_check, and every call on an image */
    SJ_IMAGE_LENGTH = 1,   /* neither 819,200 nor 1,638,400 bytes */
    SJ_UNKNOWN_KIND = 2,   /* the directory's identities are of no kind, or it is an S3000's on an image of low density */
    SJ_SYSTEM_BLOCK = 3,   /* not marked as one in the map of an S1000 or S3000 disk; place: the block */
    SJ_MALFORMED_SLOT = 4, /* name, type or length of a used slot, on an S3000 disk its identity too; place: the slot */
    SJ_NAME_TWICE = 5,     /* within one type; place: the higher slot */
    SJ_CHAIN_ASTRAY = 6,   /* a file's chain leaves the data area; place: the slot */
    SJ_CHAIN_LENGTH = 7,   /* a file's chain is shorter or longer than the file; place: the slot */
    SJ_SHARED_BLOCK = 8,   /* a block on two chains; place: the higher slot */
    SJ_STRAY_BLOCK = 9,    /* marked as used, and on no file's chain; place: the block */

    /* of the call */
    SJ_NO_SUCH_FILE = 10,    /* of that name and type; or the slot is empty, or there is none: above 63, on an S3000 disk above 511 */
    SJ_NAME_OR_TYPE = 11,    /* one of them isn't legal on this disk */
    SJ_NAME_IN_USE = 12,     /* a file has the name and the type; place: its slot */
    SJ_NO_CONTENT = 13,      /* a content of 0 bytes */
    SJ_NO_SLOT = 14,         /* all are used: 64, on an S3000 disk 512 */
    SJ_NO_ROOM = 15,         /* the content needs more blocks than are free */
    SJ_CONTENT_LENGTH = 16,  /* over 16,777,215 bytes; SJ_NO_ROOM is asked first, so it is never given */
    SJ_OFFSET_TOO_HIGH = 17, /* above the file's length */

    /* of files outside the disk, and of what is lent */
    SJ_SAMPLE_FILE = 18,  /* the file or its header is refused; place: the offset, 0 for its size */
    SJ_WORD_RANGE = 19,   /* outside -2,048 to 2,047; place: the lowest word's index */
    SJ_PROGRAM_FILE = 20, /* the file is refused; place: the offset, 0 for its size */
    SJ_OUTPUT_LENGTH = 21 /* shorter than what is due */
} sj_refusal;

/* A refusal in words, as a sentence without its full stop; a number that is none has words too. The text is constant, and never null. This
 * function alone isn't of the proved library: it is c/sj_words.c, which the archive that is installed has too. */
const char *sj_words(uint32_t refusal);

typedef struct {
    uint32_t refusal;
    size_t place;
    uint32_t kind;    /* 900, 1000 or 3000 */
    uint32_t density; /* 0 low, 1 high */
    size_t files;
    size_t free; /* free blocks of 1,024 bytes */
} sj_checked;

typedef struct {
    uint32_t refusal;
    size_t place;
    uint8_t name[12]; /* ASCII; on an S900 disk ten bytes and two zeros, on the others twelve with letters in capitals */
    uint8_t type;     /* the type byte: A to Z (S900), a to z (S1000), 193 to 218 (S3000) */
    size_t length;    /* the file's bytes */
} sj_listed;

typedef struct {
    uint32_t refusal;
    size_t place;
    size_t slot;
} sj_found;

typedef struct {
    uint32_t refusal;
    size_t place;
    size_t count; /* bytes written to the front of the output */
    bool end;     /* whether the file ends with them */
} sj_paged;

typedef struct {
    uint32_t refusal;
    size_t place;
} sj_done;

typedef struct {
    uint32_t refusal;
    size_t place;
    size_t count;
} sj_counted;

/* Whether an image is accepted: refusals 1 to 9. Reads the length and no byte past the first 17,408. The image is lent and kept. */
sj_checked sj_check(const uint8_t *image, size_t image_len);

/* What a slot holds, 0 to 63 (S3000: 511): refusals 1 to 9, then 10 if it is empty or there is no such slot. An S1000 or S3000 name is given in
 * capitals, however it was typed. The image is lent and kept. */
sj_listed sj_list(const uint8_t *image, size_t image_len, size_t slot);

/* The slot of the file with a name and a type. The name is in ASCII and of its exact length, 10 bytes (S900) or 12 (S1000, S3000), padded with
 * spaces; the type is the byte itself: A to Z (S900), a to z (S1000), 193 to 218 (S3000). Refusals 1 to 9, then 11 if the name or the type isn't
 * legal, then 10 if no file has both. On S1000 and S3000 disks a to z in a name are taken as A to Z, here and in sj_put and sj_remove; S900 names
 * keep their case. Image and name are lent and kept. */
sj_found sj_find(const uint8_t *image, size_t image_len, const uint8_t *name, size_t name_len, uint8_t type);

/* The file's bytes from an offset on: as many as the output holds and the file has left are written to the output's front. The
 * output's other bytes are kept, and all of them on a refusal: 1 to 9, then 10, then 17. At the offset that is the file's length
 * the count is 0 and the end is reached. The image is lent and kept. */
sj_paged sj_page(const uint8_t *image, size_t image_len, size_t slot, size_t offset, uint8_t *out, size_t out_len);

/* The numbers of the blocks that hold a slot's file, in the file's order, to the output's front; gives how many they are, at most 1,595. Refusals
 * 1 to 9, then 10, then 21 where the output has no room for all of them. The output's other numbers are kept, and all of them on a refusal. The
 * image is lent and kept.
 *
 * Like sj_check, sj_list and sj_find it reads the length and no byte past the first 17,408. Who keeps images elsewhere can lend zeros for the rest; for
 * pages of a file fetch its blocks too, 1,024 bytes each at 1,024 times its number, and no others. Every answer is that on the whole image. */
sj_counted sj_blocks(const uint8_t *image, size_t image_len, size_t slot, uint16_t *blocks, size_t blocks_len);

/* Puts a file: the lowest empty slot, the lowest free blocks in rising order, zeros after the content in its last block. Name and type are as for
 * sj_find. An S1000 or S3000 disk keeps the name in capitals: two spellings that differ in case alone are one name there. The slot's 24 bytes are
 * written whole, on an S3000 disk with an identity that an empty slot need not have had. Refusals 1 to 9, then 11, 13, 12 if a file has that name and
 * that type, 14, 15, 16. Name and content are lent and kept; so is the image on a refusal. On 16: 15 is asked first, so it is never given. */
sj_found sj_put(uint8_t *image, size_t image_len, const uint8_t *name, size_t name_len, uint8_t type, const uint8_t *content, size_t content_len);

/* Removes the file with a name and a type, which are as for sj_find: its slot becomes zeros but for the identity, its blocks free; data bytes
 * stay, and so does a file of that name and another type. Refusals 1 to 9, then 11, then 10. The name is lent and kept; so is the image on a
 * refusal. */
sj_done sj_remove(uint8_t *image, size_t image_len, const uint8_t *name, size_t name_len, uint8_t type);

/* Mends an image in place and says slot by slot what was lost: refusals 1 and 2, then 21 for a report of fewer bytes than the disk has slots (64, on an
 * S3000 disk 512: as many do for every kind), and none else. Slots are taken in rising order. Each slot's byte of the report becomes 0 for an empty
 * slot, 1 for one that is kept, else the number that it is dropped for, the first that applies: SJ_MALFORMED_SLOT, SJ_NAME_TWICE if a kept lower slot has
 * its name and type, SJ_CHAIN_ASTRAY or SJ_CHAIN_LENGTH by the map as given, SJ_SHARED_BLOCK if a kept lower slot's chain has one of its blocks. A
 * dropped slot's bytes become those that sj_remove leaves; then the map values of data blocks on no kept chain become 0, those of system blocks 16,384
 * (S1000: the first 4 or 5, S3000: the first 17). Gives how many map values are others than before. No data byte changes.
 *
 * The image is accepted afterwards, and what is kept reads as its own chain says; an accepted image comes back as it was, with a count of 0. The
 * report's other bytes are kept; on a refusal all of them are, and the image too. */
sj_counted sj_salvage(uint8_t *image, size_t image_len, uint8_t *report, size_t report_len);

/* Makes the calls of a script one after another on one image, and gives how many were made. It ends at the script's end, before the first entry
 * that is no call, or where the output has no part left. Each entry is 20 bytes, numbers least significant byte first:
 *
 *   byte 0   0 list, 1 page, 2 find, 3 remove, 4 put; more is no call
 *   byte 1   find, remove, put: the type
 *   4 to 7   list, page: the slot; the others: the name's offset in the pool
 *   8 to 11  page: the offset; find, remove, put: the name's length
 *   12 to 15 put: the content's offset in the pool; 16 to 19 its length (a name or content outside the pool is no call)
 *
 * The k-th call writes to the k-th part of the output, 1,044 bytes: refusal or 0 (3 bytes); its place, or the call's length, count or slot (3
 * bytes); type; 1 if the file's end is reached; name (12 bytes); then a page of up to 1,024 bytes. All else of the output is kept. Script and
 * pool are lent and kept; a refused call keeps the image, and the script goes on. */
size_t sj_run(uint8_t *image, size_t image_len, const uint8_t *script, size_t script_len, const uint8_t *pool, size_t pool_len, uint8_t *out,
              size_t out_len);

/* The words of an S900 sample file, from -2,048 to 2,047, to the front of an array; gives their number. Refusal 18: at 0 for a file shorter
 * than its header of 60 bytes, at 16 for an odd number of words or one that the file's length doesn't fit, else at the lowest offset of the header
 * whose rule fails; then 21 for an array of fewer words. The array's other words are kept, and all of them on a refusal; so is the file. */
sj_counted sj_s900_unpack(const uint8_t *file, size_t file_len, int16_t *words, size_t words_len);

/* An S900 sample file of a header of 60 bytes and words, to the output's front; gives the file's length, 60 bytes and one and a half for each
 * word. Refusal 18: at 0 for a header of another size, at 16 for an odd number of words or another than is lent, else at the lowest offset whose
 * rule fails; then 19 at the lowest word that 12 bits don't hold; then 21. The output's other bytes are kept, and all of them on a refusal;
 * so are header and words. */
sj_counted sj_s900_pack(const uint8_t *header, size_t header_len, const int16_t *words, size_t words_len, uint8_t *out, size_t out_len);

/* The same for S1000 sample files: a header of 150 bytes with the number of words at 26, and two bytes for each word. No word is refused. */
sj_counted sj_s1000_unpack(const uint8_t *file, size_t file_len, int16_t *words, size_t words_len);
sj_counted sj_s1000_pack(const uint8_t *header, size_t header_len, const int16_t *words, size_t words_len, uint8_t *out, size_t out_len);

/* The number of keygroups of an S1000 program file. Refusal 20: at 0 under 150 bytes, at 42 for a number of keygroups that isn't 1 to 99 or that
 * the length doesn't fit, else at the lowest offset whose rule fails. The file is lent and kept. */
sj_counted sj_program(const uint8_t *file, size_t file_len);

#ifdef __cplusplus
}
#endif

#endif
