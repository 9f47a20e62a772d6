/* The refusals in words. They are the Rust binding's (host/skilletjay/src/refusal.rs), number by number; a test there holds them equal. */
#include "skilletjay.h"

static const char *const words[] = {
    [SJ_DONE] = "done",
    [SJ_IMAGE_LENGTH] = "the image is neither 819,200 nor 1,638,400 bytes long",
    [SJ_UNKNOWN_KIND] = "the directory is of no known kind",
    [SJ_SYSTEM_BLOCK] = "a system block isn't marked as one in the map",
    [SJ_MALFORMED_SLOT] = "a slot of the directory is malformed",
    [SJ_NAME_TWICE] = "a name stands twice within one type",
    [SJ_CHAIN_ASTRAY] = "a file's chain of blocks leaves the data area",
    [SJ_CHAIN_LENGTH] = "a file's chain of blocks is shorter or longer than the file",
    [SJ_SHARED_BLOCK] = "a file shares a block with a file in a lower slot",
    [SJ_STRAY_BLOCK] = "a block is marked as used but belongs to no file",
    [SJ_NO_SUCH_FILE] = "there is no such file",
    [SJ_NAME_OR_TYPE] = "the name or the type isn't legal on this disk",
    [SJ_NAME_IN_USE] = "a file of that type already has the name",
    [SJ_NO_CONTENT] = "the content is empty",
    [SJ_NO_SLOT] = "all slots are used",
    [SJ_NO_ROOM] = "the content needs more blocks than are free",
    [SJ_CONTENT_LENGTH] = "the content is over 16,777,215 bytes",
    [SJ_OFFSET_TOO_HIGH] = "the offset is above the file's length",
    [SJ_SAMPLE_FILE] = "the sample's header or length is refused",
    [SJ_WORD_RANGE] = "a word is outside -2,048 to 2,047",
    [SJ_PROGRAM_FILE] = "the program file is refused",
    [SJ_OUTPUT_LENGTH] = "the output is shorter than what is due",
};

const char *sj_words(uint32_t refusal) {
    return refusal < sizeof words / sizeof words[0] ? words[refusal] : "there is no refusal of this number";
}
