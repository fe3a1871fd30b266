/*
 * XP10 command lists: the reader, of one list and of several in one call, the normaliser and the room that it needs, PCI
 * writes from a list and back, and books of scenes, proved in Rattle (crates/host).
 * Link with crates/host/out/libhost.a, which `rt lib` makes in crates/host.
 *
 * Each slice is a pointer and a number of 32-bit words. No pointer is null, also with no words, and a slice that is
 * written overlaps no other.
 */
#ifndef XP10_H
#define XP10_H

#include <stddef.h>
#include <stdint.h>

#ifdef __cplusplus
extern "C" {
#endif

/*
 * Verdicts. Of a refusal first its position, which counts words from 0, then what it means and what to look at: `xp10 help` prints
 * the same of those that the tool gives. Of several faults the first command's is told; in one command the first of 3 to 7, then 15
 * to 19, then 9 and 10.
 */
enum {
    /* the list's length */
    XP10_ACCEPTED = 0,
    /* 4096: more than 4,096 words - split the list */
    XP10_LIST_TOO_LONG = 1,
    /* 0: the image has not 256 words - the caller's image, not the list */
    XP10_IMAGE_SIZE = 2,
    /* the command: unknown id - bits 31..24 of that word; often the command before has a wrong length */
    XP10_UNKNOWN_ID = 3,
    /* the command: id 03 or 04 - these go over PCI only, never in a list */
    XP10_PCI_ONLY = 4,
    /* the command: fewer than four words left for a group - the list was cut, or its last group */
    XP10_GROUP_CUT_SHORT = 5,
    /* that word: undefined bit set - the bit that the answer names, the lowest one: it must be zero */
    XP10_UNDEFINED_BIT = 6,
    /* that word: illegal value - load code, zero words of a load or primitive, bank 3 of a window clip */
    XP10_ILLEGAL_VALUE = 7,
    /* the command: payload cut short - the load's length, bits 8..0, counts groups of four words behind its own */
    XP10_PAYLOAD_CUT_SHORT = 9,
    /* the command: follows a surface base and is no BEGIN - put the BEGIN right behind the base */
    XP10_NO_BEGIN = 10,
    /* the list's length: record or output buffer too small - lend four words for each work command, for a form as many words
     * as the list has, or in mode 0 what the measurer tells, twice as many for its PCI writes; for a book, where it stands
     * at 0, a word, three for each scene, and all bodies */
    XP10_BUFFER_TOO_SMALL = 11,
    /* whole words read: programs only: bytes no multiple of four - the file was cut, or is no list */
    XP10_UNEVEN_BYTES = 12,
    /* that pair, counted from 0: PCI writes only: not the address that the command asks for - the address; often a value is
     * missing or the command before has a wrong length */
    XP10_WRONG_ADDRESS = 13,
    /* the command's first pair: PCI writes only: the pairs end inside a command - the writes were cut, or a load's length is
     * too large */
    XP10_PAIRS_CUT_SHORT = 14,
    /* the command: window clip: page maximum over the bank's limit - third word, bits 31..28: at most 15, 11 and 6 for banks
     * 0, 1 and 2 (second word, bits 29..28) */
    XP10_PAGE_MAXIMUM = 15,
    /* the command: window clip: page minimum against the maximum - third word: bits 15..12 (minimum) are at most bits 31..28
     * (maximum) */
    XP10_PAGE_MINIMUM = 16,
    /* the command: raster mode: raster bits - header bit 14 (always full page) may be set only with bit 22 (page-based
     * rendering) */
    XP10_RASTER_BITS = 17,
    /* the command: load: bit 23 - header bit 23 (float conversion) may be set only with code 5 in bits 22..20 */
    XP10_LOAD_FLOATS = 18,
    /* the command: load: plane range - header bits 18..10 (offset) and 8..0 (length): their sum is at most 8 with code 5 */
    XP10_PLANE_RANGE = 19,
    /* 0: sessions only: a pair after the 4,096th, or outside the word buffer - the table: a start plus its length is at most
     * the buffer's words; the number of lists applied is that of the pair, counted from 0 */
    XP10_PAIR_OUTSIDE = 20,
    /* 0: reader and normaliser as functions only: a mode over 3 - the mode: 0 unchanged, 1 bytes swapped in each half, 2
     * halves swapped, 3 all four bytes reversed */
    XP10_NO_SUCH_MODE = 21,
    /* 0: books only: the table is cut short, or has over 256 entries - the first word, the number of entries, and three
     * words for each; a writer's table has no first word and is a multiple of three words */
    XP10_CONTENTS_CUT_SHORT = 22,
    /* 0: books only: scene numbers do not rise - each number is over the one before, as unsigned words */
    XP10_NUMBERS_NOT_RISING = 23,
    /* 0: books only: a body too long or not where it belongs, or words left over - lengths are at most 4,096; starts count
     * from the book's beginning, the first body is right behind the table and the last ends with the book; in a writer's
     * table a start plus its length is at most the buffer's words */
    XP10_BODY_MISPLACED = 24,
    /* 0: books only: no such scene - the number that was asked for */
    XP10_NO_SUCH_SCENE = 25
};

/*
 * The modes of xp10_read and xp10_normalise, for a host whose byte order is not the board's: how the board swaps the bytes of
 * each word of a list, payload too, before it reads it (CommandSwap, with the guide's names). Positions count the list's words
 * as ever; image, records and normal form hold the words as swapped, so a form is read back in XP10_NO_SWAP. The other
 * functions do not swap.
 */
enum {
    XP10_NO_SWAP = 0,   /* unchanged */
    XP10_HALF_SWAP = 1, /* the bytes swapped in each half: 11223344 is got as 22114433 */
    XP10_WORD_SWAP = 2, /* the halves swapped: 11223344 is got as 33441122 */
    XP10_FULL_SWAP = 3  /* all four bytes reversed: 11223344 is got as 44332211 */
};

/*
 * The numbers of an answer. Those that `answer` has no room for are left out: five words get none behind XP10_WORDS. After
 * a refusal XP10_COMMANDS, XP10_RECORDS and XP10_WORDS are 0, but for xp10_read_scenes.
 */
enum {
    XP10_VERDICT,
    XP10_POSITION,
    XP10_COMMANDS,
    XP10_RECORDS,
    XP10_WORDS, /* the words written to `records`, `out`, `pairs` or `list`; of xp10_measure, those that the form has */
    XP10_BIT,   /* with XP10_UNDEFINED_BIT the number of the lowest undefined bit set in the word, else 32 */
    XP10_LISTS, /* of xp10_read_scenes alone, the lists applied; the other functions leave this word as it was */
    XP10_ANSWER_WORDS
};

/*
 * Reads a list in a mode: returns the verdict, and on acceptance leaves the new image, and a record of four words for each
 * work command: id, position, length in words with payload, header. A refusal changes neither.
 * It takes up to 18 kB of stack, and so does xp10_normalise: 16 kB of it are for the words as swapped, set aside in every mode.
 */
uint32_t xp10_read(const uint32_t *list, size_t list_words,
                   uint32_t *image, size_t image_words,
                   uint32_t *records, size_t records_words,
                   uint32_t *answer, size_t answer_words,
                   uint32_t mode);

/*
 * Reads several lists of one word buffer in turn, over one image: `table` has a start and a length, in words, for each; an
 * odd last word is ignored. Each list is read as by xp10_read in XP10_NO_SWAP, from the image that the lists before left
 * and with the record room that they left; the positions of its records count inside it. The first refused list ends the
 * call: its refusal, with the position inside that list and the bit, is told and changes nothing more, and the lists before
 * it stay applied. XP10_COMMANDS, XP10_RECORDS and XP10_WORDS are sums over the lists applied, also after a refusal, and
 * XP10_LISTS is how many these are. XP10_PAIR_OUTSIDE is asked when a pair's turn comes, before its list is looked at. On
 * acceptance XP10_POSITION is the last list's length; with no pair it is 0, and the image may have any size.
 */
uint32_t xp10_read_scenes(const uint32_t *words, size_t words_words,
                          const uint32_t *table, size_t table_words,
                          uint32_t *image, size_t image_words,
                          uint32_t *records, size_t records_words,
                          uint32_t *answer, size_t answer_words);

/*
 * Writes the normal form of a list in a mode, from a starting image: returns the verdict. A form has at most as many words as
 * its list; xp10_measure tells how many, in XP10_NO_SWAP alone. A refusal leaves `out` as it was.
 */
uint32_t xp10_normalise(const uint32_t *list, size_t list_words,
                        const uint32_t *image, size_t image_words,
                        uint32_t *out, size_t out_words,
                        uint32_t *answer, size_t answer_words,
                        uint32_t mode);

/*
 * Tells the room that a list's normal form takes, before a buffer is lent: returns the verdict, and on acceptance
 * XP10_WORDS is the form's length, at most the list's. It refuses what xp10_normalise refuses in XP10_NO_SWAP but for
 * XP10_BUFFER_TOO_SMALL, and only `answer` is written. An `out` of just so many words is enough for xp10_normalise in that
 * mode, which then gives the same answer, and one word less never is.
 */
uint32_t xp10_measure(const uint32_t *list, size_t list_words,
                      const uint32_t *image, size_t image_words,
                      uint32_t *answer, size_t answer_words);

/*
 * Writes a list as PCI writes, for a board without list fetch: returns the verdict. Two words for each of the list, the
 * address and the value: a command's first word goes to 0x2800 + id * 4, a group's next three to the next three addresses
 * in steps of 4, and each payload group to the same four again. It refuses what the reader refuses; a refusal leaves
 * `pairs` as it was.
 */
uint32_t xp10_to_pci(const uint32_t *list, size_t list_words,
                     const uint32_t *image, size_t image_words,
                     uint32_t *pairs, size_t pairs_words,
                     uint32_t *answer, size_t answer_words);

/*
 * Writes the list that PCI writes carry: returns the verdict. An odd last word is ignored. XP10_LIST_TOO_LONG and
 * XP10_IMAGE_SIZE come first, then XP10_WRONG_ADDRESS or XP10_PAIRS_CUT_SHORT as the pairs are met, then what the reader
 * refuses in the list, at its word there, last XP10_BUFFER_TOO_SMALL. A refusal leaves `list` as it was.
 */
uint32_t xp10_from_pci(const uint32_t *pairs, size_t pairs_words,
                       const uint32_t *image, size_t image_words,
                       uint32_t *list, size_t list_words,
                       uint32_t *answer, size_t answer_words);

/*
 * A book holds scenes in one buffer: its first word is the number of entries, 0 to 256; then each has three words, the scene's
 * number, the start of its body, counted in words from the book's beginning, and the length; then come the bodies, of at most
 * 4,096 words each, one behind the other, and nothing else. The numbers rise strictly.
 */

/* Where a scene is in its book. Those that `place` has no room for are left out. */
enum {
    XP10_START,
    XP10_LENGTH,
    XP10_PLACE_WORDS
};

/* The numbers of an answer of xp10_write_book. Those that `answer` has no room for are left out. */
enum {
    XP10_BOOK_VERDICT,
    XP10_BOOK_WORDS, /* the words written to `book`, 0 after a refusal */
    XP10_BOOK_ANSWER_WORDS
};

/*
 * Finds a scene in a book: returns the verdict, and in `place` where its words are; after a refusal XP10_START and XP10_LENGTH
 * are 0. XP10_CONTENTS_CUT_SHORT, XP10_NUMBERS_NOT_RISING and XP10_BODY_MISPLACED are told in this order, whatever scene is
 * asked for, each looked for in all entries before the next, and XP10_NO_SUCH_SCENE last. No body is looked at.
 */
uint32_t xp10_find_scene(const uint32_t *book, size_t book_words,
                         uint32_t number,
                         uint32_t *place, size_t place_words);

/*
 * Writes the book of a table of scenes: returns the verdict. `table` has three words for each scene, its number, and the start
 * and the length of its body in `words`, where bodies may lie in any order and overlap; the starts in the book are computed.
 * XP10_CONTENTS_CUT_SHORT (a table that ends inside an entry too), XP10_NUMBERS_NOT_RISING and XP10_BODY_MISPLACED are told in
 * this order, each looked for in all entries before the next, and XP10_BUFFER_TOO_SMALL last. A refusal leaves `book` as it was,
 * and words behind those written stay.
 */
uint32_t xp10_write_book(const uint32_t *table, size_t table_words,
                         const uint32_t *words, size_t words_words,
                         uint32_t *book, size_t book_words,
                         uint32_t *answer, size_t answer_words);

#ifdef __cplusplus
}
#endif

#endif
