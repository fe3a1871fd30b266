/*
 * From C: reads a list, asks how long its normal form is and writes it in just that room, writes its PCI writes and the list
 * of these, reads two bad lists, several lists in one call, and a list in the other byte order, writes a book of two scenes, and
 * reads a list where it is in the book.
 */
#include <inttypes.h>
#include <stdio.h>
#include <stdlib.h>
#include <string.h>

#include "xp10.h"

#define WORDS(a) (sizeof(a) / sizeof((a)[0]))

static void print_answer(const char *name, const uint32_t *answer)
{
    printf("%s: verdict %" PRIu32 " at %" PRIu32 ", commands %" PRIu32 ", records %" PRIu32 ", words %" PRIu32
           ", bit %" PRIu32 "\n",
           name, answer[XP10_VERDICT], answer[XP10_POSITION], answer[XP10_COMMANDS], answer[XP10_RECORDS],
           answer[XP10_WORDS], answer[XP10_BIT]);
}

/* Reads a list that must be refused with this verdict. */
static void print_refusal(const char *name, const uint32_t *list, size_t list_words, uint32_t verdict)
{
    uint32_t image[256] = {0};
    uint32_t records[4] = {0};
    uint32_t answer[XP10_ANSWER_WORDS] = {0};

    if (xp10_read(list, list_words, image, WORDS(image), records, WORDS(records), answer, WORDS(answer),
                  XP10_NO_SWAP) == verdict)
        print_answer(name, answer);
}

/* Asks for the room that the normal form takes, and lends so much, and then one word less. */
static void print_form(const uint32_t *list, size_t list_words, const uint32_t *start, size_t start_words)
{
    uint32_t answer[XP10_ANSWER_WORDS] = {0};

    xp10_measure(list, list_words, start, start_words, answer, WORDS(answer));
    print_answer("measure", answer);
    size_t words = answer[XP10_WORDS];
    uint32_t *out = calloc(words + 1, sizeof *out); /* not null, also for no words */
    if (answer[XP10_VERDICT] != XP10_ACCEPTED || out == NULL)
        exit(1);

    xp10_normalise(list, list_words, start, start_words, out, words, answer, WORDS(answer), XP10_NO_SWAP);
    print_answer("normalise", answer);
    for (size_t i = 0; i < words; i++)
        printf("%08" PRIx32 "\n", out[i]);
    if (words > 0) {
        xp10_normalise(list, list_words, start, start_words, out, words - 1, answer, WORDS(answer), XP10_NO_SWAP);
        print_answer("one word less", answer);
    }
    free(out);
}

static void print_records(const uint32_t *records, uint32_t words)
{
    for (const uint32_t *r = records; r != records + words; r += 4)
        printf("%" PRIu32 " %02" PRIx32 " %" PRIu32 " %06" PRIx32 "\n", r[1], r[0], r[2], r[3]);
}

/* Reads the lists of a table of starts and lengths in turn. */
static void print_scenes(const char *name, const uint32_t *words, size_t words_words, const uint32_t *table,
                         size_t table_words)
{
    uint32_t image[256] = {0};
    uint32_t records[64] = {0};
    uint32_t answer[XP10_ANSWER_WORDS] = {0};

    xp10_read_scenes(words, words_words, table, table_words, image, WORDS(image), records, WORDS(records), answer,
                     WORDS(answer));
    print_answer(name, answer);
    printf("lists applied %" PRIu32 ", image word 02 is %06" PRIx32 "\n", answer[XP10_LISTS], image[0x02]);
    print_records(records, answer[XP10_WORDS]);
}

/* Reads and normalises a list from a host of the other byte order, and then in a mode over 3. */
static void print_other_order(const uint32_t *list, size_t list_words)
{
    static const uint32_t start[256] = {0};
    uint32_t image[256] = {0};
    uint32_t words[64] = {0};
    uint32_t answer[XP10_ANSWER_WORDS] = {0};

    xp10_read(list, list_words, image, WORDS(image), words, WORDS(words), answer, WORDS(answer), XP10_FULL_SWAP);
    print_answer("the other byte order", answer);
    print_records(words, answer[XP10_WORDS]);
    printf("image word 02 is %06" PRIx32 "\n", image[0x02]);

    xp10_normalise(list, list_words, start, WORDS(start), words, WORDS(words), answer, WORDS(answer), XP10_FULL_SWAP);
    print_answer("its form", answer);
    for (uint32_t i = 0; i < answer[XP10_WORDS]; i++)
        printf("%08" PRIx32 "\n", words[i]);

    xp10_read(list, list_words, image, WORDS(image), words, WORDS(words), answer, WORDS(answer), XP10_FULL_SWAP + 1);
    print_answer("no such mode", answer);
}

/* Reads a scene where it is in its book. */
static void print_scene(const uint32_t *book, size_t book_words, uint32_t number)
{
    uint32_t place[XP10_PLACE_WORDS] = {0};
    uint32_t image[256] = {0};
    uint32_t records[64] = {0};
    uint32_t answer[XP10_ANSWER_WORDS] = {0};

    uint32_t verdict = xp10_find_scene(book, book_words, number, place, WORDS(place));
    printf("scene %" PRIu32 ": verdict %" PRIu32 ", start %" PRIu32 ", length %" PRIu32 "\n", number, verdict,
           place[XP10_START], place[XP10_LENGTH]);
    if (verdict != XP10_ACCEPTED)
        return;
    xp10_read(book + place[XP10_START], place[XP10_LENGTH], image, WORDS(image), records, WORDS(records), answer,
              WORDS(answer), XP10_NO_SWAP);
    print_answer("its list", answer);
    print_records(records, answer[XP10_WORDS]);
}

/* Writes a book of two scenes of a word buffer, in just its room and in one word less, and asks it for scenes. */
static void print_book(const uint32_t *words, size_t words_words)
{
    static const uint32_t table[] = {2, 0, 3, 7, 3, 2};
    uint32_t book[1 + WORDS(table) + 5] = {0};
    uint32_t answer[XP10_BOOK_ANSWER_WORDS] = {0};

    xp10_write_book(table, WORDS(table), words, words_words, book, WORDS(book) - 1, answer, WORDS(answer));
    printf("a book in one word less: verdict %" PRIu32 ", words %" PRIu32 "\n", answer[XP10_BOOK_VERDICT],
           answer[XP10_BOOK_WORDS]);
    xp10_write_book(table, WORDS(table), words, words_words, book, WORDS(book), answer, WORDS(answer));
    printf("a book: verdict %" PRIu32 ", words %" PRIu32 "\n", answer[XP10_BOOK_VERDICT], answer[XP10_BOOK_WORDS]);
    for (uint32_t i = 0; i < answer[XP10_BOOK_WORDS]; i++)
        printf("%08" PRIx32 "\n", book[i]);

    print_scene(book, WORDS(book), 7);
    print_scene(book, WORDS(book), 3);
    print_scene(book, WORDS(book) - 1, 7);
}

int main(void)
{
    static const uint32_t list[] = {0x02000010, 0x00000300, 0x48000000, 0, 0, 0, 0x21000100, 0x10100007, 0, 0, 0};
    static const uint32_t repeats[] = {0x02000010, 0x02000020, 0x00000001, 0x02000020};
    static const uint32_t undefined[] = {0x01000002};
    static const uint32_t clash[] = {0x84000000, 0x10000000, 0xC0000000, 0};
    static const uint32_t scenes[] = {0x02000010, 0x00000001, 0x21000000, 0x00000002, 0x02000020, 0x03000000};
    static const uint32_t good[] = {0, 3, 3, 2};
    static const uint32_t bad[] = {0, 3, 3, 1, 4, 2};
    static const uint32_t outside[] = {0, 3, 4, 3};
    static const uint32_t reversed[] = {0x10000002, 0x20000002, 0x01000000, 0x20000002};
    uint32_t image[256] = {0};
    static const uint32_t start[256] = {0};
    uint32_t records[4 * WORDS(list)] = {0};
    uint32_t pairs[2 * WORDS(list)] = {0};
    uint32_t back[WORDS(list)] = {0};
    uint32_t answer[XP10_ANSWER_WORDS] = {0};

    xp10_read(list, WORDS(list), image, WORDS(image), records, WORDS(records), answer, WORDS(answer), XP10_NO_SWAP);
    print_answer("read", answer);
    print_records(records, answer[XP10_WORDS]);
    printf("image word 02 is %06" PRIx32 "\n", image[0x02]);

    print_form(list, WORDS(list), start, WORDS(start));
    print_form(repeats, WORDS(repeats), start, WORDS(start));

    xp10_to_pci(list, WORDS(list), start, WORDS(start), pairs, WORDS(pairs), answer, WORDS(answer));
    print_answer("to_pci", answer);
    for (uint32_t i = 0; i < answer[XP10_WORDS]; i += 2)
        printf("%04" PRIx32 " %08" PRIx32 "\n", pairs[i], pairs[i + 1]);

    xp10_from_pci(pairs, WORDS(pairs), start, WORDS(start), back, WORDS(back), answer, WORDS(answer));
    print_answer("from_pci", answer);
    printf("%s\n", memcmp(back, list, sizeof list) == 0 ? "the same list" : "another list");

    pairs[7] += 4;
    xp10_from_pci(pairs, WORDS(pairs), start, WORDS(start), back, WORDS(back), answer, WORDS(answer));
    print_answer("one value changed", answer);
    pairs[6] += 4;
    xp10_from_pci(pairs, WORDS(pairs), start, WORDS(start), back, WORDS(back), answer, WORDS(answer));
    print_answer("and its address", answer);

    print_refusal("undefined bit", undefined, WORDS(undefined), XP10_UNDEFINED_BIT);
    print_refusal("page maximum", clash, WORDS(clash), XP10_PAGE_MAXIMUM);

    print_scenes("two lists", scenes, WORDS(scenes), good, WORDS(good));
    print_scenes("the third is refused", scenes, WORDS(scenes), bad, WORDS(bad));
    print_scenes("the second is outside", scenes, WORDS(scenes), outside, WORDS(outside));

    print_other_order(reversed, WORDS(reversed));

    print_book(scenes, WORDS(scenes));
    return 0;
}
