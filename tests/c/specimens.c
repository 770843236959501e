/* Runs the specimens of docs/format/SPECIMENS.md through the C header: the fourteen, the lookups with their counts, and
   the documents at the limits; and containers in any order, marks, key lists, and texts. Prints a line for each failed
   case, and the number of cases. */
#include <inttypes.h>
#include <stdio.h>
#include <string.h>

#include "czubrotek.h"

enum { longest = 16777216, deepest = 64, most_keys = 4096, untouched = 77 };

/* key lists: without names, and with the names "a" and "bc" */
static const uint8_t no_names[] = {0, 0, 0}, a_bc[] = {0, 2, 0, 1, 0, 'a', 2, 0, 'b', 'c'};

static uint8_t doc[longest + 1];
static size_t len;
static uint8_t marks[longest / 4];
static uint32_t keys[2 * most_keys];
static uint64_t out[5];
static int cases, failed;

/* ---- documents */

static void put(uint8_t byte) { doc[len++] = byte; }

static void fill(uint8_t byte, size_t times) {
    while (times-- > 0) put(byte);
}

/* reads bytes in hexadecimal, and answers how many there are */
static size_t read_hex(const char *hex, uint8_t *to) {
    unsigned byte;
    size_t n = 0;
    for (; sscanf(hex, "%2x", &byte) == 1; hex += 2) to[n++] = (uint8_t)byte;
    return n;
}

/* appends bytes in hexadecimal */
static void add(const char *hex) { len += read_hex(hex, doc + len); }

static void word(uint32_t w) {
    for (int i = 0; i < 4; i++) put((uint8_t)(w >> (8 * i)));
}

static void start(const char *hex) {
    len = 0;
    add(hex);
}

/* ---- cases */

/* forgets what an earlier call wrote */
static void lend(void) {
    for (size_t i = 0; i < 5; i++) out[i] = untouched;
}

/* `returned`, and the first n of the words are `want`, and no other was written */
static void expect(const char *name, uint32_t returned, uint32_t number, size_t n, const uint64_t *want) {
    int good = returned == number;
    for (size_t i = 0; i < 5; i++) good = good && out[i] == (i < n ? want[i] : untouched);
    cases++;
    if (good) return;
    failed++;
    printf("%s: returned %" PRIu32 " and wrote", name, returned);
    for (size_t i = 0; i < 5; i++) printf(" %" PRIu64, out[i]);
    printf("\n");
}

#define EXPECT(name, returned, number, ...)                                              \
    expect(name, returned, number, sizeof((uint64_t[]){__VA_ARGS__}) / sizeof(uint64_t), \
           (const uint64_t[]){__VA_ARGS__})

/* with as many marks as are always enough, which hold 1 and something else by turns */
static uint32_t binary(void) {
    lend();
    for (size_t k = 0; k < len / 4; k++) marks[k] = k % 2 ? untouched : 1;
    return bj_check(doc, len, marks, len / 4, out, 4);
}

static uint32_t fractured_with(const uint8_t *list, size_t list_len, size_t words) {
    lend();
    return fj_check(doc, len, list, list_len, keys, words, out, 4);
}

static uint32_t fractured(size_t words) { return fractured_with(no_names, 3, words); }

/* the bytes as a key list */
static uint32_t key_list(void) {
    lend();
    return fj_check_list(doc, len, out, 4);
}

static void binary_accepts(const char *name) { expect(name, binary(), 0, 0, NULL); }

static void fourteen(void) {
    start("010100000000000000000000");
    binary_accepts("empty array");
    len = 11;
    EXPECT("its first 11 bytes", binary(), 1, 11);
    start("020100000000000000000000");
    EXPECT("first byte 02", binary(), 3, 0);
    start("010100000300000000000000");
    EXPECT("fifth byte 03", binary(), 8, 4);
    start("0102000021000000140000000100000001000000400300006100");
    binary_accepts("object");
    doc[25] = 1;
    EXPECT("last byte 01", binary(), 5, 20);
    start("81010000220000000402000000000000000000000000F03F");
    binary_accepts("scalar 1.0");
    start("81010000200000008500000000000000");
    EXPECT("an array naming itself", binary(), 9, 8);

    start("464A016F046102");
    EXPECT("FJ object", fractured(2 * most_keys), 0, 1);
    start("464A01A0BEFD");
    EXPECT("FJ array", fractured(2 * most_keys), 0, 0);
    start("464A01A06F0461006F57DF");
    EXPECT("FJ back reference", fractured(2 * most_keys), 0, 1);
    start("464A01FE");
    EXPECT("FJ reserved type", fractured(2 * most_keys), 36, 3, 0);
    start("464A016F5700");
    EXPECT("FJ index not found", fractured(2 * most_keys), 38, 4, 0);
    start("464A0170046100046101");
    EXPECT("FJ text met before", fractured(2 * most_keys), 39, 7, 1);
}

/* {"a":true} and 1.0, asked everything */
static void binary_questions(void) {
    const uint8_t a[] = {'a'}, b[] = {'b'};
    start("0102000021000000140000000100000001000000400300006100");
    lend();
    EXPECT("lookup of a", bj_quick_lookup(doc, len, 4, a, 1, out, 4), 0, 1, 1, 1, 12);
    lend();
    EXPECT("lookup of b", bj_quick_lookup(doc, len, 4, b, 1, out, 4), 0, 0, 1, 0);
    lend();
    EXPECT("lookup before the tree", bj_quick_lookup(doc, len, 0, a, 1, out, 4), 20, 0, 0, 0);
    lend();
    EXPECT("scan for a", bj_plain_scan(doc, len, 4, a, 1, out, 4), 0, 1, 12);
    lend();
    EXPECT("scan for b", bj_plain_scan(doc, len, 4, b, 1, out, 4), 0, 0);
    lend();
    EXPECT("kind and size", bj_kind_and_size(doc, len, 4, out, 4), 0, 1, 1);
    lend();
    EXPECT("member", bj_member(doc, len, 4, 0, out, 4), 0, 20, 12);
    lend();
    EXPECT("member past the end", bj_member(doc, len, 4, 1, out, 4), 22, 4);
    lend();
    EXPECT("type", bj_entry_type(doc, len, 12, out, 4), 0, 1);
    lend();
    EXPECT("slot", bj_slot(doc, len, 20, out, 4), 0, 24, 1);
    lend();
    EXPECT("true is no string", bj_string(doc, len, 12, out, 4), 21, 12);
    lend();
    EXPECT("true is no container", bj_container(doc, len, 12, out, 4), 21, 12);
    lend();
    EXPECT("a far cursor", bj_kind_and_size(doc, len, SIZE_MAX, out, 4), 20, UINT64_MAX);
    lend();
    expect("too few words", bj_quick_lookup(doc, len, 4, a, 1, out, 3), CZUBROTEK_TOO_FEW, 0, NULL);
    start("81010000220000000402000000000000000000000000F03F");
    lend();
    EXPECT("lookup in a scalar", bj_quick_lookup(doc, len, 4, a, 1, out, 4), 21, 4, 0, 0);
    lend();
    EXPECT("element", bj_element(doc, len, 4, 0, out, 4), 0, 8);
    lend();
    EXPECT("number", bj_number(doc, len, 8, out, 4), 0, 0x3FF0000000000000);
}

/* [{"a":null},{"a":1}] and "x", asked everything */
static void fractured_questions(void) {
    const uint8_t a[] = {'a'}, b[] = {'b'};
    start("464A01A06F0461006F57DF");
    EXPECT("pairs", fractured(2), 0, 1);
    lend();
    EXPECT("FJ kind", fj_kind(doc, len, no_names, 3, 3, out, 4), 0, 6, 2);
    lend();
    EXPECT("FJ end", fj_end(doc, len, no_names, 3, keys, 2, 1, 3, out, 4), 0, 11);
    lend();
    EXPECT("FJ end without the table", fj_end(doc, len, no_names, 3, keys, 0, 0, 3, out, 4), 38, 9);
    lend();
    EXPECT("FJ element", fj_element(doc, len, no_names, 3, keys, 2, 1, 3, 1, out, 4), 0, 8);
    lend();
    EXPECT("FJ member", fj_member(doc, len, no_names, 3, keys, 2, 1, 8, 0, out, 4), 0, 9, 10);
    lend();
    EXPECT("FJ first member a", fj_first_member(doc, len, no_names, 3, keys, 2, 1, 8, a, 1, out, 4), 0, 1, 10);
    lend();
    EXPECT("FJ first member b", fj_first_member(doc, len, no_names, 3, keys, 2, 1, 8, b, 1, out, 4), 0, 0);
    lend();
    EXPECT("FJ number", fj_number(doc, len, no_names, 3, 10, out, 4), 0, 0xDF, 1);
    lend();
    expect("FJ too few words", fj_check(doc, len, no_names, 3, keys, 2, out, 1), CZUBROTEK_TOO_FEW, 0, NULL);
    start("464A011778");
    lend();
    EXPECT("FJ string", fj_string(doc, len, no_names, 3, 3, out, 4), 0, 4, 1);
}

/* arrays of one that name the next, the last empty */
static void nested(uint32_t depth) {
    start("");
    word(1 + 32 * (8 * depth));
    for (uint32_t level = 1; level < depth; level++) {
        word(32);
        word(5 + 32 * (4 + 8 * level));
    }
    word(0);
    word(0);
}

static void fractured_nested(size_t depth) {
    start("464A01");
    fill(0x9F, depth - 1);
    put(0x9E);
}

/* an object whose members each have a key of two bytes, and null */
static void object(unsigned members) {
    start("464A0111");
    put((uint8_t)members);
    put((uint8_t)(members >> 8));
    for (unsigned key = 0; key < members; key++) {
        put(0x05);
        put((uint8_t)key);
        put((uint8_t)(key >> 8));
        put(0x00);
    }
}

/* the longest document with the largest tree: an array of empty arrays, which stand in the order opposite to their
   Entries, and false */
static void largest_tree(void) {
    const uint32_t index = longest - 4, children = 2097150, first = 4 + 4 * (1 + children + 1);
    start("");
    word(1 + 32 * index);
    word(32 * (children + 1));
    for (uint32_t child = children; child > 0; child--) word(5 + 32 * (first + 4 * (child - 1)));
    fill(0, longest - len);
}

static void limits(void) {
    start("81010000200000000200000000000000");
    fill(0, longest - len);
    binary_accepts("the longest document");
    put(0);
    EXPECT("one byte more", binary(), 2, longest + 1);
    largest_tree();
    binary_accepts("the largest tree");
    lend();
    EXPECT("its marks, one too few", bj_check(doc, len, marks, longest / 4 - 3, out, 4), 15, longest - 4);
    start("464A010F");
    word(longest - 8);
    fill('x', longest - len);
    EXPECT("the longest FJ document", fractured(2 * most_keys), 0, 0);
    put(0);
    EXPECT("FJ of one byte more", fractured(2 * most_keys), 32, longest + 1, 0);

    nested(deepest);
    binary_accepts("the deepest document");
    nested(deepest + 1);
    EXPECT("one level more", binary(), 12, 4 + 8 * deepest);
    fractured_nested(deepest);
    EXPECT("the deepest FJ document", fractured(2 * most_keys), 0, 0);
    fractured_nested(deepest + 1);
    EXPECT("FJ of one level more", fractured(2 * most_keys), 41, 3 + deepest, 0);

    start("464A016D");
    fill('x', 87);
    EXPECT("string of 87 bytes", fractured(2 * most_keys), 0, 0);
    start("464A010D58");
    fill('x', 88);
    EXPECT("string of 88 bytes", fractured(2 * most_keys), 0, 0);
    start("464A016F56");
    fill('k', 83);
    put(0);
    EXPECT("key of 83 bytes", fractured(2 * most_keys), 0, 1);
    start("464A016F0054");
    fill('k', 84);
    put(0);
    EXPECT("key of 84 bytes", fractured(2 * most_keys), 0, 1);

    start("464A016F01FFFF0300");
    EXPECT("index FFFF03", fractured(2 * most_keys), 38, 4, 0);
    start("464A016F01FFFF0400");
    EXPECT("index FFFF04", fractured(2 * most_keys), 37, 7, 0);

    object(4096);
    EXPECT("a full key table", fractured(2 * most_keys), 0, 4096);
    object(4097);
    EXPECT("one key more", fractured(2 * most_keys), 40, 16390, 4096);
}

/* containers in another order than depth first, and where they may not stand */
static void container_order(void) {
    start("010400004000000005020000050300002000000085030000000000000000000000000000");
    binary_accepts("breadth first");
    start("01030000400000008502000005020000000000000000000000000000");
    binary_accepts("the second child first");
    start("8101000020000000A501000000000000");
    EXPECT("offset no multiple of 4", binary(), 9, 8);
    start("0102000022000000850100000000000000000000");
    EXPECT("container under kind 2", binary(), 9, 8);
    start("81010000200000008501000000000000");
    EXPECT("container at S", binary(), 8, 12);
    start("810100002000000085FFFFFF00000000");
    EXPECT("container past the document", binary(), 8, 134217724);
    start("810200004000000005020000050200000000000000000000");
    EXPECT("container named twice", binary(), 14, 16);
    start("0102000040000000000000000501000000000000");
    EXPECT("Meta inside the parent's body", binary(), 14, 8);
    start("81010000200000000501000000000000");
    EXPECT("its own Entry as Meta", binary(), 8, 8);
    start("01030000600000000200000005020000020000000000000000000000");
    EXPECT("a null Entry as Meta", binary(), 8, 16);
    start("81010000000000000000000000000000");
    EXPECT("a word in no body", binary(), 13, 8);
}

/* puts marks in hexadecimal before untouched ones, and answers how many there are */
static size_t lend_marks(const char *hex) {
    memset(marks, untouched, 16);
    return read_hex(hex, marks);
}

/* the first marks are these, in hexadecimal, and then come untouched ones */
static void expect_marks(const char *name, const char *hex) {
    uint8_t want[16];
    memset(want, untouched, sizeof want);
    read_hex(hex, want);
    cases++;
    if (memcmp(marks, want, sizeof want) == 0) return;
    failed++;
    printf("%s: the marks hold", name);
    for (size_t k = 0; k < sizeof want; k++) printf(" %02X", marks[k]);
    printf("\n");
}

/* checks with these marks lent; a refusal has its place */
static void marked(const char *name, const char *before, uint32_t number, uint64_t place, const char *after) {
    size_t lent = lend_marks(before);
    lend();
    expect(name, bj_check(doc, len, marks, lent, out, 4), number, number != 0, &place);
    expect_marks(name, after);
}

/* what lent marks hold afterwards */
static void marks_afterwards(void) {
    start("01030000400000008502000005020000200000000000000000000000");
    marked("two bodies meet", "0909090909", 14, 16, "0101010001");
    start("810200004000000005020000050200000000000000000000");
    marked("named twice, and a mark beyond", "FFFFFFFF07", 14, 16, "0101010107");

    start("010100000000000000000000");
    marked("no marks", "", 15, 8, "");
    start("01010000000000000000000000");
    marked("no marks, but 7 first", "", 7, 12, "");
    marked("one byte of a number", "FF", 7, 12, "FF");
    start("81010000030000000000000000000000");
    marked("one mark too few", "AA", 15, 12, "AA");
    marked("just enough, kind 3", "AAAA", 8, 4, "0000");

    start("010100000000000000000000");
    marked("accepted, and marks beyond", "FF07FF", 0, 0, "0107FF");
    start("010100000000000001000000");
    marked("slots past the end", "FF07FF", 4, 8, "FF07FF");
    start("81010000230000000000000000000000");
    marked("kind 3 at the root", "FFFF07", 8, 4, "000007");
    start("01030000410000001C0000001C0000000900000000000000010000002004000000");
    marked("a key twice", "FFFFFFFFFF07", 11, 12, "010101010107");
    start("810200004000000005020000060000000000000000000000");
    marked("type 6 after a finished child", "FFFFFFFF07", 9, 12, "0101010107");
    start("810200002000000005020000000000000000000000000000");
    marked("a word between two bodies", "00000000", 13, 12, "01010001");
    start("01030000200000000502000000000000000000000000000000000000");
    marked("another behind them", "FFFFFFFFFF", 13, 12, "0101000100");

    start("010100000000000000000000");
    lend_marks("FF");
    lend();
    expect("marks, too few words", bj_check(doc, len, marks, 1, out, 0), CZUBROTEK_TOO_FEW, 0, NULL);
    expect_marks("marks, too few words", "FF");
}

/* forgets what the first words of the key table hold */
static void lend_table(void) {
    for (size_t i = 0; i < 4; i++) keys[i] = untouched;
}

/* the first words of the key table are these two, and then untouched ones */
static void expect_table(const char *name, uint32_t first, uint32_t second) {
    const uint32_t want[] = {first, second, untouched, untouched};
    cases++;
    if (memcmp(keys, want, sizeof want) == 0) return;
    failed++;
    printf("%s: the key table holds %" PRIu32 " %" PRIu32 " %" PRIu32 " %" PRIu32 "\n", name, keys[0], keys[1], keys[2],
           keys[3]);
}

/* what a lent key table holds afterwards: the pair of the key passed, and else what it held */
static void table(void) {
    lend_table();
    start("464A0170046100046101");
    EXPECT("refused with a pair", fractured(4), 39, 7, 1);
    expect_table("refused with a pair", 5, 1);
}

static void lists(void) {
    start("000000");
    expect("no names", key_list(), 0, 0, NULL);
    start("00020001006102006263");
    expect("two names", key_list(), 0, 0, NULL);
    start("01");
    EXPECT("list with config 01", key_list(), 51, 0);
    start("");
    EXPECT("list of no bytes", key_list(), 52, 0);
    start("0000");
    EXPECT("list cut in its count", key_list(), 52, 1);
    start("00010001");
    EXPECT("list cut in a length", key_list(), 52, 3);
    start("000100020061");
    EXPECT("list cut in a text", key_list(), 52, 5);
    start("00000000");
    EXPECT("list with a byte left over", key_list(), 53, 3);
    start("000200010061010061");
    EXPECT("list with two equal names", key_list(), 54, 6);
    lend();
    expect("list, too few words", fj_check_list(doc, len, out, 0), CZUBROTEK_TOO_FEW, 0, NULL);

    /* a bad list comes before 31, and the key table stays */
    start("");
    lend_table();
    EXPECT("bad list, no document", fractured_with(a_bc, 9, 4), 52, 8, 0);
    start("464A016F046102");
    EXPECT("bad list, good document", fractured_with(a_bc, 9, 4), 52, 8, 0);
    expect_table("bad list", untouched, untouched);
    lend();
    EXPECT("bad list, kind", fj_kind(doc, len, a_bc, 0, 3, out, 4), 52, 0);
}

/* {"a":null,"a":true,"bc":false}: an immediate key, a back reference and a global index */
static void global_keys(void) {
    const uint8_t b[] = {'b'};
    start("464A01710461005702AC01");
    EXPECT("global key", fractured_with(a_bc, 10, 4), 0, 1);
    EXPECT("global key without names", fractured(4), 38, 9, 1);
    lend();
    EXPECT("key in the document", fj_key(doc, len, a_bc, 10, keys, 4, 1, 4, out, 4), 0, 0, 5, 1, 6);
    lend();
    EXPECT("key by a back reference", fj_key(doc, len, a_bc, 10, keys, 4, 1, 7, out, 4), 0, 0, 5, 1, 8);
    lend();
    EXPECT("key in the list", fj_key(doc, len, a_bc, 10, keys, 4, 1, 9, out, 4), 0, 1, 8, 2, 10);
    lend();
    EXPECT("key without names", fj_key(doc, len, no_names, 3, keys, 4, 1, 9, out, 4), 38, 9);
    lend();
    EXPECT("key in the header", fj_key(doc, len, a_bc, 10, keys, 4, 1, 2, out, 4), 20, 2);
    lend();
    EXPECT("key past the end", fj_key(doc, len, a_bc, 10, keys, 4, 1, 11, out, 4), 35, 11);
    lend();
    expect("key, too few words", fj_key(doc, len, a_bc, 10, keys, 4, 1, 4, out, 3), CZUBROTEK_TOO_FEW, 0, NULL);
    lend();
    EXPECT("member with a global key", fj_member(doc, len, a_bc, 10, keys, 4, 1, 3, 2, out, 4), 0, 9, 10);
    lend();
    EXPECT("first member bc", fj_first_member(doc, len, a_bc, 10, keys, 4, 1, 3, a_bc + 8, 2, out, 4), 0, 1, 10);
    lend();
    EXPECT("first member b", fj_first_member(doc, len, a_bc, 10, keys, 4, 1, 3, b, 1, out, 4), 0, 0);
}

static uint32_t compare(const char *a, size_t a_len, const char *b, size_t b_len) {
    lend();
    return text_compare((const uint8_t *)a, a_len, (const uint8_t *)b, b_len, out, 4);
}

/* two texts between quotes, without the zero that C puts at their ends */
#define COMPARE(a, b) compare(a, sizeof(a) - 1, b, sizeof(b) - 1)

static void texts(void) {
    EXPECT("no bytes", COMPARE("", ""), 0, 1, 0);
    EXPECT("no bytes and a zero", COMPARE("", "\0"), 0, 0, 0);
    EXPECT("three bytes", COMPARE("air", "air"), 0, 1, 3);
    EXPECT("a prefix", COMPARE("air", "airy"), 0, 0, 3);
    EXPECT("a prefix second", COMPARE("airy", "air"), 0, 2, 3);
    EXPECT("zeros inside", COMPARE("a\0c", "a\0b"), 0, 2, 3);
    EXPECT("no sign", COMPARE("\x7F", "\x80"), 0, 0, 1);
    EXPECT("seven bytes", COMPARE("sensor/", "sensor/"), 0, 1, 7);
    EXPECT("eight bytes", COMPARE("sensor/0", "sensor/0"), 0, 1, 1);
    EXPECT("seven of eight bytes", COMPARE("sensor/", "sensor/0"), 0, 0, 7);
    EXPECT("the first and the last of eight", COMPARE("1ensor/2", "2ensor/1"), 0, 0, 1);
    EXPECT("the ninth byte", COMPARE("sensor/08", "sensor/07"), 0, 2, 2);
    EXPECT("the sixteenth byte", COMPARE("sensor/07/air/07", "sensor/07/air/08"), 0, 0, 2);
    EXPECT("the fifteenth of fifteen", COMPARE("sensor/07/air/0", "sensor/07/air/1"), 0, 0, 8);
    lend();
    expect("texts, too few words", text_compare(doc, 8, doc, 8, out, 1), CZUBROTEK_TOO_FEW, 0, NULL);

    start("");
    fill('x', longest);
    lend();
    EXPECT("the longest text", text_compare(doc, longest, doc, longest, out, 4), 0, 1, longest / 8);
    lend();
    EXPECT("one byte less", text_compare(doc, longest, doc, longest - 1, out, 4), 0, 2, longest / 8 - 1 + 7);
}

int main(void) {
    fourteen();
    binary_questions();
    fractured_questions();
    limits();
    container_order();
    marks_afterwards();
    table();
    lists();
    global_keys();
    texts();
    printf("c: %d cases\n", cases);
    return failed != 0;
}
