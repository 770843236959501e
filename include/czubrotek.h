/* The C functions of the proved readers for BinaryJson and Fractured JSON, and of the comparing of texts.

   A question's cursor is an offset in the document; every cursor, index, count and key is answered or refused. A call
   returns 0 and writes its values over the first of the lent words at `out`, or returns the number of a refusal
   (docs/format/REFUSALS.md) and writes its place over the first. The words that it does not write keep what they held.
   Where fewer words are lent than the call needs, it returns CZUBROTEK_TOO_FEW and writes nothing at all.
   A good document has at most 16,777,216 bytes, and its containers nest at most 64 levels deep.

   A pointer must be good for the length that follows it and not be null, even where that length is 0. What is lent to be
   written must not overlap anything else that is lent. Link with libexports.a, which `rt lib`
   in crates/exports makes in its out/. */
#ifndef CZUBROTEK_H
#define CZUBROTEK_H

#include <stddef.h>
#include <stdint.h>

#define CZUBROTEK_TOO_FEW 255

#ifdef __cplusplus
extern "C" {
#endif

/* ---- BinaryJson: `tree` is the offset of a Meta or an Entry, `slot` that of a slot; the root Meta is at 4. `marks`
   are bytes, one for each word of the tree, mark k for the word at 4+4k: (S-4)/4 of them, where S is the offset of the
   string index. A quarter of the document's length is always enough. What they hold before a call is never asked */

/* Checks a document, and marks the body of each container that passes 12, 8 and 14, its Meta included. After refusals 1
   to 7 and 15 the marks hold what they held. Otherwise those of the tree's words are 1 in the bodies marked and 0
   elsewhere, so all 1 after acceptance, and those beyond hold what they held.
   Returns 0 and writes nothing at `out`, or a refusal (1 to 15); the place of 8 and 12 may be past the document. Needs
   1 word. */
uint32_t bj_check(const uint8_t *doc, size_t doc_len, uint8_t *marks, size_t marks_len, uint64_t *out, size_t out_len);

/* Asks for kind and size of the container at a Meta.
   Returns 0 and writes the kind (0 array, 1 object, 2 top-level scalar) and the size, or a refusal; needs 2 words. */
uint32_t bj_kind_and_size(const uint8_t *doc, size_t doc_len, size_t tree, uint64_t *out, size_t out_len);

/* Asks for element i of the array or top-level scalar at a Meta.
   Returns 0 and writes the offset of its Entry, or a refusal; needs 1 word. */
uint32_t bj_element(const uint8_t *doc, size_t doc_len, size_t tree, size_t i, uint64_t *out, size_t out_len);

/* Asks for member j of the object at a Meta.
   Returns 0 and writes the offsets of its slot and its Entry, or a refusal; needs 2 words. */
uint32_t bj_member(const uint8_t *doc, size_t doc_len, size_t tree, size_t j, uint64_t *out, size_t out_len);

/* Asks for the type of an Entry.
   Returns 0 and writes 0 false, 1 true, 2 null, 3 string, 4 number or 5 container, or a refusal; needs 1 word. */
uint32_t bj_entry_type(const uint8_t *doc, size_t doc_len, size_t tree, uint64_t *out, size_t out_len);

/* Asks for the container that an Entry names.
   Returns 0 and writes the offset of its Meta, or a refusal; needs 1 word. */
uint32_t bj_container(const uint8_t *doc, size_t doc_len, size_t tree, uint64_t *out, size_t out_len);

/* Asks for the text of the string that an Entry names.
   Returns 0 and writes the text's offset and length, or a refusal; needs 2 words. */
uint32_t bj_string(const uint8_t *doc, size_t doc_len, size_t tree, uint64_t *out, size_t out_len);

/* Asks for the number that an Entry names.
   Returns 0 and writes the 64 bits of its binary64, or a refusal; needs 1 word. */
uint32_t bj_number(const uint8_t *doc, size_t doc_len, size_t tree, uint64_t *out, size_t out_len);

/* Asks for the text that a slot names.
   Returns 0 and writes the text's offset and length, or a refusal; needs 2 words. */
uint32_t bj_slot(const uint8_t *doc, size_t doc_len, size_t slot, uint64_t *out, size_t out_len);

/* Looks a key up in the object at a Meta, by halving the strings and then the KeyEntries.
   Returns 0 and writes 1, both counts of comparisons and the Entry, or 0 and both counts, or a refusal and writes its
   place and the counts 0 and 0; needs 4 words. */
uint32_t bj_quick_lookup(const uint8_t *doc, size_t doc_len, size_t tree, const uint8_t *key, size_t key_len,
                         uint64_t *out, size_t out_len);

/* Looks a key up in the object at a Meta, by comparing from member 0 on.
   Returns 0 and writes 1 and the Entry, or 0 where the key is absent, or a refusal; needs 2 words. */
uint32_t bj_plain_scan(const uint8_t *doc, size_t doc_len, size_t tree, const uint8_t *key, size_t key_len,
                       uint64_t *out, size_t out_len);

/* ---- Fractured JSON: `at` is the offset of a value's type byte; the root value is at 3. `keys` is the key table, two words
   a key, the start and length of its text; its room is half its words rounded down, at most 4,096. `list` is the key list,
   whose names a document's global indices count from 0: a config byte, a 16-bit count, then for each name its 16-bit length
   and its text, little endian. The bytes 00 00 00 are a list without names; no bytes at all are refused (52 at 0). Every
   other call gives the refusal that fj_check_list gives, its place an offset in the list, before it looks at the document.
   A call uses at most 35 KB of stack with a list of up to 1,024 names, 114 KB with up to 8,192, 786 KB with more */

/* Checks a key list.
   Returns 0 and writes nothing, or a refusal (51 to 54), whose place is an offset in the list; needs 1 word. */
uint32_t fj_check_list(const uint8_t *list, size_t list_len, uint64_t *out, size_t out_len);

/* Checks a document, and writes the pair of each immediate key passed over the first words of the key table.
   Returns 0 and writes the number of pairs, or a refusal (31 to 43, 51 to 54) and writes its place and that number; needs 2
   words. */
uint32_t fj_check(const uint8_t *doc, size_t doc_len, const uint8_t *list, size_t list_len, uint32_t *keys, size_t keys_len,
                  uint64_t *out, size_t out_len);

/* Asks where a value ends; back references go by the key table and the number of its pairs, `count`.
   Returns 0 and writes the offset after its last byte, or a refusal; needs 1 word. */
uint32_t fj_end(const uint8_t *doc, size_t doc_len, const uint8_t *list, size_t list_len, const uint32_t *keys,
                size_t keys_len, size_t count, size_t at, uint64_t *out, size_t out_len);

/* Asks for the kind of a value.
   Returns 0 and writes 0 null, 1 false, 2 true, 3 number, or 4 string, 5 object, 6 array with its length, or a
   refusal; needs 2 words. */
uint32_t fj_kind(const uint8_t *doc, size_t doc_len, const uint8_t *list, size_t list_len, size_t at, uint64_t *out,
                 size_t out_len);

/* Asks for a number.
   Returns 0 and writes its type byte and 64 bits, signed and tiny ints extended by sign, or a refusal; needs 2 words. */
uint32_t fj_number(const uint8_t *doc, size_t doc_len, const uint8_t *list, size_t list_len, size_t at, uint64_t *out,
                   size_t out_len);

/* Asks for the text of a string.
   Returns 0 and writes the text's offset and length, or a refusal; needs 2 words. */
uint32_t fj_string(const uint8_t *doc, size_t doc_len, const uint8_t *list, size_t list_len, size_t at, uint64_t *out,
                   size_t out_len);

/* Asks for element i of an array; `keys` and `count` as for fj_end.
   Returns 0 and writes the offset of the element, or a refusal; needs 1 word. */
uint32_t fj_element(const uint8_t *doc, size_t doc_len, const uint8_t *list, size_t list_len, const uint32_t *keys,
                    size_t keys_len, size_t count, size_t at, size_t i, uint64_t *out, size_t out_len);

/* Asks for member j of an object; `keys` and `count` as for fj_end.
   Returns 0 and writes the offsets of its key byte and its value, or a refusal; needs 2 words. */
uint32_t fj_member(const uint8_t *doc, size_t doc_len, const uint8_t *list, size_t list_len, const uint32_t *keys,
                   size_t keys_len, size_t count, size_t at, size_t j, uint64_t *out, size_t out_len);

/* Asks for the first member of an object with a key; `keys` and `count` as for fj_end.
   Returns 0 and writes 1 and the offset of its value, or 0 where the key is absent, or a refusal; needs 2 words. */
uint32_t fj_first_member(const uint8_t *doc, size_t doc_len, const uint8_t *list, size_t list_len, const uint32_t *keys,
                         size_t keys_len, size_t count, size_t at, const uint8_t *key, size_t key_len, uint64_t *out,
                         size_t out_len);

/* Asks for a key; `at` is the offset of its key byte, `keys` and `count` as for fj_end.
   Returns 0 and writes the lender of its text (0 the document, 1 the key list), the text's offset in that lender, its
   length, and the offset of the value, which starts where the key ends, or a refusal; needs 4 words. */
uint32_t fj_key(const uint8_t *doc, size_t doc_len, const uint8_t *list, size_t list_len, const uint32_t *keys,
                size_t keys_len, size_t count, size_t at, uint64_t *out, size_t out_len);

/* ---- Texts: any bytes, zeros among them */

/* Compares two texts as unsigned bytes, a prefix before the longer: eight bytes at a step where eight are left in both, else
   one while both have one, through the first step that differs.
   Returns 0 and writes 0 where the first is below the second, 1 where they are equal, 2 where it is above, and the number of
   steps; needs 2 words. */
uint32_t text_compare(const uint8_t *a, size_t a_len, const uint8_t *b, size_t b_len, uint64_t *out, size_t out_len);

#ifdef __cplusplus
}
#endif

#endif
