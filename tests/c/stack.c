/* Measures the stack that each call uses: documents are nested as deep as may be, and key lists have from no names to 65,535. A
   call runs on a thread whose stack was filled with one byte, and the lowest byte that has changed tells how far down it went,
   256 bytes at least. Prints the bytes of each call, and fails where one takes too many, or was never answered. */
#define _POSIX_C_SOURCE 200809L
#include <pthread.h>
#include <stdio.h>
#include <stdlib.h>
#include <string.h>

#include "czubrotek.h"

enum { deepest = 64, most_names = 65535, stack_size = 2 << 20, least = 256, untouched = 0xA5 };

/* what a call must stay below: with any list; and without names, if it walks over values and if it does not */
enum { limit = 1 << 20, limit_walking = 1 << 16, limit_not_walking = 1 << 12 };

static uint8_t doc[1 << 14], marks[sizeof doc / 4], list[3 + 4 * most_names];
static size_t len, list_len, count;
static uint32_t keys[8192];
static uint64_t out[4];

/* cursors in the document at hand */
static size_t string_at, number_at, slot_at, key_at;

/* ---- documents */

static void put(uint8_t byte) { doc[len++] = byte; }

static void put_two(size_t n) {
    put((uint8_t)n);
    put((uint8_t)(n >> 8));
}

/* a word of BinaryJson: the low five bits and the others */
static void word(size_t low, size_t high) {
    put_two(low + 32 * high);
    put_two((low + 32 * high) >> 16);
}

/* arrays or objects in each other; the last has the string "a" and a number, and the keys are "a" and "b" */
static void binary_json(int objects) {
    size_t level = objects ? 12 : 8, index = 4 + (deepest - 1) * level + (objects ? 20 : 12);
    len = 0;
    slot_at = index + 4;
    word(1, index);
    for (size_t i = 1; i < deepest; i++) {
        word(objects, 1);
        if (objects) word(slot_at % 32, slot_at / 32);
        word(5, 4 + level * i);
    }
    word(objects, 2);
    for (size_t slot = slot_at; objects && slot < slot_at + 8; slot += 4) word(slot % 32, slot / 32);
    string_at = len;
    number_at = len + 4;
    word(3, slot_at);
    word(4, index + 16);
    put_two(2);
    put_two(0);
    word(0, index + 14);
    word(0, index + 16);
    put('a');
    put(0);
    put('b');
    put(0);
    for (int i = 0; i < 8; i++) put(0);
}

enum chain { arrays, immediate_keys, back_references, global_keys, chains };

/* an array or object of two: containers in each other, and a number. A string in the last of them makes the document so long that
   the check takes its largest links */
static void fractured_json(int object, enum chain chain) {
    len = 0;
    put(0x46);
    put(0x4A);
    put(0x01);
    put(object ? 0x70 : 0xA0);
    key_at = len;
    if (object) {
        put(0x04);
        put('a');
    }
    for (size_t i = 1; i < deepest; i++) {
        put(chain == arrays ? 0x9F : 0x6F);
        if (chain != arrays) key_at = len;
        if (chain == immediate_keys || (chain == back_references && i == 1)) {
            put(0x05);
            put_two(256 * 'k' + i);
        } else if (chain != arrays) {
            put(chain == back_references ? 0x57 : 0xAB);
        }
    }
    string_at = len;
    put(0x0E);
    put_two(4000);
    for (int i = 0; i < 4000; i++) put('x');
    if (object) {
        put(0x04);
        put('b');
    }
    number_at = len;
    put(0xDE);
}

/* a key list of names of two bytes */
static void names(size_t n) {
    list[0] = 0;
    list[1] = (uint8_t)n;
    list[2] = (uint8_t)(n >> 8);
    list_len = 3;
    for (size_t i = 0; i < n; i++) {
        uint8_t name[] = {2, 0, (uint8_t)i, (uint8_t)(i >> 8)};
        memcpy(list + list_len, name, 4);
        list_len += 4;
    }
}

/* ---- calls */

#define CALL(name, ...) \
    static uint32_t run_##name(void) { return name(__VA_ARGS__, out, 4); }
#define KEYS doc, len, list, list_len, keys, 8192
#define B (const uint8_t *)"b", 1

CALL(bj_check, doc, len, marks, sizeof marks)
CALL(bj_kind_and_size, doc, len, 4)
CALL(bj_element, doc, len, 4, 0)
CALL(bj_member, doc, len, 4, 0)
CALL(bj_entry_type, doc, len, string_at)
CALL(bj_container, doc, len, 8)
CALL(bj_string, doc, len, string_at)
CALL(bj_number, doc, len, number_at)
CALL(bj_slot, doc, len, slot_at)
CALL(bj_quick_lookup, doc, len, 4, B)
CALL(bj_plain_scan, doc, len, 4, B)
CALL(fj_check_list, list, list_len)
CALL(fj_check, KEYS)
CALL(fj_end, KEYS, count, 3)
CALL(fj_kind, doc, len, list, list_len, 3)
CALL(fj_number, doc, len, list, list_len, number_at)
CALL(fj_string, doc, len, list, list_len, string_at)
CALL(fj_element, KEYS, count, 3, 1)
CALL(fj_member, KEYS, count, 3, 1)
CALL(fj_first_member, KEYS, count, 3, B)
CALL(fj_key, KEYS, count, key_at)
CALL(text_compare, list, sizeof list, list, sizeof list - 1)

struct call {
    const char *name;
    uint32_t (*run)(void);
    size_t limit_without_names, without_names, used;
    int answered;
};

#define ROW(name) {#name, run_##name, limit_not_walking, 0, 0, 0}
#define WALK(name) {#name, run_##name, limit_walking, 0, 0, 0}

enum { binary_calls = 11, calls = 22 };

static struct call table[calls] = {
    WALK(bj_check),  ROW(bj_kind_and_size), ROW(bj_element), ROW(bj_member),       ROW(bj_entry_type), ROW(bj_container),
    ROW(bj_string),  ROW(bj_number),        ROW(bj_slot),    ROW(bj_quick_lookup), ROW(bj_plain_scan), ROW(fj_check_list),
    WALK(fj_check),  WALK(fj_end),          ROW(fj_kind),    ROW(fj_number),       ROW(fj_string),     WALK(fj_element),
    WALK(fj_member), WALK(fj_first_member), ROW(fj_key),     ROW(text_compare),
};

/* ---- measuring */

static uint8_t *stack;
static uint32_t returned;
static size_t used;

/* fills the stack below, but for what this function may itself hold there, and runs a call */
static void *on_thread(void *call) {
    uint8_t here;
    size_t top = (uintptr_t)&here - (uintptr_t)stack, lowest = 0;
    memset(stack, untouched, top - least);
    returned = ((struct call *)call)->run();
    while (lowest < top - least && stack[lowest] == untouched) lowest++;
    used = top - lowest;
    return NULL;
}

static void measure(struct call *call) {
    pthread_t thread;
    pthread_attr_t attributes;
    if (pthread_attr_init(&attributes) != 0 || pthread_attr_setstack(&attributes, stack, stack_size) != 0 ||
        pthread_create(&thread, &attributes, on_thread, call) != 0 || pthread_join(thread, NULL) != 0) {
        fprintf(stderr, "stack: no thread\n");
        exit(1);
    }
    pthread_attr_destroy(&attributes);
    call->answered |= returned == 0;
    if (used > call->used) call->used = used;
    if (list_len == 3 && used > call->without_names) call->without_names = used;
}

int main(void) {
    static const size_t lists[] = {0, 64, 1024, 8192, most_names};
    int failed = 0;
    stack = aligned_alloc(4096, stack_size);
    if (stack == NULL) return 1;
    names(0);
    for (int objects = 0; objects < 2; objects++) {
        binary_json(objects);
        for (size_t call = 0; call < binary_calls; call++) measure(&table[call]);
    }
    for (size_t i = 0; i < sizeof lists / sizeof *lists; i++) {
        names(lists[i]);
        for (int shape = 0; shape < 2 * chains; shape++) {
            fractured_json(shape % 2, shape / 2);
            run_fj_check();
            count = out[0];
            for (size_t call = binary_calls; call < calls; call++) measure(&table[call]);
        }
    }
    for (struct call *call = table; call < table + calls; call++) {
        int good = call->answered && call->used < limit && call->without_names < call->limit_without_names;
        printf("stack: %s %zu bytes, %zu without names%s\n", call->name, call->used, call->without_names,
               good ? "" : ": FAILED");
        failed += !good;
    }
    return failed != 0;
}
