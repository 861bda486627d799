/* Times the calls that crates/arrow_bench offers, at three sizes, and memcpy beside them. `bench` builds and runs it,
   and docs/PERFORMANCE.md says what is printed. Each call does its operation in as many rounds as its last argument
   says. It is timed with one round and with more, and the difference of the least such times counts, so what is made
   once does not. An argument is the beginning of the names of lines to time. */
#define _POSIX_C_SOURCE 199309L
#include <inttypes.h>
#include <limits.h>
#include <malloc.h>
#include <stdio.h>
#include <stdlib.h>
#include <string.h>
#include <time.h>

/* The functions, with what each is given: an item here is ITEM bytes of `data`. */
#include "comparison/driver/rattle_flat.h"

enum { ITEM = 12, DIGITS = 6, KEY = 32, FEW = 100, LIMIT = 100, TIMES = 9, SIZES = 3 };

static const size_t sizes[SIZES] = {1 << 10, 1 << 16, 1 << 22};

/* One mark a byte, 0 or 1, and the number of those that are set. */
struct marks {
    uint8_t *of;
    size_t set;
};

/* What calls are given: n numbers, and n others; keys below n; n items of ASCII, and of other text of as many bytes,
   and their ends; and n marks each: valid slots, of which one in ten is clear, booleans at random, which are a filter
   too, and filters that keep most slots, 99 of 100, or runs of them. Kernels that compute are given besides: numbers of
   six digits, also as text with its ends; numbers of which one in ten takes more than 32 bits; two lists of few
   different numbers, and a word for each of the first; items of which half are those of ASCII; and different texts of 32
   characters with their ends: some that the hash function with its fixed keys maps to one number, and others. Sorts are
   given the numbers in order, and in the opposite one, and eight different ones; and what finds ranges of equal rows two
   lists that are sorted by their rows, of which about one in six differs from the one before it. */
struct input {
    size_t n;
    int64_t *values, *others, *keys, *small, *wide, *few, *other_few, *ascending, *descending, *eight, *first, *second;
    uint8_t *ascii, *mixed, *half_equal, *words, *digits, *alike, *unlike;
    int32_t *ends, *digit_ends, *key_ends;
    struct marks valid, bits, most, runs;
};

static uint64_t random_word(void) {
    static uint64_t state = 0x9E3779B97F4A7C15u;
    state ^= state << 13;
    state ^= state >> 7;
    state ^= state << 17;
    return state;
}

static void *room(size_t size) {
    void *memory = malloc(size);
    if (!memory) {
        fputs("bench: out of memory\n", stderr);
        exit(1);
    }
    return memory;
}

/* Marks of which `clear` in `of` are clear, at random. */
static struct marks make_marks(size_t n, unsigned clear, unsigned of) {
    struct marks marks = {room(n), 0};
    for (size_t i = 0; i < n; i++) {
        marks.of[i] = random_word() % of >= clear;
        marks.set += marks.of[i];
    }
    return marks;
}

/* Marks in runs of 1 to 128 that are equal. */
static struct marks make_runs(size_t n) {
    struct marks marks = {room(n), 0};
    uint8_t mark = 0;
    for (size_t i = 0; i < n; mark = !mark) {
        for (size_t left = 1 + random_word() % 128; left && i < n; left--) {
            marks.of[i++] = mark;
            marks.set += mark;
        }
    }
    return marks;
}

/* What the kernels that compute are given besides. */
static void add_operands(struct input *in) {
    const size_t n = in->n;
    in->others = room(n * 8), in->small = room(n * 8), in->wide = room(n * 8);
    in->few = room(n * 8), in->other_few = room(n * 8);
    in->half_equal = room(n * ITEM), in->words = room(n * ITEM);
    in->digits = room(n * DIGITS + 1), in->digit_ends = room((n + 1) * 4);
    for (size_t i = 0; i < n; i++) {
        in->others[i] = (int64_t)random_word();
        in->small[i] = (int64_t)(100000 + random_word() % 900000);
        in->wide[i] = i % 10 ? in->small[i] : in->values[i];
        in->few[i] = (int64_t)(random_word() % FEW);
        in->other_few[i] = (int64_t)(random_word() % FEW);
        memcpy(in->half_equal + i * ITEM, in->ascii + i * ITEM, ITEM);
        in->half_equal[i * ITEM + ITEM - 1] ^= !in->bits.of[i];
        memcpy(in->words + i * ITEM, in->ascii + (size_t)in->few[i] * ITEM, ITEM);
        snprintf((char *)in->digits + i * DIGITS, DIGITS + 1, "%" PRId64, in->small[i]);
        in->digit_ends[i] = (int32_t)(i * DIGITS);
    }
    in->digit_ends[n] = (int32_t)(n * DIGITS);
}

/* Texts that end in eight digits, which tell them apart. The first sixteen characters of those that are alike drive the
   state of the hash function to a constant, and the next eight to zero, where it stays. */
static void add_keys(struct input *in) {
    const size_t n = in->n;
    in->alike = room(n * KEY + 1), in->unlike = room(n * KEY + 1), in->key_ends = room((n + 1) * 4);
    for (size_t i = 0; i < n; i++) {
        snprintf((char *)in->alike + i * KEY, KEY + 1, "user-agent: ahowDx%%&UkzE%08zu", i);
        snprintf((char *)in->unlike + i * KEY, KEY + 1, "%016" PRIx64 "user-age%08zu", (i + 1) * 0x9E3779B97F4A7C15u, i);
        in->key_ends[i] = (int32_t)(i * KEY);
    }
    in->key_ends[n] = (int32_t)(n * KEY);
}

static int compare_numbers(const void *one, const void *other) {
    int64_t x = *(const int64_t *)one, y = *(const int64_t *)other;
    return (x > y) - (x < y);
}

/* What is in order. */
static void add_sorted(struct input *in) {
    const size_t n = in->n;
    in->ascending = room(n * 8), in->descending = room(n * 8), in->eight = room(n * 8);
    in->first = room(n * 8), in->second = room(n * 8);
    memcpy(in->ascending, in->values, n * 8);
    qsort(in->ascending, n, 8, compare_numbers);
    int64_t row = 0;
    for (size_t i = 0; i < n; i++) {
        in->descending[i] = in->ascending[n - 1 - i];
        in->eight[i] = in->values[i] & 7;
        row += random_word() % 6 == 0;
        in->first[i] = row / FEW;
        in->second[i] = row % FEW;
    }
}

static struct input make_input(size_t n) {
    struct input in = {.n = n, .ascii = room(n * ITEM), .mixed = room(n * ITEM), .ends = room((n + 1) * 4),
                       .valid = make_marks(n, 1, 10), .bits = make_marks(n, 1, 2), .most = make_marks(n, 1, 100),
                       .runs = make_runs(n)};
    in.values = room(n * 8), in.keys = room(n * 8);
    for (size_t i = 0; i < n; i++) {
        in.values[i] = (int64_t)random_word();
        in.keys[i] = (int64_t)(random_word() % n);
        in.ends[i] = (int32_t)(i * ITEM);
        for (size_t j = 0; j < ITEM; j++) {
            in.ascii[i * ITEM + j] = (uint8_t)('a' + random_word() % 26);
        }
        /* five characters of one byte, two of two bytes, and one of three */
        memcpy(in.mixed + i * ITEM, "ab\xC3\xA9\xE2\x82\xAC" "c\xC3\xBC" "de", ITEM);
    }
    in.ends[n] = (int32_t)(n * ITEM);
    add_operands(&in);
    add_keys(&in);
    add_sorted(&in);
    return in;
}

static void drop_input(struct input in) {
    free(in.values), free(in.keys), free(in.ascii), free(in.mixed), free(in.ends);
    free(in.others), free(in.small), free(in.wide), free(in.few), free(in.other_few);
    free(in.half_equal), free(in.words), free(in.digits), free(in.digit_ends);
    free(in.alike), free(in.unlike), free(in.key_ends);
    free(in.ascending), free(in.descending), free(in.eight), free(in.first), free(in.second);
    free(in.valid.of), free(in.bits.of), free(in.most.of), free(in.runs.of);
}

/* The memory that a round of a line goes through: so many bytes that are there before it, which it reads or writes in
   place, and those of the vectors that it makes. */
struct traffic {
    size_t there, made;
};

#define VALUES in->values, n
#define ALL_VALID (const uint8_t *)"", 0
#define NULLS in->valid.of, n
#define ONES ones, n
#define BITS in->bits.of, n
#define MOST in->most.of, n
#define RUNS in->runs.of, n
#define KEYS in->keys, n
#define ITEMS in->ascii, n * ITEM
#define ENDS in->ends, n + 1
#define OTHERS in->others, n
#define SMALL in->small, n
#define WIDE in->wide, n
#define FEW_VALUES in->few, n
#define OTHER_FEW in->other_few, n
#define ASCENDING in->ascending, n
#define DESCENDING in->descending, n
#define EIGHT in->eight, n
#define ROWS in->first, n, in->second, n
#define OTHER_BITS in->runs.of, n
#define HALF_EQUAL in->half_equal, n * ITEM
#define WORDS in->words, n * ITEM
#define DIGIT_TEXTS in->digits, n * DIGITS, in->digit_ends, n + 1
#define ALIKE in->alike, n * KEY, in->key_ends, n + 1
#define UNLIKE in->unlike, n * KEY, in->key_ends, n + 1

static uint8_t *ones;

/* what the keys of a hash function are made of, another in each run */
static uint64_t seed;

/* bytes of so many marks, and of so many texts with their offsets */
#define MARKS(rows) (((rows) + 7) / 8)
#define TEXTS(rows) (ITEM * (rows) + 4 * ((rows) + 1))
#define MASK MARKS(n)
#define TEXT TEXTS(n)

/* A line: its name, its traffic (bytes that are there, and bytes that are made), and its call behind `rattle_flat_`. A
   MOVE does little but move or count bytes, and is compared with memcpy. */
#define LINES(LINE, MOVE)                                                                                              \
    LINE(prim_push, 9 * n, 8 * n, prim_push(VALUES, ONES, rounds))                                                     \
    LINE(prim_push_null10, 9 * n, 8 * n + MASK, prim_push(VALUES, NULLS, rounds))                                      \
    LINE(prim_push_reserved, 8 * n, 8 * n, prim_push_reserved(VALUES, rounds))                                         \
    LINE(prim_push_null, 0, 8 * n + MASK, prim_push_null(n, rounds))                                                   \
    MOVE(prim_extend_null_all, 0, 8 * n + MASK, prim_extend_null(n, rounds))                                           \
    LINE(prim_push_pop_null10, 9 * n + 8 * n + MASK, 0, prim_push_pop(VALUES, NULLS, rounds))                          \
    LINE(prim_push_freeze_null10, 9 * n, 8 * n + MASK, prim_push_freeze(VALUES, NULLS, rounds))                        \
    LINE(prim_extend_null10, 16 * n, 8 * n + MASK, prim_extend(VALUES, NULLS, rounds))                                 \
    MOVE(prim_extend_slice_all, 8 * n, 8 * n, prim_extend_slice(VALUES, n, rounds))                                    \
    LINE(prim_extend_slice_1000, 8 * n, 8 * n, prim_extend_slice(VALUES, 1000, rounds))                                \
    MOVE(prim_extend_self_null10, 8 * n + MASK, 16 * n + MARKS(2 * n), prim_extend_self(VALUES, NULLS, rounds))        \
    MOVE(prim_extend_array_null10, 8 * n + MASK, 16 * (n - 3) + MARKS(2 * (n - 3)),                                    \
         prim_extend_array(VALUES, NULLS, rounds))                                                                     \
    LINE(prim_iter_sum, 8 * n, 0, prim_iter_sum(VALUES, ALL_VALID, rounds))                                            \
    LINE(prim_iter_sum_null10, 8 * n + MASK, 0, prim_iter_sum(VALUES, NULLS, rounds))                                  \
    LINE(prim_range_sum_null10, 8 * n + MASK, 0, prim_range_sum(VALUES, NULLS, 128, rounds))                           \
    LINE(prim_builder_iter_sum_null10, 8 * n + MASK, 0, prim_builder_iter_sum(VALUES, NULLS, rounds))                  \
    LINE(prim_values_sum, 8 * n, 0, prim_values_sum(VALUES, rounds))                                                   \
    LINE(prim_value_sum, 8 * n, 0, prim_value_sum(VALUES, rounds))                                                     \
    LINE(prim_get_sum_null10, 8 * n + MASK, 0, prim_get_sum(VALUES, NULLS, rounds))                                    \
    LINE(prim_slice_sum_null10, 8 * n + MASK, 0, prim_slice_sum(VALUES, NULLS, 128, rounds))                           \
    LINE(bits_push, n, MASK, bits_push(BITS, 1, rounds))                                                               \
    LINE(bits_extend_constant_13, 0, MASK, bits_extend_constant(13, n / 13, rounds))                                   \
    MOVE(bits_extend_constant_all, 0, MASK, bits_extend_constant(n, 1, rounds))                                        \
    MOVE(bits_unset, MASK, 0, bits_unset(BITS, 1, rounds))                                                             \
    LINE(bits_freeze_unset, MASK, 0, bits_freeze_unset(BITS, 1, rounds))                                               \
    MOVE(prim_equal, 16 * n, 0, prim_equal(VALUES, ALL_VALID, rounds))                                                 \
    MOVE(prim_equal_null10, 16 * n + 2 * MASK, 0, prim_equal(VALUES, NULLS, rounds))                                   \
    MOVE(bits_equal, 2 * MASK, 0, bits_equal(BITS, 1, rounds))                                                         \
    LINE(prim_print, 8 * n, 22 * n, prim_print(VALUES, ALL_VALID, rounds))                                             \
    LINE(slice_print, 8 * n, 22 * n, slice_print(VALUES, rounds))                                                      \
    MOVE(bits_and, MASK, MASK, bits_and(BITS, 1, rounds))                                                              \
    MOVE(bits_or, MASK, MASK, bits_or(BITS, 1, rounds))                                                                \
    MOVE(bits_not, MASK, MASK, bits_not(BITS, 1, rounds))                                                              \
    LINE(bits_iter, MASK, 0, bits_iter(BITS, 1, rounds))                                                               \
    LINE(bits_get_bit, MASK, 0, bits_get_bit(BITS, 1, rounds))                                                         \
    LINE(bits_get, MASK, 0, bits_get(BITS, 1, rounds))                                                                 \
    LINE(bits_set, n + MASK, 0, bits_set(BITS, rounds))                                                                \
    LINE(bool_push_null10, 2 * n, 2 * MASK, bool_push(BITS, NULLS, rounds))                                            \
    LINE(bool_iter_null10, 2 * MASK, 0, bool_iter(BITS, NULLS, rounds))                                                \
    MOVE(bool_extend_array_null10, 2 * MASK, 2 * MARKS(2 * (n - 3)), bool_extend_array(BITS, NULLS, rounds))           \
    MOVE(bool_true_count_null10, 2 * MASK, 0, bool_true_count(BITS, NULLS, rounds))                                    \
    LINE(bin_push_12, ITEM * n, TEXT, bin_push(ITEMS, ITEM, 1, ALL_VALID, rounds))                                     \
    LINE(bin_push_12_null10, ITEM * n + n, ITEM * in->valid.set + 4 * (n + 1) + MASK,                                  \
         bin_push(ITEMS, ITEM, 1, NULLS, rounds))                                                                      \
    LINE(vbin_push_12, ITEM * n, TEXT, vbin_push(ITEMS, ITEM, 1, rounds))                                              \
    LINE(bin_extend_12, ITEM * n, TEXT, bin_extend(ITEMS, ITEM, 1, rounds))                                            \
    LINE(bin_extend_values_12, ITEM * n, TEXT, bin_extend_values(ITEMS, ITEM, 1, rounds))                              \
    MOVE(bin_extend_self_12, TEXT + MASK, TEXTS(2 * n) + MARKS(2 * n), bin_extend_self(ITEMS, ITEM, NULLS, rounds))    \
    MOVE(bin_extend_array_12, TEXT + MASK, TEXTS(2 * (n - 3)) + MARKS(2 * (n - 3)),                                    \
         bin_extend_array(ITEMS, ITEM, NULLS, rounds))                                                                 \
    MOVE(utf8_try_new_ascii_12, TEXT, 0, utf8_try_new(ITEMS, ENDS, rounds))                                            \
    LINE(utf8_try_new_mixed_12, TEXT, 0, utf8_try_new(in->mixed, n * ITEM, ENDS, rounds))                              \
    LINE(utf8_iter_12, 4 * (n + 1), 0, utf8_iter(ITEMS, ENDS, rounds))                                                 \
    LINE(utf8_push_12, ITEM * n, TEXT, utf8_push(ITEMS, ITEM, 1, ALL_VALID, rounds))                                   \
    LINE(utf8_push_12_null10, ITEM * n + n, ITEM * in->valid.set + 4 * (n + 1) + MASK,                                 \
         utf8_push(ITEMS, ITEM, 1, NULLS, rounds))                                                                     \
    MOVE(utf8_extend_self_12, TEXT + MASK, TEXTS(2 * n) + MARKS(2 * n), utf8_extend_self(ITEMS, ITEM, NULLS, rounds))  \
    MOVE(utf8_extend_array_12, TEXT + MASK, TEXTS(2 * (n - 3)) + MARKS(2 * (n - 3)),                                   \
         utf8_extend_array(ITEMS, ITEM, NULLS, rounds))                                                                \
    LINE(filter_prim_half, 8 * n + MASK, 8 * in->bits.set, filter_prim(VALUES, ALL_VALID, BITS, rounds))               \
    MOVE(filter_prim_most, 8 * n + MASK, 8 * in->most.set, filter_prim(VALUES, ALL_VALID, MOST, rounds))               \
    MOVE(filter_prim_most_null10, 8 * n + 2 * MASK, 8 * in->most.set + MARKS(in->most.set),                            \
         filter_prim(VALUES, NULLS, MOST, rounds))                                                                     \
    MOVE(filter_prim_runs, 8 * n + MASK, 8 * in->runs.set, filter_prim(VALUES, ALL_VALID, RUNS, rounds))               \
    LINE(filter_utf8_half, TEXT + MASK, TEXTS(in->bits.set), filter_utf8(ITEMS, ENDS, ALL_VALID, BITS, rounds))        \
    MOVE(filter_utf8_most, TEXT + MASK, TEXTS(in->most.set), filter_utf8(ITEMS, ENDS, ALL_VALID, MOST, rounds))        \
    MOVE(filter_utf8_most_null10, TEXT + 2 * MASK, TEXTS(in->most.set) + MARKS(in->most.set),                          \
         filter_utf8(ITEMS, ENDS, NULLS, MOST, rounds))                                                                \
    MOVE(filter_utf8_runs, TEXT + MASK, TEXTS(in->runs.set), filter_utf8(ITEMS, ENDS, ALL_VALID, RUNS, rounds))        \
    LINE(take_prim, 16 * n, 8 * n, take_prim(VALUES, ALL_VALID, KEYS, rounds))                                         \
    LINE(take_prim_null10, 16 * n + MASK, 8 * n + MASK, take_prim(VALUES, NULLS, KEYS, rounds))                        \
    LINE(take_utf8, 8 * n + TEXT, TEXT, take_utf8(ITEMS, ENDS, ALL_VALID, KEYS, rounds))                               \
    LINE(take_utf8_null10, 8 * n + TEXT + MASK, TEXT + MASK, take_utf8(ITEMS, ENDS, NULLS, KEYS, rounds))              \
    MOVE(concat_prim, 8 * n, 8 * n, concat_prim(VALUES, ALL_VALID, rounds))                                            \
    MOVE(concat_prim_null10, 8 * n + MASK, 8 * n + MASK, concat_prim(VALUES, NULLS, rounds))                           \
    MOVE(concat_utf8_12, TEXT, TEXT, concat_utf8(ITEMS, ENDS, ALL_VALID, rounds))                                      \
    MOVE(concat_utf8_12_null10, TEXT + MASK, TEXT + MASK, concat_utf8(ITEMS, ENDS, NULLS, rounds))                     \
    LINE(cmp_lt, 16 * n, MASK, cmp_lt(SMALL, VALUES, ALL_VALID, rounds))                                               \
    LINE(cmp_lt_null10, 16 * n + MASK, MASK, cmp_lt(SMALL, VALUES, NULLS, rounds))                                     \
    LINE(cmp_lt_scalar, 8 * n, MASK, cmp_lt_scalar(VALUES, ALL_VALID, rounds))                                         \
    LINE(cmp_lt_scalar_null10, 8 * n + MASK, MASK, cmp_lt_scalar(VALUES, NULLS, rounds))                               \
    LINE(cmp_eq, 16 * n, MASK, cmp_eq(FEW_VALUES, OTHER_FEW, ALL_VALID, rounds))                                       \
    LINE(cmp_eq_null10, 16 * n + MASK, MASK, cmp_eq(FEW_VALUES, OTHER_FEW, NULLS, rounds))                             \
    LINE(cmp_eq_validity, 16 * n, MASK, cmp_eq_validity(FEW_VALUES, OTHER_FEW, ALL_VALID, rounds))                     \
    LINE(cmp_eq_validity_null10, 16 * n + MASK, MASK, cmp_eq_validity(FEW_VALUES, OTHER_FEW, NULLS, rounds))           \
    LINE(cmp_eq_scalar_validity, 8 * n, MASK, cmp_eq_scalar_validity(FEW_VALUES, ALL_VALID, rounds))                   \
    LINE(cmp_eq_scalar_validity_null10, 8 * n + MASK, MASK, cmp_eq_scalar_validity(FEW_VALUES, NULLS, rounds))         \
    LINE(cmp_eq_utf8_12, 2 * ITEM * n + 8 * (n + 1), MASK, cmp_eq_utf8(ITEMS, HALF_EQUAL, ENDS, rounds))               \
    LINE(logic_and, 2 * MASK, MASK, logic_and(BITS, OTHER_BITS, ALL_VALID, rounds))                                    \
    LINE(logic_and_null10, 3 * MASK, MASK, logic_and(BITS, OTHER_BITS, NULLS, rounds))                                 \
    LINE(logic_not, MASK, MASK, logic_not(BITS, ALL_VALID, rounds))                                                    \
    LINE(logic_not_null10, 2 * MASK, MASK, logic_not(BITS, NULLS, rounds))                                             \
    LINE(logic_is_null, 0, MASK, logic_is_null(VALUES, ALL_VALID, rounds))                                             \
    LINE(logic_is_null_null10, MASK, MASK, logic_is_null(VALUES, NULLS, rounds))                                       \
    LINE(kleene_and, 2 * MASK, MASK, kleene_and(BITS, OTHER_BITS, ALL_VALID, rounds))                                  \
    LINE(kleene_and_null10, 3 * MASK, 2 * MASK, kleene_and(BITS, OTHER_BITS, NULLS, rounds))                           \
    LINE(kleene_and_null, MASK, MASK, kleene_and_null(BITS, ALL_VALID, rounds))                                        \
    LINE(kleene_and_null_null10, 2 * MASK, MASK, kleene_and_null(BITS, NULLS, rounds))                                 \
    LINE(arith_add_i64, 16 * n, 8 * n, arith_add_i64(VALUES, OTHERS, ALL_VALID, rounds))                               \
    LINE(arith_add_i64_null10, 16 * n + MASK, 8 * n, arith_add_i64(VALUES, OTHERS, NULLS, rounds))                     \
    LINE(arith_checked_add_i64, 16 * n, 8 * n + MASK, arith_checked_add_i64(VALUES, OTHERS, ALL_VALID, rounds))        \
    LINE(arith_checked_add_i64_null10, 16 * n + MASK, 8 * n + MASK,                                                    \
         arith_checked_add_i64(VALUES, OTHERS, NULLS, rounds))                                                         \
    LINE(arith_mul_i64, 16 * n, 8 * n, arith_mul_i64(VALUES, OTHERS, ALL_VALID, rounds))                               \
    LINE(arith_div_i64, 16 * n, 8 * n, arith_div_i64(VALUES, SMALL, ALL_VALID, rounds))                                \
    LINE(arith_sub_scalar_i64, 8 * n, 8 * n, arith_sub_scalar_i64(VALUES, ALL_VALID, rounds))                          \
    LINE(arith_sub_scalar_i64_null10, 8 * n + MASK, 8 * n, arith_sub_scalar_i64(VALUES, NULLS, rounds))                \
    LINE(arith_negate_i64, 8 * n, 8 * n, arith_negate_i64(VALUES, ALL_VALID, rounds))                                  \
    LINE(arith_negate_i64_null10, 8 * n + MASK, 8 * n, arith_negate_i64(VALUES, NULLS, rounds))                        \
    LINE(arith_add_i32, 8 * n, 4 * n, arith_add_i32(VALUES, OTHERS, rounds))                                           \
    LINE(arith_saturating_add_i32, 8 * n, 4 * n, arith_saturating_add_i32(VALUES, OTHERS, rounds))                     \
    LINE(cast_wrap_i32, 8 * n, 4 * n, cast_wrap_i32(WIDE, ALL_VALID, rounds))                                          \
    LINE(cast_wrap_i32_null10, 8 * n + MASK, 4 * n, cast_wrap_i32(WIDE, NULLS, rounds))                                \
    LINE(cast_fit_i32, 8 * n, 4 * n + MASK, cast_fit_i32(WIDE, ALL_VALID, rounds))                                     \
    LINE(cast_fit_i32_null10, 8 * n + MASK, 4 * n + MASK, cast_fit_i32(WIDE, NULLS, rounds))                           \
    LINE(cast_to_utf8, 8 * n, DIGITS * n + 4 * (n + 1), cast_to_utf8(SMALL, ALL_VALID, rounds))                        \
    LINE(cast_to_utf8_null10, 8 * n + MASK, DIGITS * in->valid.set + 4 * (n + 1) + MASK,                               \
         cast_to_utf8(SMALL, NULLS, rounds))                                                                           \
    LINE(cast_of_utf8, DIGITS * n + 4 * (n + 1), 8 * n, cast_of_utf8(DIGIT_TEXTS, ALL_VALID, rounds))                  \
    LINE(cast_of_utf8_null10, DIGITS * n + 4 * (n + 1) + MASK, 8 * n + MASK, cast_of_utf8(DIGIT_TEXTS, NULLS, rounds)) \
    LINE(cast_to_bool, 8 * n, MASK, cast_to_bool(FEW_VALUES, ALL_VALID, rounds))                                       \
    LINE(cast_to_bool_null10, 8 * n + MASK, MASK, cast_to_bool(FEW_VALUES, NULLS, rounds))                             \
    LINE(cast_of_bool, MASK, 8 * n, cast_of_bool(BITS, ALL_VALID, rounds))                                             \
    LINE(cast_of_bool_null10, 2 * MASK, 8 * n, cast_of_bool(BITS, NULLS, rounds))                                      \
    LINE(cast_bool_utf8, MASK, n + 4 * (n + 1), cast_bool_utf8(BITS, ALL_VALID, rounds))                               \
    LINE(cast_bool_utf8_null10, 2 * MASK, in->valid.set + 4 * (n + 1) + MASK, cast_bool_utf8(BITS, NULLS, rounds))     \
    LINE(agg_sum, 8 * n, 0, agg_sum(SMALL, ALL_VALID, rounds))                                                         \
    LINE(agg_sum_null10, 8 * n + MASK, 0, agg_sum(SMALL, NULLS, rounds))                                               \
    LINE(agg_sum_wide, 8 * n, 0, agg_sum_wide(VALUES, ALL_VALID, rounds))                                              \
    LINE(agg_sum_wide_null10, 8 * n + MASK, 0, agg_sum_wide(VALUES, NULLS, rounds))                                    \
    LINE(agg_min, 8 * n, 0, agg_min(VALUES, ALL_VALID, rounds))                                                        \
    LINE(agg_min_null10, 8 * n + MASK, 0, agg_min(VALUES, NULLS, rounds))                                              \
    LINE(agg_max, 8 * n, 0, agg_max(VALUES, ALL_VALID, rounds))                                                        \
    LINE(agg_max_null10, 8 * n + MASK, 0, agg_max(VALUES, NULLS, rounds))                                              \
    LINE(agg_min_utf8_12_null10, TEXT + MASK, 0, agg_min_utf8(ITEMS, ENDS, NULLS, rounds))                             \
    LINE(group_few, 8 * n, 8 * n + 8 * FEW, group_prim(FEW_VALUES, ALL_VALID, rounds))                                 \
    LINE(group_few_null10, 8 * n + MASK, 8 * n + 8 * FEW, group_prim(FEW_VALUES, NULLS, rounds))                       \
    LINE(group_many, 8 * n, 16 * n, group_prim(VALUES, ALL_VALID, rounds))                                             \
    LINE(group_many_null10, 8 * n + MASK, 16 * n, group_prim(VALUES, NULLS, rounds))                                   \
    LINE(group_utf8_few, TEXT, 8 * n + 8 * FEW, group_utf8(WORDS, ENDS, ALL_VALID, rounds))                            \
    LINE(group_utf8_unlike, KEY * n + 4 * (n + 1), 16 * n, group_utf8_with(UNLIKE, seed, rounds))                      \
    LINE(group_utf8_alike, KEY * n + 4 * (n + 1), 16 * n, group_utf8_with(ALIKE, seed, rounds))                        \
    LINE(group_sum_few, 16 * n, 8 * FEW, group_sum(SMALL, FEW_VALUES, ALL_VALID, rounds))                              \
    LINE(group_sum_few_null10, 16 * n + MASK, 8 * FEW, group_sum(SMALL, FEW_VALUES, NULLS, rounds))                    \
    LINE(group_sum_wide_few, 16 * n, 16 * FEW, group_sum_wide(VALUES, FEW_VALUES, ALL_VALID, rounds))                  \
    LINE(group_sum_wide_few_null10, 16 * n + MASK, 16 * FEW, group_sum_wide(VALUES, FEW_VALUES, NULLS, rounds))        \
    LINE(group_min_few, 16 * n, 8 * FEW, group_min(VALUES, FEW_VALUES, ALL_VALID, rounds))                             \
    LINE(group_min_few_null10, 16 * n + MASK, 8 * FEW, group_min(VALUES, FEW_VALUES, NULLS, rounds))                   \
    LINE(hash_prim, 8 * n, 8 * n, hash_prim(VALUES, ALL_VALID, rounds))                                                \
    LINE(hash_prim_null10, 8 * n + MASK, 8 * n, hash_prim(VALUES, NULLS, rounds))                                      \
    LINE(select_take_null10, 16 * n + MASK, 8 * n, select_take(KEYS, VALUES, NULLS, rounds))                           \
    LINE(select_if_then_else, 16 * n + MASK, 8 * n, select_if_then_else(BITS, VALUES, OTHERS, ALL_VALID, rounds))      \
    LINE(select_if_then_else_null10, 16 * n + 2 * MASK, 8 * n + MASK,                                                  \
         select_if_then_else(BITS, VALUES, OTHERS, NULLS, rounds))                                                     \
    LINE(select_nullif, 16 * n, MASK, select_nullif(FEW_VALUES, OTHER_FEW, ALL_VALID, rounds))                         \
    LINE(select_nullif_null10, 16 * n + MASK, MASK, select_nullif(FEW_VALUES, OTHER_FEW, NULLS, rounds))               \
    LINE(select_length, 4 * (n + 1), 4 * n, select_length(ITEMS, ENDS, ALL_VALID, rounds))                             \
    LINE(select_length_null10, 4 * (n + 1) + MASK, 4 * n, select_length(ITEMS, ENDS, NULLS, rounds))                   \
    LINE(sort_prim, 8 * n, 8 * n, sort_prim(VALUES, ALL_VALID, rounds))                                                \
    LINE(sort_prim_null10, 8 * n + MASK, 8 * n, sort_prim(VALUES, NULLS, rounds))                                      \
    LINE(sort_utf8_12, TEXT, 8 * n, sort_utf8(ITEMS, ENDS, ALL_VALID, rounds))                                         \
    LINE(sort_sorted, 8 * n, 8 * n, sort_prim(ASCENDING, ALL_VALID, rounds))                                           \
    LINE(sort_reversed, 8 * n, 8 * n, sort_prim(DESCENDING, ALL_VALID, rounds))                                        \
    LINE(sort_few, 8 * n, 8 * n, sort_prim(EIGHT, ALL_VALID, rounds))                                                  \
    LINE(sort_limit, 8 * n, 8 * LIMIT, sort_limit(VALUES, rounds))                                                     \
    LINE(lexsort_two, 16 * n, 8 * n, lexsort(FEW_VALUES, VALUES, ALL_VALID, rounds))                                   \
    LINE(lexsort_limit, 16 * n, 8 * LIMIT, lexsort_limit(FEW_VALUES, VALUES, ALL_VALID, rounds))                       \
    LINE(lexsort_limit_null10, 16 * n + MASK, 8 * LIMIT, lexsort_limit(FEW_VALUES, VALUES, NULLS, rounds))             \
    LINE(partition_two, 16 * n, 16 * (n / 6), partition(ROWS, rounds))                                                 \
    LINE(prim_null_count, 0, 0, prim_null_count(VALUES, NULLS, rounds))                                                \
    LINE(prim_freeze_thaw, MASK, 0, prim_freeze_thaw(VALUES, NULLS, rounds))                                           \
    LINE(prim_thaw_push, MASK, 0, prim_thaw_push(VALUES, NULLS, rounds))                                               \
    LINE(bin_freeze_thaw_12, MASK, 0, bin_freeze_thaw(ITEMS, ITEM, NULLS, rounds))

#define FUNCTIONS(name, there, made, call)                                                                             \
    static uint64_t run_##name(const struct input *in, size_t rounds) {                                                \
        const size_t n = in->n;                                                                                        \
        return rattle_flat_##call;                                                                                     \
    }                                                                                                                  \
    static struct traffic traffic_##name(const struct input *in) {                                                     \
        const size_t n = in->n;                                                                                        \
        (void)n;                                                                                                       \
        return (struct traffic){there, made};                                                                          \
    }
LINES(FUNCTIONS, FUNCTIONS)

#define LINE_ROW(name, there, made, call) {#name, 0, run_##name, traffic_##name},
#define MOVE_ROW(name, there, made, call) {#name, 1, run_##name, traffic_##name},
static const struct line {
    const char *name;
    int moves;
    uint64_t (*run)(const struct input *, size_t rounds);
    struct traffic (*traffic)(const struct input *);
} lines[] = {LINES(LINE_ROW, MOVE_ROW)};

enum { LINES_COUNT = sizeof lines / sizeof *lines };

static double seconds(void) {
    struct timespec now;
    clock_gettime(CLOCK_MONOTONIC, &now);
    return (double)now.tv_sec + (double)now.tv_nsec * 1e-9;
}

/* What is timed: a function that does something in so many rounds and returns the seconds that it took; how many rounds
   more than one it is given; and the least seconds with one round, and with more. */
struct task {
    double (*time_rounds)(const void *what, size_t rounds);
    const void *what;
    size_t more;
    double with_one, with_more;
};

static double least(double a, double b) {
    return a < b ? a : b;
}

static void time_task(struct task *task) {
    task->with_one = least(task->with_one, task->time_rounds(task->what, 1));
    task->with_more = least(task->with_more, task->time_rounds(task->what, 1 + task->more));
}

/* Finds how many rounds take long enough to be timed, beside what is done once too. */
static void find_rounds(struct task *task) {
    task->with_one = 1e9;
    for (task->more = 1; task->more < (size_t)1 << 24; task->more *= 2) {
        task->with_more = 1e9;
        time_task(task), time_task(task);
        double took = task->with_more - task->with_one;
        if (took > 0.02 && took > task->with_one / 2) {
            return;
        }
    }
}

/* Times tasks in turns, so that a disturbance of the machine meets all of them. */
static void take_turns(struct task *tasks, int count) {
    for (int at = 0; at < count; at++) {
        find_rounds(&tasks[at]);
    }
    for (int time = 0; time < TIMES; time++) {
        for (int at = 0; at < count; at++) {
            time_task(&tasks[at]);
        }
    }
}

static double round_seconds(const struct task *task) {
    return (task->with_more - task->with_one) / (double)task->more;
}

struct line_task {
    const struct line *line;
    const struct input *in;
};

static double time_line(const void *what, size_t rounds) {
    const struct line_task *task = what;
    double start = seconds();
    if (task->line->run(task->in, rounds) == UINT64_MAX) {
        fprintf(stderr, "bench: %s was refused memory\n", task->line->name);
        exit(1);
    }
    return seconds() - start;
}

/* What memcpy does in a round: it copies `size` bytes of a source, over and over if that has fewer, into a target that
   is allocated in the round and freed at its end, as what a line makes is, or into one that stays. */
struct copy {
    int anew;
    size_t source_size, size;
    uint8_t *source, *target;
};

/* through a pointer, so that no compiler leaves a copy out */
static void *(*volatile copy_bytes)(void *, const void *, size_t) = memcpy;

static void copy_round(const struct copy *copy) {
    uint8_t *target = copy->anew ? room(copy->size) : copy->target;
    for (size_t at = 0; at < copy->size; at += copy->source_size) {
        size_t left = copy->size - at;
        copy_bytes(target + at, copy->source, left < copy->source_size ? left : copy->source_size);
    }
    if (copy->anew) {
        free(target);
    }
}

static double time_copy(const void *what, size_t rounds) {
    double start = seconds();
    for (size_t round = 0; round < rounds; round++) {
        copy_round(what);
    }
    return seconds() - start;
}

/* As many bytes as a line moves: those that it makes, or, if it makes nothing, those that it reads. memcpy reads and
   writes each of them once, which is the least that a copy, a filter or a concatenation can do. A fill reads nothing
   and a count writes nothing, so these can be faster. */
static size_t bytes_moved(struct traffic of) {
    return of.made ? of.made : of.there;
}

static struct copy make_copy(int anew, size_t source_size, size_t size) {
    uint8_t *source = memset(room(source_size), 1, source_size);
    return (struct copy){anew, source_size, size, source, anew ? NULL : memset(room(size), 1, size)};
}

static void drop_copy(struct copy copy) {
    free(copy.source), free(copy.target);
}

/* The copy of as many bytes as a line moves: from a source as large as what is there, so that it lies in the same level
   of cache, into memory that is obtained in the same way. */
static struct copy copy_of_moved(struct traffic of) {
    return make_copy(of.made != 0, of.there ? of.there : of.made, bytes_moved(of));
}

/* The copy whose source and target together are as large as all that a line goes through, and so lie in the same level
   of cache. */
static struct copy copy_of_traffic(struct traffic of) {
    size_t half = (of.there + of.made) / 2;
    return make_copy(0, half, half);
}

/* What was measured of a line at each size, in seconds a round; 0 if it was not. */
struct figures {
    int asked;
    size_t moved[SIZES];
    double line[SIZES], moved_copy[SIZES], traffic_copy[SIZES];
};

static void measure(const struct line *line, const struct input *in, int size, struct figures *figures) {
    struct traffic traffic = line->traffic(in);
    struct copy moved = copy_of_moved(traffic), all = copy_of_traffic(traffic);
    struct task tasks[3] = {{.time_rounds = time_line, .what = &(struct line_task){line, in}}};
    double *figure[3] = {&figures->line[size]};
    int count = 1;
    if (line->moves) {
        figures->moved[size] = bytes_moved(traffic);
        figure[count] = &figures->moved_copy[size];
        tasks[count++] = (struct task){.time_rounds = time_copy, .what = &moved};
    }
    if ((size == 0 || size == SIZES - 1) && bytes_moved(traffic)) {
        figure[count] = &figures->traffic_copy[size];
        tasks[count++] = (struct task){.time_rounds = time_copy, .what = &all};
    }
    take_turns(tasks, count);
    for (int at = 0; at < count; at++) {
        *figure[at] = round_seconds(&tasks[at]);
    }
    drop_copy(moved), drop_copy(all);
}

/* What grows less counts as flat. memcpy's figure can be below 1, since a copy of a few bytes is mostly a call. */
#define LEAST_GROWTH 1.1

/* The time an item at the last size by that at the first. */
static double growth(const double *times) {
    return times[SIZES - 1] / (double)sizes[SIZES - 1] / (times[0] / (double)sizes[0]);
}

static void print_times(const struct figures *all) {
    printf("%-32s %10s %10s %10s %9s %9s\n", "nanoseconds an item of", "1,024", "65,536", "4,194,304", "growth",
           "memcpy's");
    for (int at = 0; at < LINES_COUNT; at++) {
        const struct figures *it = &all[at];
        if (!it->asked) {
            continue;
        }
        printf("%-32s", lines[at].name);
        for (int size = 0; size < SIZES; size++) {
            printf(" %10.3f", it->line[size] * 1e9 / (double)sizes[size]);
        }
        printf(" %9.2f", growth(it->line));
        if (it->traffic_copy[0] > 0) {
            double of_copy = growth(it->traffic_copy);
            printf(" %9.2f%s", of_copy, growth(it->line) > of_copy && growth(it->line) > LEAST_GROWTH ? " *" : "");
        }
        puts("");
    }
    puts("\ngrowth: the time an item at 4,194,304 items divided by that at 1,024, beside that of memcpy through as");
    puts("much memory; *: above 1.1 and above memcpy's");
}

static void print_rates(const struct figures *all) {
    printf("\n%-26s%28s%28s%28s\n", "GB/s, beside memcpy", "1,024 items", "65,536 items", "4,194,304 items");
    printf("%-26s", "of as many bytes");
    for (int size = 0; size < SIZES; size++) {
        printf("%10s %8s %8s", "ours", "memcpy", "quotient");
    }
    puts("");
    for (int at = 0; at < LINES_COUNT; at++) {
        const struct figures *it = &all[at];
        if (!it->asked || !lines[at].moves) {
            continue;
        }
        printf("%-26s", lines[at].name);
        for (int size = 0; size < SIZES; size++) {
            double bytes = (double)it->moved[size] * 1e-9, ours = it->line[size], copy = it->moved_copy[size];
            printf("%10.2f %8.2f %8.2f", bytes / ours, bytes / copy, copy / ours);
        }
        puts("");
    }
}

/* Marks the lines that are asked for: all, or those whose names begin with one of the words. */
static void ask(struct figures *all, int count, char **words) {
    for (int at = 0; at < LINES_COUNT; at++) {
        all[at].asked = count == 0;
        for (int word = 0; word < count; word++) {
            all[at].asked |= !strncmp(lines[at].name, words[word], strlen(words[word]));
        }
    }
}

/* Keeps freed memory in the process, as tools/compare does, so that the rounds after the first meet no new pages: what
   is measured is the code and not the kernel. With BENCH_FRESH set malloc stays as it is. */
static void keep_memory(void) {
    if (!getenv("BENCH_FRESH")) {
        mallopt(M_MMAP_MAX, 0);
        mallopt(M_TRIM_THRESHOLD, INT_MAX);
    }
}

int main(int count, char **words) {
    static struct figures all[LINES_COUNT];
    keep_memory();
    ask(all, count - 1, words + 1);
    ones = memset(room(sizes[SIZES - 1]), 1, sizes[SIZES - 1]);
    seed = (uint64_t)(seconds() * 1e9) * 0x9E3779B97F4A7C15u;
    for (int size = 0; size < SIZES; size++) {
        struct input in = make_input(sizes[size]);
        for (int at = 0; at < LINES_COUNT; at++) {
            if (all[at].asked) {
                measure(&lines[at], &in, size, &all[at]);
            }
        }
        drop_input(in);
    }
    print_times(all);
    for (int at = 0; at < LINES_COUNT; at++) {
        if (all[at].asked && lines[at].moves) {
            print_rates(all);
            break;
        }
    }
    return 0;
}
