/* The library's calls from C, through include/hecke.h, with results that documents 01 and 02 state or that are worked from them here.
 *
 * Every slice that a call is lent stands in `lent`, among guards of a pattern; results, scratch, registers and answers hold the
 * pattern too. `due` is what is to stand there after the call, and the two are compared whole.
 */
#include "hecke.h"

#include <stdio.h>
#include <string.h>

#define PATTERN 0xa5
#define PATTERN_WORD 0xa5a5a5a5a5a5a5a5u
#define GUARDS 8 /* before a slice, and at least as many after it */
#define LARGEST 5040 /* words of an element of rank 6 */
#define REGISTER 720 /* words of a register of a sheet */

static struct memory {
    uint8_t list[GUARDS + 4097 + GUARDS], second[GUARDS + 65 + GUARDS], bytes[GUARDS + 2016 + GUARDS];
    uint64_t left[GUARDS + LARGEST + GUARDS], right[GUARDS + LARGEST + GUARDS], words[GUARDS + LARGEST + GUARDS];
    uint64_t scratch[GUARDS + 12 * LARGEST + GUARDS], registers[GUARDS + 4 * REGISTER + 1 + GUARDS];
    uint64_t answer[GUARDS + 5 + GUARDS];
} lent, due;

static size_t answer_room; /* words of the answer slice that is lent */
static uint64_t returned; /* by the call that is to be refused */
static unsigned long checks, failures;

static void check(int holds, const char *said, int line) {
    checks++;
    if (!holds) {
        failures++;
        fprintf(stderr, "%s:%d: %s\n", __FILE__, line, said);
    }
}

#define CHECK(condition) check((condition), #condition, __LINE__)
#define SAME(slice) check(memcmp(lent.slice, due.slice, sizeof lent.slice) == 0, #slice " holds what is due", line)

static void fill(void) {
    memset(&lent, PATTERN, sizeof lent);
    memset(&due, PATTERN, sizeof due);
    answer_room = 0;
}

static void compare(int line) {
    SAME(list), SAME(second), SAME(bytes), SAME(left), SAME(right), SAME(words), SAME(scratch), SAME(registers), SAME(answer);
}

/* Copies an input into a slice of `lent`, where it is due after the call too. */
static void put(void *slice, const void *from, size_t size) {
    memcpy(slice, from, size);
    memcpy((char *)&due + ((char *)slice - (char *)&lent), from, size);
}

static uint8_t *put_bytes(uint8_t *slice, const uint8_t *from, size_t size) {
    put(slice, from, size);
    return slice;
}

static uint64_t *put_words(uint64_t *slice, const uint64_t *from, size_t size) {
    put(slice, from, size * sizeof *from);
    return slice;
}

static size_t size_of(const void *from, size_t size) {
    (void)from;
    return size;
}

static uint64_t *answer_of(size_t room) {
    answer_room = room;
    return lent.answer + GUARDS;
}

/* The slices as arguments: inputs, a whole array or a part of one, then what a call may write. */
#define WHOLE(array) (array), sizeof(array) / sizeof *(array)
#define LIST_PART(...) put_bytes(lent.list + GUARDS, __VA_ARGS__), size_of(__VA_ARGS__)
#define SECOND_PART(...) put_bytes(lent.second + GUARDS, __VA_ARGS__), size_of(__VA_ARGS__)
#define SIGNED_PART(word, letters) (const int8_t *)put_bytes(lent.list + GUARDS, (const uint8_t *)(word), (letters)), (letters)
#define LEFT_PART(...) put_words(lent.left + GUARDS, __VA_ARGS__), size_of(__VA_ARGS__)
#define RIGHT_PART(...) put_words(lent.right + GUARDS, __VA_ARGS__), size_of(__VA_ARGS__)
#define LIST(array) LIST_PART(WHOLE(array))
#define SECOND(array) SECOND_PART(WHOLE(array))
#define SIGNED(array) SIGNED_PART(array, sizeof(array))
#define LEFT(array) LEFT_PART(WHOLE(array))
#define RIGHT(array) RIGHT_PART(WHOLE(array))
#define BYTES(size) lent.bytes + GUARDS, (size)
#define WORDS(size) lent.words + GUARDS, (size)
#define SCRATCH(size) lent.scratch + GUARDS, (size)
#define REGISTERS(size) lent.registers + GUARDS, (size)
#define ANSWER_OF(size) answer_of(size), (size)
#define ANSWER ANSWER_OF(5)
#define EMPTY NULL, 0

/* What is due in the front of a slice; of the answers as many as there is room for. */
static void due_answers(const uint64_t *words, size_t size) {
    for (size_t i = 0; i < size && i < answer_room; i++) due.answer[GUARDS + i] = words[i];
}

#define NUMBERS(type, ...) (const type[]){__VA_ARGS__}, sizeof(type[]){__VA_ARGS__}
#define BYTES_ARE(...) memcpy(due.bytes + GUARDS, NUMBERS(uint8_t, __VA_ARGS__))
#define WORDS_ARE(...) memcpy(due.words + GUARDS, NUMBERS(uint64_t, __VA_ARGS__))
#define ZERO_WORDS memset(due.words + GUARDS, 0, LARGEST * sizeof(uint64_t))
#define ANSWERS(...) due_answers(NUMBERS(uint64_t, __VA_ARGS__) / sizeof(uint64_t))
#define CLEARED(size) memset(due.scratch + GUARDS, 0, (size) * sizeof(uint64_t))
#define ZEROS memset(due.registers + GUARDS, 0, 4 * REGISTER * sizeof(uint64_t))
#define REGISTER_IS(r, ...) memcpy(due.registers + GUARDS + (r) * REGISTER, NUMBERS(uint64_t, __VA_ARGS__))
#define NOTHING (void)0

/* A call that gives what is due, and one that is refused and changes nothing. */
#define GIVES(call, ...) (fill(), CHECK((call) == 0), __VA_ARGS__, compare(__LINE__))
#define REFUSED(call, number, place) \
    (fill(), returned = (call), CHECK(returned == (number) + 256 * (uint64_t)(place)), \
     CHECK(HECKE_NUMBER(returned) == (number)), CHECK(HECKE_PLACE(returned) == (place)), compare(__LINE__))

/* Document 01's permutation of ten points, with its tower, its inverse's tower and its word,
 * a(1, 1) a(2, 2) a(3, 1) a(4, 3) a(5, 1) a(6, 3) a(8, 1) a(9, 7). */
static const uint8_t ten[] = {8, 4, 1, 6, 2, 7, 5, 10, 9, 3};
static const uint8_t ten_tower[] = {1, 2, 1, 3, 1, 3, 0, 1, 7};
static const uint8_t ten_inverse[] = {0, 0, 3, 1, 3, 2, 7, 1, 2};
#define TEN_WORD 1, 2, 1, 3, 4, 3, 2, 5, 6, 5, 4, 8, 9, 8, 7, 6, 5, 4, 3

static void permutations(void) {
    const uint8_t images[] = {2, 3, 1}, tower[] = {0, 2}, swap[] = {0, 1};
    GIVES(hecke_tower_of_images(LIST(images), BYTES(2)), BYTES_ARE(0, 2));
    GIVES(hecke_images_of_tower(LIST(tower), BYTES(3)), BYTES_ARE(2, 3, 1));
    GIVES(hecke_tower_inverse(LIST(tower), BYTES(2)), BYTES_ARE(1, 1));
    /* 2 3 1 and then the swap of 2 and 3 is 3 2 1; the swap first gives 2 1 3 */
    GIVES(hecke_tower_product(LIST(tower), SECOND(swap), BYTES(2)), BYTES_ARE(1, 2));
    GIVES(hecke_tower_product(LIST(swap), SECOND(tower), BYTES(2)), BYTES_ARE(1, 0));
    GIVES(hecke_tower_length(LIST(tower), ANSWER), ANSWERS(2));
    GIVES(hecke_tower_word(LIST(tower), BYTES(2), ANSWER), BYTES_ARE(2, 1), ANSWERS(2));

    GIVES(hecke_tower_of_images(LIST(ten), BYTES(9)), memcpy(due.bytes + GUARDS, ten_tower, 9));
    GIVES(hecke_images_of_tower(LIST(ten_tower), BYTES(10)), memcpy(due.bytes + GUARDS, ten, 10));
    GIVES(hecke_tower_inverse(LIST(ten_tower), BYTES(9)), memcpy(due.bytes + GUARDS, ten_inverse, 9));
    GIVES(hecke_tower_inverse(LIST(ten_inverse), BYTES(9)), memcpy(due.bytes + GUARDS, ten_tower, 9));
    GIVES(hecke_tower_product(LIST(ten_tower), SECOND(ten_inverse), BYTES(9)), BYTES_ARE(0, 0, 0, 0, 0, 0, 0, 0, 0));
    GIVES(hecke_tower_length(LIST(ten_tower), ANSWER), ANSWERS(19));
    GIVES(hecke_tower_length(LIST(ten_inverse), ANSWER), ANSWERS(19));
    GIVES(hecke_tower_word(LIST(ten_tower), BYTES(19), ANSWER), BYTES_ARE(TEN_WORD), ANSWERS(19));
    GIVES(hecke_tower_word(LIST(ten_tower), BYTES(2000), ANSWER), BYTES_ARE(TEN_WORD), ANSWERS(19));
}

/* The mask, and then the number of its set bits. */
static void descents(void) {
    const uint8_t tower[] = {0, 2}, bad[] = {0, 3}, many[64] = {0};
    GIVES(hecke_tower_descents(LIST(tower), ANSWER), ANSWERS(2, 1));
    /* a_i exceeds a_{i-1} at i = 1, 2, 4, 6, 8 and 9 */
    GIVES(hecke_tower_descents(LIST(ten_tower), ANSWER), ANSWERS(1 | 2 | 8 | 32 | 128 | 256, 6));
    GIVES(hecke_tower_descents(EMPTY, ANSWER), ANSWERS(0, 0));
    REFUSED(hecke_tower_descents(LIST(bad), ANSWER), 7, 1);
    REFUSED(hecke_tower_descents(LIST(many), ANSWER), 5, 0);
}

static void permutations_refused(void) {
    const uint8_t zero[] = {1, 0}, large[] = {1, 4, 2}, twice[] = {2, 3, 2}, both[] = {3, 3, 0}, images[] = {2, 3, 1};
    const uint8_t first[] = {2}, second[] = {0, 3}, good[] = {0, 2}, many[65] = {1};
    REFUSED(hecke_tower_of_images(EMPTY, BYTES(0)), 5, 0);
    REFUSED(hecke_tower_of_images(LIST(many), BYTES(64)), 5, 0);
    REFUSED(hecke_tower_of_images(LIST(zero), BYTES(1)), 6, 1);
    REFUSED(hecke_tower_of_images(LIST(large), BYTES(2)), 6, 1);
    REFUSED(hecke_tower_of_images(LIST(twice), BYTES(2)), 6, 2);
    REFUSED(hecke_tower_of_images(LIST(both), BYTES(9)), 6, 1);
    REFUSED(hecke_tower_of_images(LIST(images), BYTES(3)), 8, 0);
    REFUSED(hecke_tower_of_images(LIST(images), BYTES(1)), 8, 0);
    REFUSED(hecke_images_of_tower(LIST_PART(many, 64), BYTES(65)), 5, 0);
    REFUSED(hecke_images_of_tower(LIST(second), BYTES(3)), 7, 1);
    REFUSED(hecke_images_of_tower(LIST(good), BYTES(2)), 8, 0);
    REFUSED(hecke_images_of_tower(LIST(good), BYTES(4)), 8, 0);
    REFUSED(hecke_tower_inverse(LIST_PART(many, 64), BYTES(64)), 5, 0);
    REFUSED(hecke_tower_inverse(LIST(first), BYTES(1)), 7, 0);
    REFUSED(hecke_tower_inverse(LIST(good), BYTES(1)), 8, 0);
    REFUSED(hecke_tower_inverse(LIST(good), BYTES(3)), 8, 0);
    REFUSED(hecke_tower_product(LIST(good), SECOND(first), BYTES(2)), 5, 0);
    REFUSED(hecke_tower_product(LIST(first), SECOND(second), BYTES(2)), 5, 0);
    REFUSED(hecke_tower_product(LIST_PART(many, 64), SECOND_PART(many, 64), BYTES(64)), 5, 0);
    REFUSED(hecke_tower_product(LIST(good), SECOND(second), BYTES(2)), 7, 1);
    REFUSED(hecke_tower_product(LIST(second), SECOND(good), BYTES(9)), 7, 1);
    REFUSED(hecke_tower_product(LIST(good), SECOND(good), BYTES(1)), 8, 0);
    REFUSED(hecke_tower_product(LIST(good), SECOND(good), BYTES(3)), 8, 0);
    REFUSED(hecke_tower_length(LIST_PART(many, 64), ANSWER), 5, 0);
    REFUSED(hecke_tower_length(LIST(second), ANSWER), 7, 1);
    REFUSED(hecke_tower_word(LIST_PART(many, 64), BYTES(2000), ANSWER), 5, 0);
    REFUSED(hecke_tower_word(LIST(first), BYTES(0), ANSWER), 7, 0);
    REFUSED(hecke_tower_word(LIST(good), BYTES(1), ANSWER), 8, 0);
}

/* Lists of 1 to 64 images whose first bad image is 0, too large or already seen, at each index, with bad images alone after it. A
 * tower of another size is not named, nor a bad image where the number of images is bad. */
static void first_bad_images(void) {
    for (uint8_t n = 1; n <= 64; n++) {
        const uint8_t bad[] = {0, n + 1, n};
        uint8_t images[64];
        for (uint8_t at = 0; at < n; at++) {
            for (int kind = 0; kind < (at == 0 ? 2 : 3); kind++) {
                for (uint8_t i = 0; i < n; i++) images[i] = i < at ? n - i : bad[(kind + i - at) % 3];
                REFUSED(hecke_tower_of_images(LIST_PART(images, n), BYTES(n - 1)), 6, at);
                REFUSED(hecke_tower_of_images(LIST_PART(images, n), BYTES(n)), 6, at);
            }
        }
    }
    const uint8_t many[65] = {0};
    REFUSED(hecke_tower_of_images(LIST(many), BYTES(1)), 5, 0);
    REFUSED(hecke_tower_of_images(EMPTY, BYTES(1)), 5, 0);
}

/* 64 points in falling order: a_j is j, and every generator is a descent. */
static void largest_rank(void) {
    uint8_t images[64], tower[63], word[2016], *end = word;
    for (uint8_t i = 0; i < 64; i++) images[i] = 64 - i;
    for (uint8_t j = 1; j < 64; j++) {
        tower[j - 1] = j;
        for (uint8_t i = j; i > 0; i--) *end++ = i;
    }
    GIVES(hecke_tower_of_images(LIST(images), BYTES(63)), memcpy(due.bytes + GUARDS, tower, 63));
    GIVES(hecke_images_of_tower(LIST(tower), BYTES(64)), memcpy(due.bytes + GUARDS, images, 64));
    GIVES(hecke_tower_inverse(LIST(tower), BYTES(63)), memcpy(due.bytes + GUARDS, tower, 63));
    GIVES(hecke_tower_length(LIST(tower), ANSWER), ANSWERS(2016));
    GIVES(hecke_tower_word(LIST(tower), BYTES(2016), ANSWER), memcpy(due.bytes + GUARDS, word, 2016), ANSWERS(2016));
    REFUSED(hecke_tower_word(LIST(tower), BYTES(2015), ANSWER), 8, 0);
    GIVES(hecke_tower_descents(LIST(tower), ANSWER), ANSWERS(UINT64_MAX >> 1, 63));
    tower[62] = 64;
    REFUSED(hecke_tower_word(LIST(tower), BYTES(2016), ANSWER), 7, 62);
}

/* For ranks 0 to 6 (m + 1)! and (m + 6) (m + 1)!, and nothing above. */
static const size_t sizes_due[] = {1, 2, 6, 24, 120, 720, 5040, 0, 0};
static const size_t scratch_sizes_due[] = {6, 14, 48, 216, 1200, 7920, 60480, 0, 0};

static void sizes(void) {
    const size_t above[] = {255, 256, 262, SIZE_MAX / 2, SIZE_MAX - 6, SIZE_MAX - 5, SIZE_MAX};
    for (size_t m = 0; m <= 8; m++) {
        CHECK(hecke_size(m) == sizes_due[m]);
        CHECK(hecke_scratch_size(m) == scratch_sizes_due[m]);
    }
    for (size_t i = 0; i < sizeof above / sizeof *above; i++) {
        CHECK(hecke_size(above[i]) == 0);
        CHECK(hecke_scratch_size(above[i]) == 0);
    }
}

static void sums_and_scalings(void) {
    const uint64_t h[] = {2, 3}, g[] = {4, 5}, edges[] = {UINT64_MAX, (uint64_t)1 << 63}, one[] = {7};
    GIVES(hecke_sum(1, LEFT(h), RIGHT(g), WORDS(2), ANSWER), WORDS_ARE(6, 8), ANSWERS(2));
    GIVES(hecke_sum(1, LEFT(h), RIGHT(edges), WORDS(2), ANSWER), WORDS_ARE(1, 3 + ((uint64_t)1 << 63)), ANSWERS(2));
    GIVES(hecke_sum(0, LEFT(one), RIGHT(one), WORDS(1), ANSWER), WORDS_ARE(14), ANSWERS(1));
    GIVES(hecke_scale(1, 3, LEFT(h), WORDS(2), ANSWER), WORDS_ARE(6, 9), ANSWERS(2));
    GIVES(hecke_scale(1, 2, LEFT(edges), WORDS(2), ANSWER), WORDS_ARE(UINT64_MAX - 1, 0), ANSWERS(2));
    GIVES(hecke_scale(1, UINT64_MAX, LEFT(edges), WORDS(2), ANSWER), WORDS_ARE(1, (uint64_t)1 << 63), ANSWERS(2));
    REFUSED(hecke_sum(7, LEFT(h), RIGHT(g), WORDS(2), ANSWER), 1, 0);
    REFUSED(hecke_sum(SIZE_MAX, LEFT(h), RIGHT(g), WORDS(2), ANSWER), 1, 0);
    REFUSED(hecke_sum(1, LEFT(one), RIGHT(g), WORDS(2), ANSWER), 2, 0);
    REFUSED(hecke_sum(1, LEFT(h), RIGHT(one), WORDS(2), ANSWER), 2, 0);
    REFUSED(hecke_sum(1, LEFT(h), RIGHT(g), WORDS(3), ANSWER), 2, 0);
    REFUSED(hecke_scale(7, 3, LEFT(h), WORDS(2), ANSWER), 1, 0);
    REFUSED(hecke_scale(SIZE_MAX, 3, LEFT(h), WORDS(2), ANSWER), 1, 0);
    REFUSED(hecke_scale(1, 3, LEFT(one), WORDS(2), ANSWER), 2, 0);
    REFUSED(hecke_scale(1, 3, LEFT(h), WORDS(1), ANSWER), 2, 0);
}

/* A word acts on the unit of rank m. */
static uint64_t act_on_unit(size_t m, uint64_t q, const uint8_t *word, size_t letters) {
    memset(lent.words + GUARDS, 0, sizes_due[m] * sizeof(uint64_t));
    lent.words[GUARDS] = 1;
    return hecke_act_word(m, q, LIST_PART(word, letters), WORDS(sizes_due[m]), ANSWER);
}

static void word_actions(void) {
    const uint8_t a[] = {1, 2, 1}, b[] = {2, 1, 2}, bad[] = {1, 3, 0}, zero[] = {2, 0}, one[] = {1, 1};
    static uint8_t longest[4097];
    memset(longest, 1, sizeof longest);
    GIVES(act_on_unit(1, 3, one, 2), WORDS_ARE(3, 2), ANSWERS(6));
    /* rank 2 indices 0 to 5 are 1, s_1, s_2, s_1 s_2, s_2 s_1, s_1 s_2 s_1 */
    GIVES(act_on_unit(2, 3, a, 0), WORDS_ARE(1, 0, 0, 0, 0, 0), ANSWERS(0));
    GIVES(act_on_unit(2, 3, a, 1), WORDS_ARE(0, 1, 0, 0, 0, 0), ANSWERS(9));
    GIVES(act_on_unit(2, 3, b, 1), WORDS_ARE(0, 0, 1, 0, 0, 0), ANSWERS(9));
    GIVES(act_on_unit(2, 3, a, 2), WORDS_ARE(0, 0, 0, 1, 0, 0), ANSWERS(18));
    GIVES(act_on_unit(2, 3, b, 2), WORDS_ARE(0, 0, 0, 0, 1, 0), ANSWERS(18));
    GIVES(act_on_unit(2, 3, a, 3), WORDS_ARE(0, 0, 0, 0, 0, 1), ANSWERS(27));
    GIVES(act_on_unit(2, 3, b, 3), WORDS_ARE(0, 0, 0, 0, 0, 1), ANSWERS(27));
    /* with q = 1 the square of T_1 is the unit */
    GIVES(act_on_unit(1, 1, longest, 4096), WORDS_ARE(1, 0), ANSWERS(12288));
    GIVES(act_on_unit(1, 1, longest, 4095), WORDS_ARE(0, 1), ANSWERS(12285));
    REFUSED(hecke_act_word(1, 1, LIST(longest), WORDS(2), ANSWER), 4, 4096);
    longest[7] = 0;
    REFUSED(hecke_act_word(1, 1, LIST(longest), WORDS(2), ANSWER), 4, 4096);
    REFUSED(hecke_act_word(1, 1, LIST_PART(longest, 4096), WORDS(2), ANSWER), 4, 7);
    longest[7] = 1, longest[4095] = 2;
    REFUSED(hecke_act_word(1, 1, LIST_PART(longest, 4096), WORDS(2), ANSWER), 4, 4095);
    REFUSED(hecke_act_word(2, 1, LIST(bad), WORDS(6), ANSWER), 4, 1);
    REFUSED(hecke_act_word(2, 1, LIST(zero), WORDS(6), ANSWER), 4, 1);
    REFUSED(hecke_act_word(0, 1, LIST(one), WORDS(1), ANSWER), 4, 0);
    REFUSED(hecke_act_word(2, 1, LIST(bad), WORDS(5), ANSWER), 2, 0);
    REFUSED(hecke_act_word(7, 1, LIST(bad), WORDS(5040), ANSWER), 1, 0);
    REFUSED(hecke_act_word(SIZE_MAX, 1, LIST(bad), WORDS(6), ANSWER), 1, 0);
}

/* A word of signed letters acts on the unit of rank m. */
static uint64_t act_signed_on_unit(size_t m, uint64_t q, const int8_t *word, size_t letters) {
    memset(lent.words + GUARDS, 0, sizes_due[m] * sizeof(uint64_t));
    lent.words[GUARDS] = 1;
    return hecke_act_signed_word(m, q, SIGNED_PART(word, letters), WORDS(sizes_due[m]), ANSWER);
}

/* The inverse of 3 modulo 2^64, and the figure-eight knot at q = 3: T_1 S T_1 S, where S is the inverse of T_2. With a for the
 * inverse of 3 and b for a - 1 its words are 3bb, 2bb, 3ab, 2ab, 3aa and 0. */
#define THIRD 0xaaaaaaaaaaaaaaabu
#define THIRD_LESS_1 (THIRD - 1)
#define FIGURE_EIGHT \
    3 * THIRD_LESS_1 * THIRD_LESS_1, 2 * THIRD_LESS_1 * THIRD_LESS_1, THIRD_LESS_1, 2 * THIRD * THIRD_LESS_1, THIRD, 0

static void signed_word_actions(void) {
    const int8_t there[] = {1, 1, -1}, eight[] = {1, -2, 1, -2}, back[] = {2, -1, 2, -1}, turned[] = {-1, 1};
    const int8_t bad[] = {-1, 3, 0}, below[] = {1, -3}, least[] = {-1, -128}, zero[] = {-2, 0}, late[] = {1, 2, -2, -1};
    const int8_t last[] = {-6, 6, -7};
    static int8_t longest[4097];
    for (size_t i = 0; i < sizeof longest; i++) longest[i] = i % 2 == 0 ? 1 : -1;
    GIVES(act_signed_on_unit(1, 3, turned, 1), WORDS_ARE(THIRD_LESS_1, THIRD), ANSWERS(3));
    GIVES(act_signed_on_unit(1, 3, turned, 2), WORDS_ARE(1, 0), ANSWERS(6));
    GIVES(act_signed_on_unit(1, 3, there, 2), WORDS_ARE(3, 2), ANSWERS(6));
    GIVES(act_signed_on_unit(1, 3, there, 3), WORDS_ARE(0, 1), ANSWERS(9));
    /* T_1 is its own inverse at q = 1; -1 is its own inverse modulo 2^64 */
    GIVES(act_signed_on_unit(1, 1, turned, 1), WORDS_ARE(0, 1), ANSWERS(3));
    GIVES(act_signed_on_unit(1, UINT64_MAX, turned, 1), WORDS_ARE(UINT64_MAX - 1, UINT64_MAX), ANSWERS(3));
    GIVES(act_signed_on_unit(2, 3, eight, 0), WORDS_ARE(1, 0, 0, 0, 0, 0), ANSWERS(0));
    GIVES(act_signed_on_unit(2, 3, eight, 4), WORDS_ARE(FIGURE_EIGHT), ANSWERS(36));
    /* the figure-eight, and in a second call its mirror word read backwards */
    GIVES(act_signed_on_unit(2, 3, eight, 4) || hecke_act_signed_word(2, 3, SIGNED(back), WORDS(6), ANSWER),
          WORDS_ARE(1, 0, 0, 0, 0, 0), ANSWERS(36));
    GIVES(act_signed_on_unit(1, 3, longest, 4096), WORDS_ARE(1, 0), ANSWERS(12288));
    GIVES(act_signed_on_unit(1, 3, longest, 4095), WORDS_ARE(0, 1), ANSWERS(12285));
    GIVES(act_signed_on_unit(1, 2, there, 2), WORDS_ARE(2, 1), ANSWERS(6));
    /* rank 6: s_1 has index 1 and s_6 index 720, and a letter counts 3 x 5,040 / 2 */
    GIVES(act_signed_on_unit(6, 3, turned, 1), ZERO_WORDS, WORDS_ARE(THIRD_LESS_1, THIRD), ANSWERS(7560));
    GIVES(act_signed_on_unit(6, 3, turned, 2), ZERO_WORDS, WORDS_ARE(1), ANSWERS(15120));
    GIVES(act_signed_on_unit(6, 3, last, 1), ZERO_WORDS, WORDS_ARE(THIRD_LESS_1), due.words[GUARDS + 720] = THIRD, ANSWERS(7560));
    GIVES(act_signed_on_unit(6, 3, last, 2), ZERO_WORDS, WORDS_ARE(1), ANSWERS(15120));
    REFUSED(hecke_act_signed_word(6, 3, SIGNED(last), WORDS(5040), ANSWER), 4, 2);
    REFUSED(hecke_act_signed_word(1, 3, SIGNED(longest), WORDS(2), ANSWER), 4, 4096);
    REFUSED(hecke_act_signed_word(1, 2, SIGNED(longest), WORDS(2), ANSWER), 4, 4096);
    REFUSED(hecke_act_signed_word(1, 2, SIGNED_PART(longest, 4096), WORDS(2), ANSWER), 15, 1);
    longest[4095] = -2;
    REFUSED(hecke_act_signed_word(1, 2, SIGNED_PART(longest, 4096), WORDS(2), ANSWER), 4, 4095);
    for (uint64_t q = 2; q <= 3; q++) {
        REFUSED(hecke_act_signed_word(2, q, SIGNED(bad), WORDS(6), ANSWER), 4, 1);
        REFUSED(hecke_act_signed_word(2, q, SIGNED(below), WORDS(6), ANSWER), 4, 1);
        REFUSED(hecke_act_signed_word(2, q, SIGNED(least), WORDS(6), ANSWER), 4, 1);
        REFUSED(hecke_act_signed_word(2, q, SIGNED(zero), WORDS(6), ANSWER), 4, 1);
        REFUSED(hecke_act_signed_word(0, q, SIGNED(turned), WORDS(1), ANSWER), 4, 0);
        REFUSED(hecke_act_signed_word(2, q, SIGNED(bad), WORDS(5), ANSWER), 2, 0);
        REFUSED(hecke_act_signed_word(7, q, SIGNED(bad), WORDS(5040), ANSWER), 1, 0);
        REFUSED(hecke_act_signed_word(SIZE_MAX, q, SIGNED(bad), WORDS(6), ANSWER), 1, 0);
    }
    REFUSED(hecke_act_signed_word(2, 0, SIGNED(late), WORDS(6), ANSWER), 15, 2);
    REFUSED(hecke_act_signed_word(2, UINT64_MAX - 1, SIGNED(turned), WORDS(6), ANSWER), 15, 0);
}

static void products(void) {
    const uint64_t t1[] = {0, 1}, s2s1[] = {0, 0, 0, 0, 1, 0}, s1[] = {0, 1, 0, 0, 0, 0}, s2[] = {0, 0, 1, 0, 0, 0};
    const uint64_t three[] = {3}, five[] = {5};
    GIVES(hecke_product(0, 9, LEFT(three), RIGHT(five), WORDS(1), SCRATCH(6), ANSWER), WORDS_ARE(15), CLEARED(6), ANSWERS(1));
    GIVES(hecke_product(1, 3, LEFT(t1), RIGHT(t1), WORDS(2), SCRATCH(14), ANSWER), WORDS_ARE(3, 2), CLEARED(14), ANSWERS(9));
    GIVES(hecke_product(1, 0, LEFT(t1), RIGHT(t1), WORDS(2), SCRATCH(15), ANSWER),
          WORDS_ARE(0, UINT64_MAX), CLEARED(14), ANSWERS(9));
    GIVES(hecke_product(1, 1, LEFT(t1), RIGHT(t1), WORDS(2), SCRATCH(99), ANSWER), WORDS_ARE(1, 0), CLEARED(14), ANSWERS(9));
    GIVES(hecke_product(2, 2, LEFT(s2s1), RIGHT(s2s1), WORDS(6), SCRATCH(48), ANSWER),
          WORDS_ARE(0, 0, 0, 2, 0, 1), CLEARED(48), ANSWERS(118));
    GIVES(hecke_product(2, 7, LEFT(s1), RIGHT(s2), WORDS(6), SCRATCH(48), ANSWER),
          WORDS_ARE(0, 0, 0, 1, 0, 0), CLEARED(48), ANSWERS(118));
    GIVES(hecke_product(2, 7, LEFT(s2), RIGHT(s1), WORDS(6), SCRATCH(48), ANSWER),
          WORDS_ARE(0, 0, 0, 0, 1, 0), CLEARED(48), ANSWERS(118));
    REFUSED(hecke_product(7, 2, LEFT(t1), RIGHT(t1), WORDS(2), SCRATCH(0), ANSWER), 1, 0);
    REFUSED(hecke_product(SIZE_MAX, 2, LEFT(t1), RIGHT(t1), WORDS(2), SCRATCH(14), ANSWER), 1, 0);
    REFUSED(hecke_product(2, 2, LEFT(t1), RIGHT(s1), WORDS(6), SCRATCH(48), ANSWER), 2, 0);
    REFUSED(hecke_product(2, 2, LEFT(s1), RIGHT(t1), WORDS(6), SCRATCH(48), ANSWER), 2, 0);
    REFUSED(hecke_product(2, 2, LEFT(s1), RIGHT(s1), WORDS(7), SCRATCH(0), ANSWER), 2, 0);
    REFUSED(hecke_product(2, 2, LEFT(s1), RIGHT(s1), WORDS(6), SCRATCH(47), ANSWER), 3, 0);
}

/* The coefficient of the unit in a product. Rank 2 indices 0 to 5 are 1, s_1, s_2, s_1 s_2, s_2 s_1, s_1 s_2 s_1: the inverse of
 * s_1 s_2 is s_2 s_1, and the others are their own. */
static void pairings(void) {
    const uint64_t t1[] = {0, 1}, s1s2[] = {0, 0, 0, 1, 0, 0}, s2s1[] = {0, 0, 0, 0, 1, 0}, three[] = {3}, five[] = {5};
    const uint64_t h[] = {2, 3, 5, 7, 11, 13}, g[] = {1, 2, 3, 4, 5, 6}, edges[] = {UINT64_MAX, (uint64_t)1 << 63};
    GIVES(hecke_pairing(2, 2, LEFT(s1s2), RIGHT(s1s2), ANSWER), ANSWERS(0));
    GIVES(hecke_pairing(2, 2, LEFT(s1s2), RIGHT(s2s1), ANSWER), ANSWERS(4));
    GIVES(hecke_pairing(2, 2, LEFT(s2s1), RIGHT(s1s2), ANSWER), ANSWERS(4));
    GIVES(hecke_pairing(2, 2, LEFT(s2s1), RIGHT(s2s1), ANSWER), ANSWERS(0));
    GIVES(hecke_pairing(0, 9, LEFT(three), RIGHT(five), ANSWER), ANSWERS(15));
    GIVES(hecke_pairing(1, 3, LEFT(t1), RIGHT(t1), ANSWER), ANSWERS(3));
    GIVES(hecke_pairing(1, 0, LEFT(t1), RIGHT(t1), ANSWER), ANSWERS(0));
    GIVES(hecke_pairing(1, 1, LEFT(t1), RIGHT(edges), ANSWER), ANSWERS((uint64_t)1 << 63));
    GIVES(hecke_pairing(1, 2, LEFT(edges), RIGHT(edges), ANSWER), ANSWERS(1));
    GIVES(hecke_pairing(1, UINT64_MAX, LEFT(edges), RIGHT(t1), ANSWER), ANSWERS((uint64_t)1 << 63));
    GIVES(hecke_pairing(2, 0, LEFT(h), RIGHT(g), ANSWER), ANSWERS(2));
    GIVES(hecke_pairing(2, 10, LEFT(h), RIGHT(g), ANSWER),
          ANSWERS(2 * 1 + 10 * (3 * 2 + 5 * 3) + 100 * (7 * 5 + 11 * 4) + 1000 * (13 * 6)));
    REFUSED(hecke_pairing(7, 2, LEFT(t1), RIGHT(t1), ANSWER), 1, 0);
    REFUSED(hecke_pairing(7, 2, EMPTY, EMPTY, ANSWER), 1, 0);
    REFUSED(hecke_pairing(SIZE_MAX, 2, LEFT(t1), RIGHT(h), ANSWER), 1, 0);
    REFUSED(hecke_pairing(2, 2, LEFT(t1), RIGHT(h), ANSWER), 2, 0);
    REFUSED(hecke_pairing(2, 2, LEFT(h), RIGHT(t1), ANSWER), 2, 0);
    REFUSED(hecke_pairing(1, 2, LEFT(t1), RIGHT(h), ANSWER), 2, 0);
    REFUSED(hecke_pairing(1, 2, LEFT(h), RIGHT(t1), ANSWER), 2, 0);
    REFUSED(hecke_pairing(2, 2, LEFT_PART(h, 5), RIGHT_PART(g, 5), ANSWER), 2, 0);
}

/* At rank 6 s_1 s_2 s_3 s_4 s_5 s_6 has the tower 1 1 1 1 1 1 and the index 1 + 2 + 6 + 24 + 120 + 720, and its inverse the tower
 * 0 0 0 0 0 6 and the index 6 x 720; the last index is that of the reversal, of length 21. The sum over all w of 2 to the power of
 * its length is the product of 2^j - 1 for j = 1 to 7. */
static void pairings_of_rank_6(void) {
    static uint64_t h[LARGEST], g[LARGEST];
    size_t chain = 873, reversed = 4320, last = LARGEST - 1;
    h[chain] = 5, g[reversed] = 7;
    GIVES(hecke_pairing(6, 3, LEFT(h), RIGHT(g), ANSWER), ANSWERS(5 * 7 * 729));
    GIVES(hecke_pairing(6, 3, LEFT(g), RIGHT(h), ANSWER), ANSWERS(5 * 7 * 729));
    GIVES(hecke_pairing(6, 3, LEFT(h), RIGHT(h), ANSWER), ANSWERS(0));
    GIVES(hecke_pairing(6, 3, LEFT(g), RIGHT(g), ANSWER), ANSWERS(0));
    h[last] = 11, g[last] = 13, h[0] = 17, g[0] = 19;
    GIVES(hecke_pairing(6, 2, LEFT(h), RIGHT(g), ANSWER), ANSWERS(17 * 19 + 5 * 7 * 64 + 11 * 13 * ((uint64_t)1 << 21)));
    for (size_t i = 0; i < LARGEST; i++) h[i] = g[i] = 1;
    GIVES(hecke_pairing(6, 2, LEFT(h), RIGHT(g), ANSWER), ANSWERS(1 * 3 * 7 * 15 * 31 * 63 * 127));
    GIVES(hecke_pairing(6, 1, LEFT(h), RIGHT(g), ANSWER), ANSWERS(5040));
    GIVES(hecke_pairing(6, 0, LEFT(h), RIGHT(g), ANSWER), ANSWERS(1));
    REFUSED(hecke_pairing(6, 2, LEFT_PART(h, last), RIGHT(g), ANSWER), 2, 0);
    REFUSED(hecke_pairing(6, 2, LEFT(h), RIGHT_PART(g, last), ANSWER), 2, 0);
    REFUSED(hecke_pairing(5, 2, LEFT(h), RIGHT(g), ANSWER), 2, 0);
    REFUSED(hecke_pairing(7, 2, LEFT(h), RIGHT(g), ANSWER), 1, 0);
}

/* The trace with the parameter z. Of rank 2 the T_w, by index, have the traces 1, z, z, z^2, z^2 and z ((q - 1) z + q). */
static void traces(void) {
    const uint64_t seven[] = {7}, h[] = {2, 3}, trefoil[] = {6, 7}, all[] = {1, 10, 100, 1000, 10000, 100000};
    const uint64_t edges[] = {UINT64_MAX, (uint64_t)1 << 63}, qs[] = {0, 1, 2, 3, (uint64_t)1 << 63, UINT64_MAX};
    const uint64_t zs[] = {UINT64_MAX, (uint64_t)1 << 63, 7, 5, 1, 0};
    for (size_t i = 0; i < sizeof qs / sizeof *qs; i++) {
        uint64_t q = qs[i], z = zs[i], due_trace[] = {1, z, z, z * z, z * z, z * ((q - 1) * z + q)};
        GIVES(hecke_trace(0, q, z, LEFT(seven), SCRATCH(6), ANSWER), CLEARED(6), ANSWERS(7));
        GIVES(hecke_trace(1, q, 5, LEFT(h), SCRATCH(14), ANSWER), CLEARED(14), ANSWERS(17));
        GIVES(hecke_trace(1, q, z, LEFT(h), SCRATCH(14), ANSWER), CLEARED(14), ANSWERS(2 + 3 * z));
        GIVES(hecke_trace(1, q, 2, LEFT(edges), SCRATCH(14), ANSWER), CLEARED(14), ANSWERS(UINT64_MAX));
        for (size_t place = 0; place < 6; place++) {
            uint64_t basis[6] = {0};
            basis[place] = 1;
            GIVES(hecke_trace(2, q, z, LEFT(basis), SCRATCH(48), ANSWER), CLEARED(48), ANSWERS(due_trace[place]));
        }
    }
    /* T_1 cubed at q = 3 */
    GIVES(hecke_trace(1, 3, 10, LEFT(trefoil), SCRATCH(14), ANSWER), CLEARED(14), ANSWERS(6 + 7 * 10));
    GIVES(hecke_trace(2, 3, 5, LEFT(all), SCRATCH(48), ANSWER), CLEARED(48), ANSWERS(6775551));
    GIVES(hecke_trace(2, 3, 5, LEFT(all), SCRATCH(49), ANSWER), CLEARED(48), ANSWERS(6775551));
    GIVES(hecke_trace(2, 3, 5, LEFT(all), SCRATCH(12 * LARGEST), ANSWER), CLEARED(48), ANSWERS(6775551));
    GIVES(hecke_trace(2, 3, 0, LEFT(all), SCRATCH(48), ANSWER), CLEARED(48), ANSWERS(1));
    GIVES(hecke_trace(2, 1, 1, LEFT(all), SCRATCH(48), ANSWER), CLEARED(48), ANSWERS(111111));
    REFUSED(hecke_trace(7, 3, 5, LEFT(h), SCRATCH(0), ANSWER), 1, 0);
    REFUSED(hecke_trace(7, 3, 5, EMPTY, EMPTY, ANSWER), 1, 0);
    REFUSED(hecke_trace(SIZE_MAX, 3, 5, LEFT(h), SCRATCH(14), ANSWER), 1, 0);
    REFUSED(hecke_trace(2, 3, 5, LEFT(h), SCRATCH(47), ANSWER), 2, 0);
    REFUSED(hecke_trace(2, 3, 5, LEFT_PART(all, 5), SCRATCH(48), ANSWER), 2, 0);
    REFUSED(hecke_trace(1, 3, 5, LEFT(all), SCRATCH(48), ANSWER), 2, 0);
    REFUSED(hecke_trace(2, 3, 5, LEFT(all), SCRATCH(47), ANSWER), 3, 0);
    REFUSED(hecke_trace(2, 3, 5, LEFT(all), SCRATCH(6), ANSWER), 3, 0);
    REFUSED(hecke_trace(0, 3, 5, LEFT(seven), SCRATCH(5), ANSWER), 3, 0);
}

/* At rank 6 the unit has the trace 1, and s_1 s_2 s_3 s_4 s_5 s_6, at the index 1 + 2 + 6 + 24 + 120 + 720, and its inverse, at the
 * index 6 x 720, have z^6. At q = 1 and z = 1 the trace is the sum of all coefficients, and at z = 0 the first of them. */
static void traces_of_rank_6(void) {
    static uint64_t h[LARGEST];
    size_t room = scratch_sizes_due[6];
    h[0] = 17;
    GIVES(hecke_trace(6, 3, 5, LEFT(h), SCRATCH(room), ANSWER), CLEARED(room), ANSWERS(17));
    h[873] = 2;
    GIVES(hecke_trace(6, 3, 5, LEFT(h), SCRATCH(room), ANSWER), CLEARED(room), ANSWERS(17 + 2 * 15625));
    h[4320] = 11;
    GIVES(hecke_trace(6, 3, 5, LEFT(h), SCRATCH(room), ANSWER), CLEARED(room), ANSWERS(17 + 13 * 15625));
    for (size_t i = 0; i < LARGEST; i++) h[i] = i + 1;
    GIVES(hecke_trace(6, 1, 1, LEFT(h), SCRATCH(room), ANSWER), CLEARED(room), ANSWERS(5040 * 5041 / 2));
    GIVES(hecke_trace(6, 3, 0, LEFT(h), SCRATCH(room), ANSWER), CLEARED(room), ANSWERS(1));
    REFUSED(hecke_trace(6, 3, 5, LEFT(h), SCRATCH(room - 1), ANSWER), 3, 0);
    REFUSED(hecke_trace(6, 3, 5, LEFT_PART(h, LARGEST - 1), SCRATCH(room - 1), ANSWER), 2, 0);
    REFUSED(hecke_trace(5, 3, 5, LEFT(h), SCRATCH(room), ANSWER), 2, 0);
    REFUSED(hecke_trace(7, 3, 5, LEFT(h), SCRATCH(room), ANSWER), 1, 0);
}

/* The unit times h and h times the unit are h, at document 01's counts C(m, m). */
static void counts(void) {
    const uint64_t due_count[] = {1, 9, 118, 2152, 55840, 2027640, 99518160};
    static uint64_t unit[LARGEST] = {1}, h[LARGEST];
    for (size_t i = 0; i < LARGEST; i++) h[i] = UINT64_MAX / (i + 1);
    for (size_t m = 0; m <= 6; m++) {
        size_t size = sizes_due[m], room = scratch_sizes_due[m];
        GIVES(hecke_product(m, 3, LEFT_PART(unit, size), RIGHT_PART(h, size), WORDS(size), SCRATCH(room), ANSWER),
              memcpy(due.words + GUARDS, h, size * sizeof *h), CLEARED(room), ANSWERS(due_count[m]));
        GIVES(hecke_product(m, 3, LEFT_PART(h, size), RIGHT_PART(unit, size), WORDS(size), SCRATCH(room), ANSWER),
              memcpy(due.words + GUARDS, h, size * sizeof *h), CLEARED(room), ANSWERS(due_count[m]));
        REFUSED(hecke_product(m, 3, LEFT_PART(h, size), RIGHT_PART(unit, size), WORDS(size), SCRATCH(room - 1), ANSWER), 3, 0);
    }
}

/* A begin command of rank m, q = 0, and these bytes after it. */
#define SHEET(m, ...) (const uint8_t[]){0x10, (m), 0, 0, 0, 0, 0, 0, 0, 0, __VA_ARGS__}, sizeof(uint8_t[]){__VA_ARGS__} + 10

/* A sheet that passes its check, and is refused on registers of another size. */
#define SHEET_PASSES(...) \
    (GIVES(hecke_sheet_check(LIST_PART(__VA_ARGS__)), NOTHING), \
     REFUSED(hecke_run_sheet(LIST_PART(__VA_ARGS__), REGISTERS(2879), ANSWER), 8, 0), \
     REFUSED(hecke_run_sheet(LIST_PART(__VA_ARGS__), REGISTERS(2881), ANSWER), 8, 0), \
     REFUSED(hecke_run_sheet(LIST_PART(__VA_ARGS__), REGISTERS(0), ANSWER), 8, 0), \
     REFUSED(hecke_run_sheet(LIST_PART(__VA_ARGS__), EMPTY, ANSWER), 8, 0))

/* A sheet that its check and its run refuse, whatever the size of the registers. */
#define SHEET_REFUSED(number, place, ...) \
    (REFUSED(hecke_sheet_check(LIST_PART(__VA_ARGS__)), number, place), \
     REFUSED(hecke_run_sheet(LIST_PART(__VA_ARGS__), REGISTERS(2880), ANSWER), number, place), \
     REFUSED(hecke_run_sheet(LIST_PART(__VA_ARGS__), REGISTERS(2879), ANSWER), number, place), \
     REFUSED(hecke_run_sheet(LIST_PART(__VA_ARGS__), REGISTERS(2881), ANSWER), number, place), \
     REFUSED(hecke_run_sheet(LIST_PART(__VA_ARGS__), EMPTY, ANSWER), number, place))

/* Document 01's example. */
static const uint8_t example[] = {0x10, 1, 3, 0, 0, 0, 0, 0, 0, 0, 0x20, 0, 0x30, 0, 1, 0x30, 0, 1, 0x40, 0, 0};

static void sheets(void) {
    const uint8_t end[] = {0}, unit[] = {0x20, 0, 0}, unknown[] = {0x11}, cut[] = {0x10, 1, 3, 0, 0, 0, 0, 0, 0};
    const uint8_t inverse[] = {0x34, 0, 1, 0}, trace[] = {0x43, 9, 0, 0, 0, 0, 0, 0, 0, 0, 0};
    SHEET_PASSES(WHOLE(example));
    SHEET_PASSES(SHEET(0, 0x00));
    SHEET_PASSES(SHEET(5, 0x21, 3, 0xcf, 2, 0, 0, 0, 0, 0, 0, 0, 0, 0x42, 3, 3, 0)); /* 0x2cf is 719 */
    SHEET_PASSES(SHEET(0, 0x33, 3, 0, 0, 0, 0, 0, 0, 0, 0, 0x31, 3, 2, 1, 0));
    REFUSED(hecke_sheet_check(EMPTY), 9, 0);
    REFUSED(hecke_run_sheet(EMPTY, REGISTERS(2880), ANSWER), 9, 0);
    REFUSED(hecke_run_sheet(EMPTY, EMPTY, ANSWER), 9, 0);
    SHEET_REFUSED(10, 0, WHOLE(unknown));
    SHEET_REFUSED(10, 12, SHEET(1, 0x20, 0, 0x44));
    SHEET_REFUSED(11, 0, WHOLE(cut));
    SHEET_REFUSED(11, 10, SHEET(1, 0x10, 1));
    SHEET_REFUSED(13, 10, SHEET(1, 0x20, 4, 0x31, 0, 0));
    SHEET_REFUSED(11, 12, SHEET(1, 0x20, 3, 0x31, 0, 0));
    SHEET_REFUSED(12, 0, WHOLE(end));
    SHEET_REFUSED(12, 0, WHOLE(unit));
    SHEET_REFUSED(12, 10, SHEET(1, 0x10, 9, 0, 0, 0, 0, 0, 0, 0, 0, 0));
    SHEET_REFUSED(13, 0, SHEET(6, 0x00));
    SHEET_REFUSED(13, 10, SHEET(5, 0x21, 0, 0xd0, 2, 0, 0, 0, 0, 0, 0, 0, 0, 0));
    SHEET_REFUSED(13, 13, SHEET(2, 0x30, 0, 2, 0x30, 0, 3, 0));
    SHEET_REFUSED(13, 10, SHEET(2, 0x30, 0, 0, 0));
    SHEET_REFUSED(13, 10, SHEET(2, 0x32, 3, 3, 4, 0));
    SHEET_REFUSED(14, 13, SHEET(2, 0x40, 3, 0, 0xff));
    SHEET_REFUSED(11, 10, SHEET(2, 0x34, 0));
    SHEET_REFUSED(12, 0, WHOLE(inverse));
    SHEET_REFUSED(13, 10, SHEET(2, 0x34, 0, 3, 0));
    SHEET_REFUSED(13, 10, SHEET(2, 0x34, 4, 1, 0));
    SHEET_REFUSED(15, 10, SHEET(2, 0x34, 3, 2, 0));
    SHEET_REFUSED(15, 13, SHEET(2, 0x30, 0, 1, 0x34, 0, 2, 0x34, 0, 1, 0xff));
    SHEET_REFUSED(15, 10, SHEET(2, 0x34, 3, 2));
    SHEET_REFUSED(14, 11, SHEET(2, 0, 0x34, 0, 1));
    SHEET_REFUSED(14, 12, SHEET(2, 0x40, 3));
    SHEET_PASSES(SHEET(0, 0x43, 3, 255, 255, 255, 255, 255, 255, 255, 255, 0));
    SHEET_REFUSED(11, 10, SHEET(2, 0x43, 9, 1, 2, 3, 4, 5, 6, 7));
    SHEET_REFUSED(12, 0, WHOLE(trace));
    SHEET_REFUSED(13, 10, SHEET(2, 0x43, 4, 0, 0, 0, 0, 0, 0, 0, 0, 0));
}

/* Begin, as many commands as fit, end: 10 + 3 + 2 x 2041 + 1 = 4,096 bytes, and 10 + 2 x 2043 + 1 = 4,097. */
static void longest_sheets(void) {
    static uint8_t sheet[4097];
    sheet[0] = 0x10;
    for (size_t at = 10; at + 1 < sizeof sheet; at += 2) sheet[at] = 0x40;
    SHEET_REFUSED(9, 0, sheet, 4097);
    memset(sheet + 10, 0, sizeof sheet - 10);
    sheet[10] = 0x41;
    for (size_t at = 13; at + 1 < 4096; at += 2) sheet[at] = 0x40;
    SHEET_PASSES(sheet, 4096);
    GIVES(hecke_run_sheet(LIST_PART(sheet, 4096), REGISTERS(2880), ANSWER), ZEROS, ANSWERS(0));
    SHEET_REFUSED(14, 4095, sheet, 4095);
    SHEET_REFUSED(11, 4093, sheet, 4094);
}

/* The registers hold the pattern before; what no command writes is zero afterwards. */
static void runs(void) {
    /* T_1, its square, 5 times the sum of both, and 1 + 7 T_1: 3 + 9 + 2 + 2 operations */
    const uint8_t all[] = {0x10, 1, 3, 0, 0, 0, 0, 0, 0, 0, 0x20, 0, 0x30, 0, 1, 0x31, 1, 0, 0, 0x32, 2, 1, 0,
                           0x33, 2, 5, 0, 0, 0, 0, 0, 0, 0, 0x20, 3, 0x21, 3, 1, 0, 7, 0, 0, 0, 0, 0, 0, 0,
                           0x40, 1, 0x41, 2, 3, 0x42, 0, 1, 0};
    /* the figure-eight, and an inverse that its letter undoes: 6 letters of either kind */
    const uint8_t both[] = {0x10, 2, 3, 0, 0, 0, 0, 0, 0, 0, 0x20, 1, 0x30, 1, 1, 0x34, 1, 2, 0x30, 1, 1, 0x34, 1, 2,
                            0x20, 0, 0x34, 0, 2, 0x30, 0, 2, 0};
    GIVES(hecke_run_sheet(LIST(example), REGISTERS(2880), ANSWER), ZEROS, REGISTER_IS(0, 3, 2), ANSWERS(6));
    GIVES(hecke_run_sheet(LIST(all), REGISTERS(2880), ANSWER), ZEROS, REGISTER_IS(0, 0, 1), REGISTER_IS(1, 3, 2),
          REGISTER_IS(2, 15, 15), REGISTER_IS(3, 1, 7), ANSWERS(16));
    GIVES(hecke_run_sheet(LIST(both), REGISTERS(2880), ANSWER), ZEROS, REGISTER_IS(0, 1), REGISTER_IS(1, FIGURE_EIGHT),
          ANSWERS(54));
    GIVES(hecke_run_sheet(LIST_PART(SHEET(5, 0x00)), REGISTERS(2880), ANSWER), ZEROS, ANSWERS(0));
    /* a trace between two commands, which counts nothing and leaves every register as it was */
    GIVES(hecke_run_sheet(LIST_PART(SHEET(1, 0x20, 1, 0x43, 1, 5, 0, 0, 0, 0, 0, 0, 0, 0x30, 1, 1, 0)), REGISTERS(2880), ANSWER),
          ZEROS, REGISTER_IS(1, 0, 1), ANSWERS(3));
    /* word 719 of register 3 is the last of all, and its bytes stand lowest first */
    GIVES(hecke_run_sheet(LIST_PART(SHEET(5, 0x21, 3, 0xcf, 2, 1, 2, 0, 0, 0, 0, 0, 0x80, 0)), REGISTERS(2880), ANSWER),
          ZEROS, due.registers[GUARDS + 2879] = 0x8000000000000201u, ANSWERS(0));
    /* the square of T_1 in the place of T_1, at q = 0 */
    GIVES(hecke_run_sheet(LIST_PART(SHEET(1, 0x20, 1, 0x30, 1, 1, 0x31, 1, 1, 1, 0)), REGISTERS(2880), ANSWER),
          ZEROS, REGISTER_IS(1, 0, UINT64_MAX), ANSWERS(12));
    GIVES(hecke_run_sheet(LIST_PART(SHEET(0, 0x20, 2, 0x32, 3, 2, 2, 0x31, 0, 3, 3, 0)), REGISTERS(2880), ANSWER),
          ZEROS, REGISTER_IS(0, 4), REGISTER_IS(2, 1), REGISTER_IS(3, 2), ANSWERS(2));
}

/* Null pointers with length 0 are empty slices. */
static void empty_slices(void) {
    const uint8_t point[] = {1};
    const uint64_t one[] = {1};
    GIVES(hecke_tower_of_images(LIST(point), EMPTY), NOTHING);
    GIVES(hecke_images_of_tower(EMPTY, BYTES(1)), BYTES_ARE(1));
    REFUSED(hecke_images_of_tower(EMPTY, EMPTY), 8, 0);
    GIVES(hecke_tower_inverse(EMPTY, EMPTY), NOTHING);
    GIVES(hecke_tower_product(EMPTY, EMPTY, EMPTY), NOTHING);
    REFUSED(hecke_tower_product(EMPTY, SECOND(point), EMPTY), 5, 0);
    GIVES(hecke_tower_length(EMPTY, ANSWER), ANSWERS(0));
    GIVES(hecke_tower_word(EMPTY, EMPTY, ANSWER), ANSWERS(0));
    REFUSED(hecke_tower_word(LIST(point), EMPTY, ANSWER), 8, 0);
    REFUSED(hecke_sum(0, EMPTY, RIGHT(one), WORDS(1), ANSWER), 2, 0);
    REFUSED(hecke_sum(0, LEFT(one), EMPTY, WORDS(1), ANSWER), 2, 0);
    REFUSED(hecke_sum(0, LEFT(one), RIGHT(one), EMPTY, ANSWER), 2, 0);
    REFUSED(hecke_scale(0, 1, EMPTY, WORDS(1), ANSWER), 2, 0);
    REFUSED(hecke_scale(0, 1, LEFT(one), EMPTY, ANSWER), 2, 0);
    GIVES(hecke_act_word(0, 1, EMPTY, WORDS(1), ANSWER), ANSWERS(0));
    REFUSED(hecke_act_word(0, 1, EMPTY, EMPTY, ANSWER), 2, 0);
    GIVES(hecke_act_signed_word(0, 2, EMPTY, WORDS(1), ANSWER), ANSWERS(0));
    REFUSED(hecke_act_signed_word(0, 1, EMPTY, EMPTY, ANSWER), 2, 0);
    REFUSED(hecke_product(0, 1, EMPTY, RIGHT(one), WORDS(1), SCRATCH(6), ANSWER), 2, 0);
    REFUSED(hecke_product(0, 1, LEFT(one), EMPTY, WORDS(1), SCRATCH(6), ANSWER), 2, 0);
    REFUSED(hecke_product(0, 1, LEFT(one), RIGHT(one), EMPTY, SCRATCH(6), ANSWER), 2, 0);
    REFUSED(hecke_product(0, 1, LEFT(one), RIGHT(one), WORDS(1), EMPTY, ANSWER), 3, 0);
    REFUSED(hecke_product(7, 1, EMPTY, EMPTY, EMPTY, EMPTY, ANSWER), 1, 0);
    REFUSED(hecke_pairing(0, 1, EMPTY, RIGHT(one), ANSWER), 2, 0);
    REFUSED(hecke_pairing(0, 1, LEFT(one), EMPTY, ANSWER), 2, 0);
    REFUSED(hecke_pairing(0, 1, EMPTY, EMPTY, ANSWER), 2, 0);
    REFUSED(hecke_trace(0, 1, 1, EMPTY, SCRATCH(6), ANSWER), 2, 0);
    REFUSED(hecke_trace(0, 1, 1, EMPTY, EMPTY, ANSWER), 2, 0);
    REFUSED(hecke_trace(0, 1, 1, LEFT(one), EMPTY, ANSWER), 3, 0);
}

/* The calls write and refuse as before where the answer is a null pointer with length 0. */
static void empty_answers(void) {
    const uint8_t tower[] = {0, 2}, bad[] = {2}, letter[] = {1}, other[] = {2};
    const int8_t inverse[] = {-1};
    const uint64_t h[] = {0, 1};
    GIVES(hecke_tower_length(LIST(tower), EMPTY), NOTHING);
    REFUSED(hecke_tower_length(LIST(bad), EMPTY), 7, 0);
    GIVES(hecke_tower_word(LIST(tower), BYTES(2), EMPTY), BYTES_ARE(2, 1));
    REFUSED(hecke_tower_word(LIST(tower), BYTES(1), EMPTY), 8, 0);
    GIVES(hecke_tower_descents(LIST(tower), EMPTY), NOTHING);
    REFUSED(hecke_tower_descents(LIST(bad), EMPTY), 7, 0);
    GIVES(hecke_sum(1, LEFT(h), RIGHT(h), WORDS(2), EMPTY), WORDS_ARE(0, 2));
    REFUSED(hecke_sum(2, LEFT(h), RIGHT(h), WORDS(2), EMPTY), 2, 0);
    GIVES(hecke_scale(1, 5, LEFT(h), WORDS(2), EMPTY), WORDS_ARE(0, 5));
    REFUSED(hecke_scale(7, 5, LEFT(h), WORDS(2), EMPTY), 1, 0);
    GIVES(hecke_act_word(1, 3, LIST(letter), WORDS(2), EMPTY), WORDS_ARE(3 * PATTERN_WORD, 3 * PATTERN_WORD));
    REFUSED(hecke_act_word(1, 3, LIST(other), WORDS(2), EMPTY), 4, 0);
    GIVES(hecke_act_signed_word(1, 3, SIGNED(inverse), WORDS(2), EMPTY), WORDS_ARE(THIRD * PATTERN_WORD, THIRD * PATTERN_WORD));
    REFUSED(hecke_act_signed_word(1, 2, SIGNED(inverse), WORDS(2), EMPTY), 15, 0);
    GIVES(hecke_product(1, 3, LEFT(h), RIGHT(h), WORDS(2), SCRATCH(14), EMPTY), WORDS_ARE(3, 2), CLEARED(14));
    REFUSED(hecke_product(1, 3, LEFT(h), RIGHT(h), WORDS(2), SCRATCH(13), EMPTY), 3, 0);
    GIVES(hecke_pairing(1, 3, LEFT(h), RIGHT(h), EMPTY), NOTHING);
    REFUSED(hecke_pairing(2, 3, LEFT(h), RIGHT(h), EMPTY), 2, 0);
    GIVES(hecke_trace(1, 3, 5, LEFT(h), SCRATCH(14), EMPTY), CLEARED(14));
    REFUSED(hecke_trace(1, 3, 5, LEFT(h), SCRATCH(13), EMPTY), 3, 0);
    GIVES(hecke_run_sheet(LIST(example), REGISTERS(2880), EMPTY), ZEROS, REGISTER_IS(0, 3, 2));
    REFUSED(hecke_run_sheet(LIST(bad), REGISTERS(2880), EMPTY), 10, 0);
}

/* An answer of so many words takes what it has room for, and nothing where the call is refused. */
static void answers_of(size_t room) {
    const uint8_t tower[] = {0, 2}, bad[] = {0, 3}, letter[] = {1};
    const int8_t inverse[] = {-1};
    const uint64_t h[] = {0, 1};
    GIVES(hecke_tower_length(LIST(tower), ANSWER_OF(room)), ANSWERS(2));
    REFUSED(hecke_tower_length(LIST(bad), ANSWER_OF(room)), 7, 1);
    GIVES(hecke_tower_word(LIST(tower), BYTES(3), ANSWER_OF(room)), BYTES_ARE(2, 1), ANSWERS(2));
    REFUSED(hecke_tower_word(LIST(bad), BYTES(3), ANSWER_OF(room)), 7, 1);
    GIVES(hecke_tower_descents(LIST(tower), ANSWER_OF(room)), ANSWERS(2, 1));
    REFUSED(hecke_tower_descents(LIST(bad), ANSWER_OF(room)), 7, 1);
    GIVES(hecke_sum(1, LEFT(h), RIGHT(h), WORDS(2), ANSWER_OF(room)), WORDS_ARE(0, 2), ANSWERS(2));
    REFUSED(hecke_sum(1, LEFT(h), RIGHT(h), WORDS(1), ANSWER_OF(room)), 2, 0);
    GIVES(hecke_scale(1, 5, LEFT(h), WORDS(2), ANSWER_OF(room)), WORDS_ARE(0, 5), ANSWERS(2));
    REFUSED(hecke_scale(1, 5, LEFT(h), WORDS(1), ANSWER_OF(room)), 2, 0);
    GIVES(hecke_act_word(1, 3, LIST(letter), WORDS(2), ANSWER_OF(room)),
          WORDS_ARE(3 * PATTERN_WORD, 3 * PATTERN_WORD), ANSWERS(3));
    REFUSED(hecke_act_word(1, 3, LIST(bad), WORDS(2), ANSWER_OF(room)), 4, 0);
    GIVES(hecke_act_signed_word(1, 3, SIGNED(inverse), WORDS(2), ANSWER_OF(room)),
          WORDS_ARE(THIRD * PATTERN_WORD, THIRD * PATTERN_WORD), ANSWERS(3));
    REFUSED(hecke_act_signed_word(1, 2, SIGNED(inverse), WORDS(2), ANSWER_OF(room)), 15, 0);
    GIVES(hecke_product(1, 3, LEFT(h), RIGHT(h), WORDS(2), SCRATCH(14), ANSWER_OF(room)),
          WORDS_ARE(3, 2), CLEARED(14), ANSWERS(9));
    REFUSED(hecke_product(1, 3, LEFT(h), RIGHT(h), WORDS(2), SCRATCH(13), ANSWER_OF(room)), 3, 0);
    GIVES(hecke_pairing(1, 3, LEFT(h), RIGHT(h), ANSWER_OF(room)), ANSWERS(3));
    REFUSED(hecke_pairing(1, 3, LEFT(h), RIGHT_PART(h, 1), ANSWER_OF(room)), 2, 0);
    GIVES(hecke_trace(1, 3, 5, LEFT(h), SCRATCH(14), ANSWER_OF(room)), CLEARED(14), ANSWERS(5));
    REFUSED(hecke_trace(1, 3, 5, LEFT(h), SCRATCH(13), ANSWER_OF(room)), 3, 0);
    GIVES(hecke_run_sheet(LIST(example), REGISTERS(2880), ANSWER_OF(room)), ZEROS, REGISTER_IS(0, 3, 2), ANSWERS(6));
    REFUSED(hecke_run_sheet(LIST(bad), REGISTERS(2880), ANSWER_OF(room)), 12, 0);
    REFUSED(hecke_run_sheet(LIST(example), REGISTERS(2879), ANSWER_OF(room)), 8, 0);
}

static void short_answers(void) {
    for (size_t room = 0; room <= 3; room++) answers_of(room);
}

int main(void) {
    permutations();
    descents();
    permutations_refused();
    first_bad_images();
    largest_rank();
    sizes();
    sums_and_scalings();
    word_actions();
    signed_word_actions();
    products();
    pairings();
    pairings_of_rank_6();
    traces();
    traces_of_rank_6();
    counts();
    sheets();
    longest_sheets();
    runs();
    empty_slices();
    empty_answers();
    short_answers();
    if (failures != 0) {
        printf("%lu of %lu checks failed\n", failures, checks);
        return 1;
    }
    printf("%lu checks passed\n", checks);
    return 0;
}
