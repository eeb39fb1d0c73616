/* Permutations, towers, elements of the Iwahori-Hecke algebra of type A, and run sheets.
 *
 * Every call is total: it returns for all numbers and all slices, reads and writes only within the slices, and checks all
 * that it is given before it writes. All but hecke_size and hecke_scratch_size return one word: 0, or else the refusal, which
 * is its number plus 256 times its place, both as document 01 has them, and 15 and its places as document 02, Ticket 1, has them.
 * A refused call leaves every lent slice as it was. HECKE_NUMBER and HECKE_PLACE take the word apart. The place of an image, an
 * entry or a letter is its index, from 0, and that of a command its offset; it is 0 where no place is named, and at most 4,096.
 *
 * A slice is a pointer and the number of its elements. A null pointer with length 0 is an empty slice. What is the caller's
 * part: a pointer leads to as many elements as its length says, and a slice that is not const overlaps no other slice of the
 * call.
 *
 * The answer is a slice of any length, which may be empty. A call that is not refused writes what it counts or finds at its
 * front, as far as it has room, and the words after that stay as they were. Beside each call stands what answer[0] is;
 * hecke_tower_descents alone has an answer[1].
 *
 * A permutation of rank m is its image list, of m + 1 bytes; its tower is its inversion table, of m bytes: entry a_j, at
 * index j - 1, is the number of points before j + 1 whose image exceeds that of j + 1. An element of rank m is M = (m + 1)!
 * words, its coefficients modulo 2^64; that of T_w is at the index sum of a_j j!. hecke_size has M.
 */
#ifndef HECKE_H
#define HECKE_H

#include <stddef.h>
#include <stdint.h>

/* The number and the place of the refusal in a returned word; both are 0 for the word 0. Of 263 they are 7 and 1. */
#define HECKE_NUMBER(word) ((word) & 255)
#define HECKE_PLACE(word) ((word) >> 8)

#ifdef __cplusplus
extern "C" {
#endif

/* The tower of an image list. Refused: 5 no image or over 64; 6 the first image that is 0, too large or already seen; 8 a
 * tower of another size than one entry less than there are images. Images 2 3 1 give the tower 0 2. */
uint64_t hecke_tower_of_images(const uint8_t *images, size_t images_len, uint8_t *tower, size_t tower_len);

/* The image list of a tower. Refused: 5 over 63 entries; 7 the first entry a_j above j; 8 an image list of another size than
 * one image more than there are entries. The tower 0 2 gives the images 2 3 1. */
uint64_t hecke_images_of_tower(const uint8_t *tower, size_t tower_len, uint8_t *images, size_t images_len);

/* The tower of the inverse of a tower's permutation. Refused: 5 over 63 entries; 7 the first entry a_j above j; 8 a result of
 * another size than the tower. The tower 0 2 gives 1 1. */
uint64_t hecke_tower_inverse(const uint8_t *tower, size_t tower_len, uint8_t *result, size_t result_len);

/* The tower of the product of two towers' permutations, the first of which acts first. Refused: 5 over 63 entries, or unequal
 * sizes; 7 the first entry a_j above j, of the first tower, then of the second; 8 a result of another size than the towers.
 * The towers 0 2 and 0 1 give 1 2. */
uint64_t hecke_tower_product(const uint8_t *left, size_t left_len, const uint8_t *right, size_t right_len,
                             uint8_t *result, size_t result_len);

/* The length of a tower's permutation, in answer[0]. Refused: 5 over 63 entries; 7 the first entry a_j above j. The tower 0 2
 * has length 2; the tower 0 3 is refused with the word 263, which is 7 at place 1. */
uint64_t hecke_tower_length(const uint8_t *tower, size_t tower_len, uint64_t *answer, size_t answer_len);

/* The standard shortest word of a tower's permutation, with the number of its letters in answer[0]. Bytes after them stay.
 * Refused: 5 over 63 entries; 7 the first entry a_j above j; 8 room for fewer bytes than there are letters. The tower 0 2
 * gives the word 2 1, of 2 letters. */
uint64_t hecke_tower_word(const uint8_t *tower, size_t tower_len, uint8_t *word, size_t word_len,
                          uint64_t *answer, size_t answer_len);

/* The descent set of a tower's permutation w, the generators s_i with a shorter s_i w, as a mask with s_i at bit i - 1, in
 * answer[0]; the number of its set bits is answer[1]. Refused: 5 over 63 entries; 7 the first entry a_j above j. The tower
 * 0 2 has the mask 2, of 1 set bit. */
uint64_t hecke_tower_descents(const uint8_t *tower, size_t tower_len, uint64_t *answer, size_t answer_len);

/* M = (m + 1)!, the words of an element of rank m, for ranks 0 to 6; 0 for a rank above. Rank 2 has 6. */
size_t hecke_size(size_t m);

/* (m + 6) M, the words of scratch that a product or a trace of rank m takes, for ranks 0 to 6; 0 for a rank above. Rank 2 takes
 * 48. */
size_t hecke_scratch_size(size_t m);

/* The sum of two elements of rank m, coefficient by coefficient; answer[0] is the count of ring operations, M. Refused: 1 a
 * rank above 6; 2 a slice that is not M words. Of rank 1, 2 3 and 4 5 give 6 8 and count 2. */
uint64_t hecke_sum(size_t m, const uint64_t *left, size_t left_len, const uint64_t *right, size_t right_len,
                   uint64_t *result, size_t result_len, uint64_t *answer, size_t answer_len);

/* An element of rank m times the word c, coefficient by coefficient; answer[0] is the count, M. Refused: 1 a rank above 6; 2 a
 * slice that is not M words. Of rank 1, 3 times 2 3 gives 6 9 and counts 2. */
uint64_t hecke_scale(size_t m, uint64_t c, const uint64_t *element, size_t element_len,
                     uint64_t *result, size_t result_len, uint64_t *answer, size_t answer_len);

/* The word's generators T_i act on the element of rank m, left to right; answer[0] is the count, 3M/2 a letter. Refused: 1 a
 * rank above 6; 2 an element that is not M words; 4 a word of over 4,096 letters (place 4,096), else the first letter that is
 * 0 or above m. Of rank 1 with q = 3, the word 1 1 makes 3 2 of 1 0 and counts 6. */
uint64_t hecke_act_word(size_t m, uint64_t q, const uint8_t *word, size_t word_len,
                        uint64_t *element, size_t element_len, uint64_t *answer, size_t answer_len);

/* The word's signed letters act on the element of rank m, left to right: i is T_i, and -i its inverse, q' T_i + (q' - 1), where
 * q' is the inverse of q modulo 2^64; answer[0] is the count, 3M/2 a letter either way. Refused: 1 a rank above 6; 2 an element
 * that is not M words; 4 a word of over 4,096 letters (place 4,096), else the first letter that is 0 or outside -m to m; 15 the
 * first letter below 0 while q is even, and so has no inverse. Of rank 1 with q = 3, the word 1 1 -1 makes 0 1 of 1 0 and
 * counts 9. For odd q a word and then, in a second call, its mirror word read backwards leave the element as it was. */
uint64_t hecke_act_signed_word(size_t m, uint64_t q, const int8_t *word, size_t word_len,
                               uint64_t *element, size_t element_len, uint64_t *answer, size_t answer_len);

/* The product of two elements of rank m; answer[0] is the count, C(m, m). The first hecke_scratch_size(m) words of scratch are
 * zero afterwards, and the rest as before. Refused: 1 a rank above 6; 2 a slice that is not M words; 3 scratch of fewer than
 * hecke_scratch_size(m) words. Of rank 1 with q = 3, 0 1 and 0 1 give 3 2 and count 9. */
uint64_t hecke_product(size_t m, uint64_t q, const uint64_t *left, size_t left_len, const uint64_t *right, size_t right_len,
                       uint64_t *result, size_t result_len, uint64_t *scratch, size_t scratch_len,
                       uint64_t *answer, size_t answer_len);

/* The pairing of two elements of rank m, in answer[0]: the coefficient of the unit in their product, which is the sum over w of
 * q to the power of the length of w, times left at w, times right at the inverse of w (document 02, Ticket 2). It counts no ring
 * operation. Refused: 1 a rank above 6; 2 a slice that is not M words. Of rank 1 with q = 3, 0 1 and 0 1 give 3. Of rank 2 with
 * q = 2, 0 0 0 1 0 0, which is T of s_1 s_2, gives 0 with itself and 4 with 0 0 0 0 1 0, which is T of s_2 s_1. */
uint64_t hecke_pairing(size_t m, uint64_t q, const uint64_t *left, size_t left_len, const uint64_t *right, size_t right_len,
                       uint64_t *answer, size_t answer_len);

/* The trace of an element h of rank m with the parameter z, in answer[0] (document 02, Ticket 4): at rank 0 the coefficient; at
 * rank m the trace of h_0, plus z times the sum over k = 1 to m of the trace of h_k T_a, where h_0 to h_m are the blocks of h, elements
 * of rank m - 1, and a is s_(m-1) s_(m-2) .. s_(m-k+1), a product of k - 1 generators. It counts no ring operation. The first
 * hecke_scratch_size(m) words of scratch are zero afterwards, and the rest as before. Refused: 1 a rank above 6; 2 an element that
 * is not M words; 3 scratch of fewer than hecke_scratch_size(m) words. Of rank 1, for every q, 2 3 and z = 5 give 17. Of rank 2
 * with q = 3 and z = 5, 0 0 0 0 0 1, which is T of s_1 s_2 s_1, gives 65. */
uint64_t hecke_trace(size_t m, uint64_t q, uint64_t z, const uint64_t *element, size_t element_len,
                     uint64_t *scratch, size_t scratch_len, uint64_t *answer, size_t answer_len);

/* The check of a whole run sheet. Refused: 9 a sheet that is empty or over 4,096 bytes; 10 to 13 and 15 each command, lowest
 * offset first (place its offset): unknown, operands cut off, out of order, operand out of range, an inverse letter (0x34) while
 * q is even; 14 a byte after the end command (place its offset), or no end command (place the sheet's length). A lone byte 0 is
 * refused with 12 at 0. */
uint64_t hecke_sheet_check(const uint8_t *sheet, size_t sheet_len);

/* Runs a whole run sheet, of rank m, on four registers of 720 words; register r begins at word 720 r. Whatever they held, the
 * run begins with zero elements; afterwards each register has its element in its first M words, and zeros after them.
 * answer[0] is the count of ring operations over all commands. Commands 0x40 to 0x43 print nothing. Refused: 9 to 15 as by
 * hecke_sheet_check, and then 8 registers that are not 2,880 words. The sheet, in hexadecimal,
 *     10 01 03 00 00 00 00 00 00 00 20 00 30 00 01 30 00 01 40 00 00
 * leaves 3 2 in register 0, zeros in all the rest, and counts 6. */
uint64_t hecke_run_sheet(const uint8_t *sheet, size_t sheet_len, uint64_t *registers, size_t registers_len,
                         uint64_t *answer, size_t answer_len);

#ifdef __cplusplus
}
#endif

#endif
