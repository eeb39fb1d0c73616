/* The library's own method in C, tuned by hand: Proposition 3.2 block by block, with the library's cases of their own for letters
 * and for ranks 1 to 3, and the product's recursion over the right factor. The build names the two calls. Nothing is checked:
 * an element of rank m has (m + 1)! words, and the scratch of a product (m + 6) (m + 1)!. */

#include <stddef.h>
#include <stdint.h>
#include <string.h>

typedef uint64_t word;

/* q and q - 1. */
typedef struct {
    word q, r;
} algebra;

/* n! for n up to 7; an element of rank m has the size of index m + 1, and its blocks that of index m. */
static const size_t factorial[8] = {1, 1, 2, 6, 24, 120, 720, 5040};

/* c x by one instruction. In vector code, which the empty statement prevents, it would be three products of 32 bits. */
static inline word multiple(word c, word x) {
    __asm__("" : "+r"(x));
    return c * x;
}

static inline void scale(word *restrict z, word c, const word *restrict x, size_t n) {
    for (size_t i = 0; i < n; i++)
        z[i] = multiple(c, x[i]);
}

static inline void add(word *restrict z, const word *restrict x, size_t n) {
    for (size_t i = 0; i < n; i++)
        z[i] += x[i];
}

static inline void add_multiple(word *restrict z, word c, const word *restrict x, size_t n) {
    for (size_t i = 0; i < n; i++)
        z[i] += multiple(c, x[i]);
}

/* In the place of two blocks s and t of b words: q t and s + r t. */
static inline void exchange(word *restrict s, word *restrict t, size_t b, algebra a) {
    for (size_t i = 0; i < b; i++) {
        word u = t[i];
        t[i] = s[i] + multiple(a.r, u);
        s[i] = multiple(a.q, u);
    }
}

/* x T_j in the place of x, of rank 2. */
static inline void letter_of_rank_two(word *x, size_t j, algebra a) {
    if (j == 1) {
        exchange(x, x + 1, 1, a);
        exchange(x + 2, x + 4, 2, a);
    } else {
        exchange(x, x + 2, 2, a);
        exchange(x + 4, x + 5, 1, a);
    }
}

/* x T_j in the place of x, of rank 3. */
static void letter_of_rank_three(word *x, size_t j, algebra a) {
    word *first = x + (3 - j) * 6, *second = first + 6, *end = x + 24;
    for (; x < first; x += 6)
        letter_of_rank_two(x, j, a);
    exchange(first, second, 6, a);
    for (x = second + 6; x < end; x += 6)
        letter_of_rank_two(x, j - 1, a);
}

static void letter(word *x, size_t m, size_t j, algebra a);

/* T_j acts on each of the n blocks of x, of rank m and b words. */
static inline void each_letter(word *x, size_t m, size_t b, size_t n, size_t j, algebra a) {
    if (m == 3)
        for (; n > 0; n--, x += b)
            letter_of_rank_three(x, j, a);
    else
        for (; n > 0; n--, x += b)
            letter(x, m, j, a);
}

/* x T_j in the place of x, of rank m. */
static void letter(word *x, size_t m, size_t j, algebra a) {
    if (m == 3) {
        letter_of_rank_three(x, j, a);
    } else if (m == 2) {
        letter_of_rank_two(x, j, a);
    } else if (m == 1) {
        exchange(x, x + 1, 1, a);
    } else {
        size_t b = factorial[m];
        word *first = x + (m - j) * b, *second = first + b;
        each_letter(x, m - 1, b, m - j, j, a);
        exchange(first, second, b, a);
        each_letter(second + b, m - 1, b, j - 1, j - 1, a);
    }
}

/* x T_a(2,2) in the place of x, of rank 2. */
static inline void cycle_of_rank_two(word *x, algebra a) {
    word s = x[2], t = x[3], u = a.q * x[5], v = x[4] + a.r * x[5];
    x[4] = x[0] + a.r * (s + u);
    x[5] = x[1] + a.r * (t + v);
    x[0] = a.q * (a.q * t);
    x[1] = a.q * (s + a.r * t);
    x[2] = a.q * u;
    x[3] = a.q * v;
}

static void cycle(word *restrict x, word *restrict work, size_t m, size_t j, size_t l, algebra a);

/* x T_a(j,l) in the place of x, of rank m. */
static inline void act(word *restrict x, word *restrict work, size_t m, size_t j, size_t l, algebra a) {
    if (l == 1)
        letter(x, m, j, a);
    else if (l > 1)
        cycle(x, work, m, j, l, a);
}

/* The action on the l + 1 blocks of x, of rank m and b words, that depend on one another. */
static inline void middle(word *restrict x, word *restrict sum, size_t m, size_t b, size_t j, size_t l, algebra a) {
    word *work = sum + b;
    memcpy(sum, x + b, b * sizeof(word));
    act(x + b, work, m, j - 1, l - 1, a);
    for (size_t k = 2; k <= l; k++) {
        word *part = x + k * b;
        act(part, work, m, j - 1, k - 1, a);
        add(sum, part, b);
        act(part, work, m, j - k, l - k, a);
    }
    for (size_t i = 0; i < b; i++)
        sum[i] = x[i] + multiple(a.r, sum[i]);
    for (size_t k = 0; k < l; k++, x += b)
        scale(x, a.q, x + b, b);
    memcpy(x, sum, b * sizeof(word));
}

/* x T_a(j,l) in the place of x, of rank m, for l of at least 2. */
static void cycle(word *restrict x, word *restrict work, size_t m, size_t j, size_t l, algebra a) {
    if (m == 2) {
        cycle_of_rank_two(x, a);
        return;
    }
    size_t b = factorial[m];
    for (size_t k = j; k < m; k++, x += b)
        cycle(x, work, m - 1, j, l, a);
    middle(x, work, m - 1, b, j, l, a);
    x += (l + 1) * b;
    for (size_t k = l; k < j; k++, x += b)
        cycle(x, work, m - 1, j - 1, l, a);
}

/* h g in the place of result, for h of rank m and n words and g of rank l: the sum of a part for each block of g, from the last
 * block to the first. */
static void times(word *restrict result, word *restrict scratch, const word *restrict h, const word *restrict g, size_t m, size_t n,
                  size_t l, algebra a) {
    if (l == 0) {
        scale(result, g[0], h, n);
    } else if (l == 1) {
        scale(result, g[1], h, n);
        letter(result, m, 1, a);
        add_multiple(result, g[0], h, n);
    } else {
        size_t b = factorial[l];
        times(scratch, scratch + n, h, g + l * b, m, n, l - 1, a);
        act(scratch, scratch + n, m, l, l, a);
        for (size_t k = l; k-- > 0;) {
            times(result, scratch + n, h, g + k * b, m, n, l - 1, a);
            act(result, scratch + n, m, l, k, a);
            if (k > 0)
                add(scratch, result, n);
            else
                add(result, scratch, n);
        }
    }
}

/* The word's generators T_i act on the element of rank m, left to right. */
void ACT_WORD(size_t m, word q, const uint8_t *letters, size_t n, word *element) {
    for (size_t i = 0; i < n; i++)
        letter(element, m, letters[i], (algebra){q, q - 1});
}

/* The product of two elements of rank m. The scratch is zero afterwards. */
void PRODUCT(size_t m, word q, const word *left, const word *right, word *result, word *scratch) {
    size_t n = factorial[m + 1];
    times(result, scratch, left, right, m, n, m, (algebra){q, q - 1});
    memset(scratch, 0, (m + 6) * n * sizeof(word));
}
