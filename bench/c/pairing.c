/* The pairing in C, tuned by hand: w and its inverse go down together through the ranks, so that no permutation is inverted by
 * itself. The build names the call. Nothing is checked: an element of rank m, which is 1 or more, has (m + 1)! words. */

#include <stddef.h>
#include <stdint.h>

typedef uint64_t word;

/* n! for n up to 6; an element of rank m has blocks of the size of index m. */
static const size_t factorial[7] = {1, 1, 2, 6, 24, 120, 720};

/* The tower of the inverse of u a(l,k), for l - 1 the rank of u, from that of u. tower[v] belongs to the point v, and that of the
 * point 1 is 0: the point x = l + 1 - k comes last, and every point from x on moves up by one and has one more before it. */
static inline void extend(size_t *restrict next, const size_t *restrict tower, size_t l, size_t k) {
    size_t x = l + 1 - k;
    for (size_t v = 1; v < x; v++)
        next[v] = tower[v];
    next[x] = 0;
    for (size_t v = x; v <= l; v++)
        next[v + 1] = tower[v] + 1;
}

/* The sum over w = u a(m,k) of q^k, left at w and right at the inverse of w, for u of rank m - 1 whose inverse has this tower. The
 * first word of left is that of u. The inverse of u a(m,m) stands where each entry has one more and the weight of the next; from
 * there on one entry after the other takes its own place again. */
static word last_level(const word *left, const word *right, const size_t *tower, size_t m, word q) {
    size_t place = 0;
    for (size_t v = 1; v <= m; v++)
        place += (tower[v] + 1) * factorial[v];
    word sum = 0;
    for (size_t v = 1; v <= m; v++) {
        sum = sum * q + left[(m + 1 - v) * factorial[m]] * right[place];
        place -= (tower[v] + 1) * factorial[v] - tower[v] * factorial[v - 1];
    }
    return sum * q + left[0] * right[place];
}

/* The same sum over w = u a(l,k) .. a(m,n), for u of rank l - 1, with q to the power k + .. + n. */
static word levels(const word *left, const word *right, const size_t *tower, size_t l, size_t m, word q) {
    if (l == m)
        return last_level(left, right, tower, m, q);
    word sum = 0;
    size_t next[8];
    for (size_t k = l + 1; k-- > 0;) {
        extend(next, tower, l, k);
        sum = sum * q + levels(left + k * factorial[l], right, next, l + 1, m, q);
    }
    return sum;
}

/* The pairing of two elements of rank m. */
word PAIRING(size_t m, word q, const word *left, const word *right) {
    const size_t identity[2] = {0, 0};
    return levels(left, right, identity, 1, m, q);
}
