"""The conformance kit: named sheets, and the text that a correct program prints for each.

A name begins with its group and says what the sheet tries: one thing, where that can be done. The name of a refused sheet
gives the number and the place, which are written here by hand and not taken from the reference.
"""
import random
from functools import partial
from itertools import product as every
from math import factorial

from reference.algebra import WORD, mirror, permutations, place, size
from reference.permutations import inverse, standard_word, tower
from reference.sheet import (BEGIN, EQUAL, INVERSE, LETTER, MOST_BYTES, MOST_RANK, OPERANDS, PAIR, PRODUCT, REGISTERS, SCALE, SET,
                             SHOW, SUM, TRACE, UNIT, printed)
from reference.sheet_cases import END, EXAMPLE, braid, command, random_sheet

FOLDER = 'conformance/sheets'
WRITTEN_BY_HAND = {'conformance/README.md', 'conformance/run.py'}

begin, unit, put, letter, product, add, scale, inverse_letter, show, pair, equal, trace = (
    partial(command, code) for code in (BEGIN, UNIT, SET, LETTER, PRODUCT, SUM, SCALE, INVERSE, SHOW, PAIR, EQUAL, TRACE))
NAMES = {0x00: 'end', BEGIN: 'begin', UNIT: 'unit', SET: 'set', LETTER: 'letter', PRODUCT: 'product', SUM: 'sum',
         SCALE: 'scale', INVERSE: 'inverse', SHOW: 'show', PAIR: 'pairing', EQUAL: 'equality', TRACE: 'trace'}
RANKS = range(MOST_RANK + 1)
PARAMETERS = {'0': 0, '1': 1, '2': 2, '3': 3, '2_to_63': 2 ** 63, '2_to_64_less_1': WORD - 1}
ODD = {name: q for name, q in PARAMETERS.items() if q % 2}
WORDS = {'0': 0, '1': 1, '2': 2, '2_to_32': 2 ** 32, '2_to_63': 2 ** 63, '2_to_64_less_1': WORD - 1}
EVEN = {name: q for name, q in PARAMETERS.items() if q % 2 == 0} | {'2_to_64_less_2': WORD - 2}
BYTES = 0xF1E2_D3C4_B5A6_9788  # eight different bytes
LONGEST_WORD = standard_word(range(1, MOST_RANK + 1))
SHOWS = b''.join(show(r) for r in range(REGISTERS))


def sheet(m, q, *commands):
    return b''.join([begin(m, q), *commands, END])


def loaded(m):
    """Different contents in each register."""
    return b''.join(put(r, r % size(m), 11 + 2 * r) + put(r, size(m) - 1, 101 + 2 * r) for r in range(REGISTERS))


def element(source, m, r):
    """Random words in the coefficients of r. Those of rank 5 do not fit in a sheet, so some are set, that of the identity among
    them, and r becomes r + c r T_i for each letter i of the longest word, with random c. Register 2 helps, and 3 is zero."""
    indexes = range(size(m)) if m < MOST_RANK else [0, *source.sample(range(1, size(m)), 50)]
    start = b''.join(put(r, index, source.randrange(WORD)) for index in indexes)
    spread = LONGEST_WORD if m == MOST_RANK else ()
    return start + b''.join(add(2, r, 3) + letter(2, i) + scale(2, source.randrange(WORD)) + add(r, r, 2) for i in spread)


def two_elements(m):
    source = random.Random(m)
    return element(source, m, 0) + element(source, m, 1)


def seen(m, *registers):
    """The registers shown; those of rank 5 by their pairings, which at q = 3 depend on every word, but not on its highest bits."""
    return b''.join(show(r) if m < MOST_RANK else pair(r, r) + pair(r, 0) for r in registers)


# ---- what the commands do

def documents():
    """Document 01's example and its marked cases, and its counts of products."""
    yield 'example_square_of_t_1', EXAMPLE
    words = (), (1,), (2,), (1, 2), (2, 1), (1, 2, 1)
    yield 'indices_of_rank_2', sheet(2, 3, *(unit(0) + braid(0, word) + show(0) for word in words))
    yield 'square_of_s_2_s_1_at_q_2', sheet(2, 2, put(0, 4, 1), product(1, 0, 0), show(1))
    for q in (0, 1):
        yield f'square_of_t_1_at_q_{q}', sheet(1, q, unit(0), braid(0, (1, 1)), show(0))
    for m in RANKS:
        yield f'count_of_a_product_rank_{m}', sheet(m, 3, product(0, 1, 2))


def units():
    yield 'each_register', sheet(2, 3, loaded(2), *(unit(r) + SHOWS for r in range(REGISTERS)))
    for m in RANKS:
        yield f'replaces_every_coefficient_rank_{m}', sheet(m, 3, element(random.Random(m), m, 0), unit(0), show(0))


def sets():
    yield 'each_register', sheet(2, 3, loaded(2), *(put(r, 4, 7 + r) + SHOWS for r in range(REGISTERS)))
    for m in RANKS:
        yield f'first_and_last_index_rank_{m}', sheet(m, 3, put(1, 0, 7), put(1, size(m) - 1, 9), show(1))
    yield 'index_lowest_byte_first', sheet(5, 3, put(0, 0x0102, 1), put(0, 0x0201, 2), show(0))
    yield 'value_lowest_byte_first', sheet(2, 3, put(0, 3, BYTES), show(0))
    yield 'value_2_to_64_less_1', sheet(2, 3, put(0, 3, WORD - 1), show(0))
    yield 'value_0_clears', sheet(2, 3, put(0, 3, 5), put(0, 3, 0), show(0))
    yield 'twice_keeps_the_last', sheet(2, 3, put(0, 3, 5), put(0, 3, 6), show(0))
    yield 'every_coefficient_rank_4', sheet(4, 3, element(random.Random(0), 4, 0), show(0))


def some_letters():
    yield 'each_register', sheet(2, 3, loaded(2), *(letter(r, 2) + SHOWS for r in range(REGISTERS)))
    for m in RANKS[1:]:
        source = random.Random(m)
        few = [0, size(m) - 1, *source.sample(range(size(m)), min(size(m), 20))]
        start = b''.join(put(0, index, source.randrange(WORD)) for index in few)
        yield f'each_letter_rank_{m}', sheet(m, 3, start, *(add(1, 0, 3) + letter(1, i) + show(1) for i in range(1, m + 1)))
    for name, q in PARAMETERS.items():
        yield f'each_letter_at_q_{name}_rank_3', sheet(3, q, element(random.Random(1), 3, 0), braid(0, (1, 2, 3)), show(0))
    for word in ((1, 2), (2, 1)):
        yield f'{word[0]}_then_{word[1]}_on_the_right', sheet(2, 3, unit(0), braid(0, word), show(0))
    for name, m, one, other in (('braid_relation', 2, (1, 2, 1), (2, 1, 2)), ('distant_letters_commute', 3, (1, 3), (3, 1))):
        start = loaded(m) + add(1, 0, 2) + add(3, 0, 2)
        yield name, sheet(m, BYTES, start, braid(1, one), braid(3, other), show(1), equal(1, 3))
    yield 'longest_word_rank_5', sheet(5, 3, unit(0), braid(0, LONGEST_WORD), show(0))
    yield 'thousand_times', sheet(1, 3, unit(0), letter(0, 1) * 1000, show(0))
    yield 'on_zero_register', sheet(2, 3, letter(0, 1), show(0))


def inverse_letters():
    """0x34 by itself, and words of both kinds of letters, after which the mirror word read backwards brings home."""
    yield 'each_register', sheet(2, 3, loaded(2), *(inverse_letter(r, 2) + SHOWS for r in range(REGISTERS)))
    for m in RANKS[1:]:
        source = random.Random(m)
        few = [0, size(m) - 1, *source.sample(range(size(m)), min(size(m), 20))]
        start = b''.join(put(0, index, source.randrange(WORD)) for index in few)
        yield f'each_letter_rank_{m}', sheet(m, 3, start, *(add(1, 0, 3) + inverse_letter(1, i) + show(1) for i in range(1, m + 1)))
    for name, q in (*ODD.items(), ('lowest_byte_first', BYTES + 1)):
        yield f'each_letter_at_q_{name}_rank_3', sheet(3, q, element(random.Random(1), 3, 0), braid(0, (-1, -2, -3)), show(0))
    for name, q in ODD.items():
        both = add(1, 0, 3) + braid(1, (1, -1)) + equal(0, 1) + braid(1, (-2, 2)) + equal(0, 1)
        yield f'undoes_its_letter_at_q_{name}', sheet(2, q, two_elements(2), both, show(1))
    third = pow(3, -1, WORD)
    alone = add(1, 0, 3) + letter(1, 2) + scale(1, third) + add(2, 0, 3) + scale(2, third - 1) + add(1, 1, 2)
    both = element(random.Random(2), 2, 0), alone, inverse_letter(0, 2), equal(0, 1), show(0)
    yield 'is_two_scalings_a_letter_and_a_sum', sheet(2, 3, *both)
    for word in ((1, -2), (-2, 1), (-1, 2), (-1, -2)):
        name = '_then_'.join(f'{"inverse_" if i < 0 else ""}{abs(i)}' for i in word)
        yield f'{name}_on_the_right', sheet(2, 3, unit(0), braid(0, word), show(0))
    for name, m, one, other in (('braid_relation', 2, (-1, -2, -1), (-2, -1, -2)),
                                ('braid_relation_of_both_kinds', 2, (1, 2, -1), (-2, 1, 2)),
                                ('distant_letters_commute', 3, (1, -3), (-3, 1))):
        start = loaded(m) + add(1, 0, 2) + add(3, 0, 2)
        yield name, sheet(m, BYTES + 1, start, braid(1, one), braid(3, other), show(1), equal(1, 3))
    for m in RANKS[1:]:
        source = random.Random(m)
        word = [source.choice((1, -1)) * source.randint(1, m) for _ in range(15)]
        body = add(1, 0, 3), braid(1, word), equal(0, 1), braid(1, mirror(word)), equal(0, 1)
        yield f'mirror_brings_home_rank_{m}', sheet(m, BYTES + 1, element(source, m, 0), *body)
    yield 'figure_eight', sheet(2, 3, unit(0), braid(0, (1, -2, 1, -2)), show(0))
    yield 'thousand_times', sheet(1, 3, unit(0), inverse_letter(0, 1) * 1000, show(0))
    yield 'on_zero_register', sheet(2, 3, inverse_letter(0, 1), show(0))


def products():
    for m in RANKS[1:]:
        yield f'destination_is_first_factor_rank_{m}', sheet(m, 3, two_elements(m), product(0, 0, 1), seen(m, 0, 1))
        yield f'destination_is_second_factor_rank_{m}', sheet(m, 3, two_elements(m), product(1, 0, 1), seen(m, 0, 1))
    yield 'square_into_itself_rank_3', sheet(3, 3, two_elements(3), product(1, 1, 1), show(1))
    yield 'square_into_another_register_rank_3', sheet(3, 3, two_elements(3), product(2, 1, 1), show(1), show(2))
    triples = every(range(REGISTERS), repeat=3)
    yield 'each_triple_of_registers_rank_1', sheet(1, 3, loaded(1), *(product(*triple) + show(triple[0]) for triple in triples))
    yield 'leaves_its_factors_rank_2', sheet(2, 3, loaded(2), product(0, 1, 2), SHOWS)
    start = element(random.Random(0), 3, 0)
    yield 'first_factor_unit', sheet(3, 3, start, unit(1), product(2, 1, 0), show(2), equal(0, 2))
    yield 'second_factor_unit', sheet(3, 3, start, unit(1), product(2, 0, 1), show(2), equal(0, 2))
    yield 'first_factor_zero', sheet(3, 3, start, unit(2), product(2, 1, 0), show(2))
    yield 'second_factor_zero', sheet(3, 3, start, unit(2), product(2, 0, 1), show(2))
    largest = b''.join(put(0, index, WORD - 1) for index in range(size(3)))
    yield 'every_word_2_to_64_less_1', sheet(3, WORD - 1, largest, product(2, 0, 0), show(2))
    basis = (put(0, u, 1) + put(1, v, 1) + product(2, 0, 1) + show(2) + put(0, u, 0) + put(1, v, 0)
             for u, v in every(range(size(2)), repeat=2))
    yield 'each_two_basis_elements_rank_2', sheet(2, 3, *basis)


def parameters():
    """A product of two elements whose words are random, at each q and each rank; at rank 0 no product depends on q."""
    yield 'q_3_product_rank_0', sheet(0, 3, two_elements(0), product(2, 0, 1), show(2))
    for (name, q), m in every(PARAMETERS.items(), RANKS[1:]):
        yield f'q_{name}_product_rank_{m}', sheet(m, q, two_elements(m), product(2, 0, 1), show(2))
    yield 'q_lowest_byte_first', sheet(2, BYTES, two_elements(2), product(2, 0, 1), show(2))


def actions():
    """h T_{a(j, l)}, the blocks of the nested method: T_{a(j, l)} stands at l times j!."""
    for m, j in ((3, 1), (3, 2), (3, 3), (4, 4)):
        for l in range(1, j + 1):
            start = element(random.Random(m), m, 0) + put(1, l * factorial(j), 1)
            yield f'of_a_{j}_{l}_rank_{m}', sheet(m, 3, start, product(2, 0, 1), show(2))


def slips():
    """Document 01's slips, in numbers that can be followed by hand."""
    turned = [v for v in permutations(3) if inverse(v) != v]
    words = (unit(0) + braid(0, standard_word(tower(v))) + show(0) for v in turned)
    yield 'right_to_left_words_of_all_but_involutions_rank_3', sheet(3, 3, *words)
    small = b''.join(put(0, index, index + 1) for index in range(size(2)))
    for j, l in ((1, 1), (2, 1), (2, 2)):
        yield f'third_line_rank_2_a_{j}_{l}_at_q_5', sheet(2, 5, small, put(1, l * j, 1), product(2, 0, 1), show(2))
    for m in (2, 3):
        old = b''.join(put(0, index, index + 1) for index in range(factorial(m)))
        yield f'old_block_needed_rank_{m}', sheet(m, 3, old, put(1, size(m) - factorial(m), 1), product(2, 0, 1), show(2))
    for m in (1, 2, 3):
        yield f'q_less_1_at_q_0_rank_{m}', sheet(m, 0, put(0, size(m) - 1, 1), product(1, 0, 0), show(1))


def sums():
    triples = every(range(REGISTERS), repeat=3)
    yield 'each_triple_of_registers_rank_1', sheet(1, 3, loaded(1), *(add(*triple) + show(triple[0]) for triple in triples))
    for name, operands in (('destination_is_first_summand', (1, 1, 2)), ('destination_is_second_summand', (2, 1, 2)),
                           ('doubled_into_itself', (1, 1, 1)), ('doubled_into_another_register', (0, 1, 1))):
        yield name, sheet(2, 3, loaded(2), add(*operands), SHOWS)
    half = WORD // 2
    for name, h, g in (('wraps', (half + 5, WORD - 1), (half + 7, WORD - 1)), ('wraps_to_zero', (WORD - 1, half), (1, half))):
        start = b''.join(put(0, index, h[index]) + put(1, index, g[index]) for index in (0, 1))
        yield name, sheet(1, 3, start, add(2, 0, 1), show(2))


def scales():
    yield 'each_register', sheet(2, 3, loaded(2), *(scale(r, 10) + SHOWS for r in range(REGISTERS)))
    for name, v in (('0', 0), ('1', 1), ('2_to_64_less_1', WORD - 1), ('word_lowest_byte_first', BYTES)):
        yield f'by_{name}', sheet(2, 3, loaded(2), scale(1, v), SHOWS)
    yield 'wraps_to_zero', sheet(1, 3, put(0, 0, 2 ** 32), put(0, 1, 2 ** 63), scale(0, 2 ** 32), show(0))
    yield 'wraps_between_halves', sheet(1, 3, put(0, 0, 2 ** 32 + 1), put(0, 1, WORD - 1), scale(0, 2 ** 32 + 3), show(0))
    for m in RANKS:
        yield f'of_a_sum_rank_{m}', sheet(m, 3, two_elements(m), add(2, 0, 1), scale(2, BYTES), seen(m, 2))


def alone(u, v):
    """The pairing of T_u in register 0 with T_v in register 1, by their indexes; both registers are zero before and after."""
    return put(0, u, 1) + put(1, v, 1) + pair(0, 1) + put(0, u, 0) + put(1, v, 0)


def pairings():
    """0x41 by itself; beside a product, whose coefficient at the unit is its pairing with the unit; on either side of a product."""
    yield 'of_s_1_s_2_with_itself_and_with_s_2_s_1_at_q_2', sheet(2, 2, put(0, 3, 1), put(1, 4, 1), pair(0, 0), pair(0, 1))
    pairs = every(range(REGISTERS), repeat=2)
    yield 'each_pair_of_registers', sheet(2, 3, loaded(2), put(0, 4, 5), *(pair(*two) for two in pairs), SHOWS)
    yield 'each_two_basis_elements_rank_2', sheet(2, 3, *(alone(u, v) for u, v in every(range(size(2)), repeat=2)))
    inverses = [place(inverse(w)) for w in permutations(3)]
    yield 'power_of_q_by_length_rank_3', sheet(3, 3, *(alone(w, v) for w, v in enumerate(inverses)))
    yield 'of_each_basis_element_with_itself_rank_3', sheet(3, 3, *(alone(w, w) for w in range(size(3))))
    yield 'of_longest_rank_5', sheet(5, 3, put(0, size(5) - 1, 1), pair(0, 0))
    for m in RANKS[2:]:
        chain = [1 + i % m for i in range(2 * m)]
        both = unit(0) + braid(0, chain) + unit(1) + braid(1, chain[::-1])
        yield f'of_a_chain_and_the_reversed_chain_rank_{m}', sheet(m, 3, both, pair(0, 1), pair(0, 0))
    for m in RANKS:
        beside = pair(0, 1) + product(2, 0, 1) + unit(3) + pair(2, 3)
        yield f'is_the_unit_coefficient_of_the_product_rank_{m}', sheet(m, 3, two_elements(m), beside)
    source = random.Random(0)
    three = b''.join(element(source, 3, r) for r in range(3))
    sides = product(3, 0, 1) + pair(3, 2) + product(3, 1, 2) + pair(0, 3)
    yield 'either_side_of_a_product_rank_3', sheet(3, BYTES, three, sides)
    for name, q in PARAMETERS.items():
        yield f'at_q_{name}_rank_2', sheet(2, q, two_elements(2), pair(0, 1), pair(0, 0))
    for m in RANKS[4:]:
        yield f'at_q_lowest_byte_first_rank_{m}', sheet(m, BYTES + 1, two_elements(m), pair(0, 1), pair(0, 0))
    yield 'of_zero', sheet(2, 3, unit(0), pair(0, 1), pair(1, 0), pair(2, 3))
    yield 'wraps', sheet(1, 2 ** 32, put(0, 0, 2 ** 63 + 1), put(0, 1, 2 ** 31 + 1), pair(0, 0))


def equalities():
    pairs = every(range(REGISTERS), repeat=2)
    yield 'each_pair_of_registers', sheet(2, 3, loaded(2), add(2, 0, 1), add(3, 0, 1), *(equal(*two) for two in pairs))
    for m in (0, 3, 5):
        yield f'differ_at_last_index_rank_{m}', sheet(m, 3, unit(0), unit(1), put(1, size(m) - 1, 5), equal(0, 1), equal(1, 0))
    same = element(random.Random(0), 3, 0) + add(1, 0, 3) + equal(0, 1)
    for name, index, v in (('index_0', 0, 4), ('index_11', 11, 4), ('the_lowest_bit', 11, 1), ('the_highest_bit', 11, 2 ** 63)):
        yield f'differ_at_{name}', sheet(3, 3, same, put(2, index, v), add(1, 1, 2), equal(0, 1))
    yield 'of_zero_registers', sheet(2, 3, equal(0, 3), equal(2, 2))
    yield 'of_unit_and_coefficient_0', sheet(2, 3, unit(0), put(1, 0, 1), equal(0, 1))


def in_turn(m, z):
    """The trace of each T_w of rank m, in register 0."""
    return b''.join(put(0, w, 1) + trace(0, z) + put(0, w, 0) for w in range(size(m)))


def traces():
    """0x43 by itself; at each q and some z; of braids, and of these with a strand more."""
    yield 'of_6_and_7_at_q_3_z_5', sheet(1, 3, put(0, 0, 6), put(0, 1, 7), trace(0, 5))
    yield 'each_basis_element_in_one_number_rank_2', sheet(2, 3, *(put(0, k, 10 ** k) for k in range(6)), trace(0, 5))
    for m in (2, 3):
        yield f'of_each_basis_element_rank_{m}', sheet(m, 3, in_turn(m, 5))
    yield 'each_register', sheet(2, 3, loaded(2), *(trace(r, 5) for r in range(REGISTERS)))
    yield 'leaves_the_registers', sheet(2, 3, loaded(2), trace(1, 5), SHOWS)
    yield 'of_zero', sheet(2, 3, unit(0), trace(1, 5))
    yield 'of_the_unit_rank_5', sheet(5, 3, unit(0), trace(0, BYTES))
    for m in RANKS:
        yield f'of_random_words_rank_{m}', sheet(m, 3, element(random.Random(m), m, 0), trace(0, 5), trace(0, BYTES))
    full = element(random.Random(4), 3, 0)
    for name, z in WORDS.items():
        yield f'at_z_{name}_rank_3', sheet(3, 3, full, trace(0, z))
    yield 'at_z_lowest_byte_first', sheet(1, 3, put(0, 1, 1), trace(0, BYTES))
    for name, q in PARAMETERS.items():
        yield f'at_q_{name}_rank_3', sheet(3, q, full, trace(0, 5), trace(0, BYTES))
    for m in RANKS[4:]:
        yield f'at_q_lowest_byte_first_rank_{m}', sheet(m, BYTES, element(random.Random(m), m, 0), trace(0, BYTES))
    yield 'at_q_2_to_63_rank_1', sheet(1, 2 ** 63, put(0, 0, 6), put(0, 1, 7), trace(0, 5))
    yield 'wraps', sheet(1, 3, put(0, 0, WORD - 1), put(0, 1, 2 ** 32 + 1), trace(0, 2 ** 32))
    yield 'every_word_2_to_64_less_1', sheet(3, 3, *(put(0, k, WORD - 1) for k in range(size(3))), trace(0, 5))
    yield 'of_longest_rank_5', sheet(5, 3, put(0, size(5) - 1, 1), trace(0, 5))
    yield 'of_a_chain_of_each_letter_rank_5', sheet(5, 3, unit(0), braid(0, (3, 1, 5, 2, 4)), trace(0, 5))
    both = add(2, 0, 1) + scale(1, BYTES) + add(3, 0, 1)
    yield 'of_a_sum_and_a_scaling_rank_3', sheet(3, 3, two_elements(3), trace(0, 5), trace(1, 5), both, *(trace(r, 5) for r in (2, 1, 3)))
    yield 'trefoil_on_two_strands', sheet(1, 3, unit(0), braid(0, (1, 1, 1)), trace(0, 5))
    yield 'trefoil_on_three_strands', sheet(2, 3, unit(0), braid(0, (1, 1, 1, 2)), trace(0, 5))
    for m in RANKS[1:]:
        yield f'of_a_strand_added_is_z_times_rank_{m}', strand_added(m)
    yield 'of_a_strand_added_the_other_way_rank_2', sheet(2, 3, unit(0), braid(0, (1, 1, 1, -2)), trace(0, 8))
    yield 'between_commands', sheet(1, 3, trace(0, 5), *(step + trace(0, 5) for step in (unit(0), letter(0, 1), put(0, 0, 8), scale(0, 2))))


def strand_added(m):
    """x and y have random words at some permutations of rank m - 1: the traces of xy and of x T_m y."""
    source = random.Random(m)
    indexes = source.sample(range(factorial(m)), min(factorial(m), 20))
    start = b''.join(put(r, index, source.randrange(WORD)) for index in indexes for r in (0, 1))
    return sheet(m, 3, start, product(2, 0, 1), letter(0, m), product(3, 0, 1), trace(2, BYTES), trace(3, BYTES))


def shows():
    yield 'zero_registers', sheet(2, 3, SHOWS)
    yield 'each_register', sheet(2, 3, loaded(2), *(show(r) for r in (2, 0, 3, 1)))
    yield 'rising_index', sheet(3, 3, *(put(1, index, index + 1) for index in reversed(range(size(3)))), show(1))
    digits = [put(0, k, 10 ** k) + put(0, k + 20, 10 ** k - 1) for k in range(20)]
    yield 'one_to_twenty_digits', sheet(4, 3, *digits, show(0))
    yield 'twice', sheet(1, 3, loaded(1), show(1), show(1))
    steps = unit(0), letter(0, 1), put(0, 0, 8), letter(0, 1), scale(0, 2), add(0, 0, 0), product(0, 0, 0)
    yield 'between_commands', sheet(1, 3, show(0), *(step + show(0) for step in steps))


def counts():
    yield 'of_nothing', sheet(3, 3, unit(0), put(0, 5, 7), show(1), pair(0, 1), equal(0, 1), unit(2))
    yield 'of_a_trace_is_0', sheet(3, 3, unit(0), trace(0, 5), trace(0, 5))
    yield 'of_a_letter_and_100_traces_rank_2', sheet(2, 3, unit(0), letter(0, 1), trace(0, 5) * 100)
    for m in RANKS:
        one_letter = letter(0, 1) if m else b''
        yield f'of_1_letter_10_sums_100_scalings_rank_{m}', sheet(m, 3, one_letter, add(0, 1, 2) * 10, scale(0, 2) * 100)
        if m:
            yield f'of_100_letters_of_each_kind_rank_{m}', sheet(m, 3, braid(0, (m, -1)) * 100)
    four = product(0, 1, 2) + add(1, 0, 2) + letter(1, 2) + scale(2, 3)
    yield 'over_400_commands_rank_2', sheet(2, 3, loaded(2), four * 100, SHOWS)
    yield 'of_300_products_rank_3', sheet(3, 3, product(0, 1, 2) * 300)
    yield 'of_9_products_rank_5', sheet(5, 3, product(0, 1, 2) * 9)


def filled(bytes_, q=3):
    """A sheet of that many bytes, which are letters and one to three shows."""
    shown = next(n for n in (1, 2, 3) if (bytes_ - 13 - 2 * n) % 3 == 0)
    return sheet(2, q, unit(0), braid(0, [1 + k % 2 for k in range((bytes_ - 13 - 2 * shown) // 3)]), show(0) * shown)


def sizes():
    yield 'begin_and_end_only', sheet(0, 0)
    yield '4095_bytes', filled(MOST_BYTES - 1)
    yield '4096_bytes', filled(MOST_BYTES)
    yield '4096_bytes_of_shows', sheet(3, 5, pair(0, 0), show(3) * 2041)


def mixtures():
    """Random commands on all registers."""
    for m, q in zip(RANKS, PARAMETERS.values()):
        source = random.Random(m)
        yield f'rank_{m}', random_sheet(source, m, q, 40 if m < 4 else 20)


# ---- refusals: number, place, what is wrong, and the sheet

START = begin(2, 3)           # the next command stands at 10
LATER = START + unit(0)       # the next command stands at 12
AFTER_SHOWS = LATER + SHOWS   # the next command stands at 20
AT_EVEN_Q = begin(2, 2) + unit(0)  # the next command stands at 12


def with_operand(code, name, value):
    """The command with that value of the named operand, and the others in range."""
    usual = {'m': 2, 'q': 3, 'r': 1, 'd': 1, 'a': 2, 'b': 3, 'index': 1, 'i': 1, 'v': BYTES, 'z': BYTES}
    return command(code, *(value if operand == name else usual[operand] for operand in OPERANDS[code]))


def whole(code):
    return with_operand(code, None, None)


def refused_sizes():
    yield 9, 0, 'empty', b''
    yield 9, 0, 'full_sheet_and_a_byte', filled(MOST_BYTES) + END
    yield 9, 0, '4097_bytes', filled(MOST_BYTES + 1)
    yield 9, 0, '4097_unknown_bytes', b'\xff' * (MOST_BYTES + 1)
    yield 9, 0, '4098_bytes', filled(MOST_BYTES + 2)
    yield 9, 0, '9000_bytes', filled(9000)


def unknown_commands():
    for code in (0x01, 0x11, 0xff):
        yield 10, 0, f'code_{code:02x}', bytes([code]) + START[1:] + END
    for code in (0x0f, 0x11, 0x22, 0x35, 0x44, 0xb1, 0xff):
        yield 10, 12, f'code_{code:02x}', LATER + bytes([code, 0, 0, 0]) + END
    yield 10, 20, 'code_02_after_shows', AFTER_SHOWS + b'\x02' + END
    yield 10, 4095, 'last_byte_of_a_full_sheet', filled(MOST_BYTES)[:-1] + b'\xff'


def cut_commands():
    for code, name in NAMES.items():
        for kept in range(1, len(whole(code))):
            where = 0 if code == BEGIN else 12
            yield 11, where, f'{name}_cut_after_{kept}_bytes', LATER[:where] + whole(code)[:kept]
    yield 11, 20, 'sum_cut_after_shows', AFTER_SHOWS + add(0, 1, 2)[:3]
    yield 11, 4094, 'product_cut_by_the_end_of_a_full_sheet', filled(MOST_BYTES - 1)[:-1] + b'\x31\0'


def misplaced_commands():
    for code, name in NAMES.items():
        if code != BEGIN:
            yield 12, 0, f'{name}_first', whole(code) + START + END
    yield 12, 0, 'end_alone', END
    yield 12, 10, 'begin_again', START + START + END
    yield 12, 12, 'begin_again_with_another_rank', LATER + begin(3, 5) + END
    yield 12, 20, 'begin_after_shows', AFTER_SHOWS + START + END


def operands_out_of_range():
    for m in (6, 128, 255):
        yield 13, 0, f'rank_{m}', begin(m, 3) + END
    for code, name in NAMES.items():
        for operand in (x for x in OPERANDS[code] if x in 'rdab'):
            for r in (4, 255) if code in (SET, PRODUCT, TRACE) else (4,):
                yield 13, 12, f'{name}_operand_{operand}_is_{r}', LATER + with_operand(code, operand, r) + END
    for m in RANKS:
        yield 13, 10, f'index_past_the_last_rank_{m}', begin(m, 3) + put(0, size(m), 1) + END
        yield 13, 10, f'letter_above_rank_{m}', begin(m, 3) + letter(0, m + 1) + END
        yield 13, 10, f'inverse_letter_above_rank_{m}', begin(m, 3) + inverse_letter(0, m + 1) + END
    yield 13, 12, 'index_256_rank_2', LATER + put(0, 256, 1) + END
    yield 13, 12, 'index_65535_rank_2', LATER + put(0, 65535, 1) + END
    yield 13, 12, 'letter_0', LATER + letter(0, 0) + END
    yield 13, 12, 'letter_255', LATER + letter(0, 255) + END
    yield 13, 10, 'letter_0_rank_0', begin(0, 3) + letter(0, 0) + END
    yield 13, 12, 'inverse_letter_0', LATER + inverse_letter(0, 0) + END
    yield 13, 12, 'inverse_letter_254', LATER + inverse_letter(0, 254) + END
    yield 13, 10, 'inverse_letter_0_rank_0', begin(0, 3) + inverse_letter(0, 0) + END
    yield 13, 20, 'letter_after_shows', AFTER_SHOWS + letter(0, 3) + END
    yield 13, 4093, 'show_at_the_end_of_a_full_sheet', filled(MOST_BYTES)[:-3] + show(4) + END


def wrong_ends():
    yield 14, 10, 'no_end_after_begin', START
    yield 14, 12, 'no_end_and_last_operand_0', LATER
    yield 14, 20, 'no_end_after_shows', AFTER_SHOWS
    yield 14, 4096, 'no_end_of_a_full_sheet', filled(MOST_BYTES + 1)[:-1]
    for name, more in (('end', END), ('unknown_byte', b'\xff'), ('cut_command', b'\x31'), ('begin', START), ('show', show(0)),
                       ('operand_out_of_range', show(9)), ('20_bytes', bytes(20))):
        yield 14, 13, f'{name}_after_end', LATER + END + more
    yield 14, 13, 'inverse_letter_after_end_at_q_2', AT_EVEN_Q + END + inverse_letter(0, 1)
    yield 14, 21, 'byte_after_shows_and_end', AFTER_SHOWS + END + b'\x40'
    yield 14, 4095, 'byte_after_end_of_a_full_sheet', filled(MOST_BYTES - 1) + END


def missing_inverses():
    for name, q in EVEN.items():
        yield 15, 12, f'q_is_{name}', begin(2, q) + unit(0) + inverse_letter(0, 1) + END
    for m in RANKS[1:]:
        yield 15, 10, f'letter_{m}_of_register_3_rank_{m}', begin(m, 2) + inverse_letter(3, m) + END
    yield 15, 15, 'after_a_letter', AT_EVEN_Q + braid(0, (1, -1)) + END
    yield 15, 20, 'after_shows', AT_EVEN_Q + SHOWS + inverse_letter(0, 2) + END
    yield 15, 4092, 'at_the_end_of_a_full_sheet', filled(MOST_BYTES, 2)[:-7] + braid(0, (1, -1)) + END


def competing_faults():
    """Of two faults the first number is given: the number of an earlier check, or the fault at the lower offset."""
    yield 10, 0, 'before_12_unknown_first', b'\x50' + LATER
    yield 11, 0, 'before_12_unit_first_and_cut', b'\x20'
    yield 11, 10, 'before_12_begin_again_and_cut', START + START[:5]
    yield 11, 0, 'before_13_rank_9_and_cut', b'\x10\x09'
    yield 11, 12, 'before_13_register_9_and_cut', LATER + b'\x21\x09\0'
    yield 11, 12, 'before_13_letter_of_register_9_cut', LATER + b'\x30\x09'
    yield 11, 12, 'before_13_trace_of_register_9_cut', LATER + trace(9, 5)[:9]
    yield 12, 0, 'before_13_register_9_first', unit(9) + START + END
    yield 12, 0, 'before_13_trace_of_register_9_first', trace(9, 5) + START + END
    yield 12, 10, 'before_13_begin_again_with_rank_9', START + begin(9, 3) + END
    yield 13, 0, 'before_12_rank_6_then_begin', begin(6, 3) + START + END
    yield 13, 12, 'before_10_register_9_then_unknown', LATER + unit(9) + b'\xff' + END
    yield 13, 12, 'before_11_register_9_then_cut', LATER + unit(9) + b'\x31\0'
    yield 13, 12, 'before_12_register_9_then_begin', LATER + unit(9) + START + END
    yield 13, 12, 'before_13_two_commands', LATER + letter(0, 3) + put(0, 6, 1) + END
    yield 12, 0, 'before_10_unit_first_then_unknown', unit(0) + b'\xff' + END
    yield 12, 0, 'before_11_unit_first_then_cut', unit(0) + b'\x10\x02'
    yield 12, 10, 'before_12_begin_three_times', START + START + START + END
    yield 12, 10, 'before_13_begin_again_then_register_9', START + START + unit(9) + END
    yield 10, 12, 'before_13_unknown_then_register_9', LATER + b'\xff' + unit(9) + END
    yield 10, 12, 'before_14_unknown_and_no_end', LATER + b'\xff'
    yield 12, 0, 'before_14_unit_first_and_no_end', unit(0)
    yield 12, 0, 'before_14_end_first_and_bytes_after_it', END + START
    yield 13, 12, 'before_14_register_9_and_no_end', LATER + unit(9)
    yield 13, 12, 'before_14_register_9_and_bytes_after_end', LATER + unit(9) + END + b'\xff'
    one = inverse_letter(0, 1)
    yield 10, 12, 'before_15_unknown_then_inverse', AT_EVEN_Q + b'\xff' + one + END
    yield 11, 12, 'before_15_inverse_cut', AT_EVEN_Q + one[:2]
    yield 12, 0, 'before_15_inverse_first', one + AT_EVEN_Q + END
    yield 12, 12, 'before_15_begin_again_then_inverse', AT_EVEN_Q + begin(2, 2) + one + END
    yield 13, 0, 'before_15_rank_6_then_inverse', begin(6, 2) + one + END
    yield 13, 12, 'before_15_inverse_of_letter_3', AT_EVEN_Q + inverse_letter(0, 3) + END
    yield 13, 12, 'before_15_inverse_of_letter_0', AT_EVEN_Q + inverse_letter(0, 0) + END
    yield 13, 12, 'before_15_inverse_on_register_9', AT_EVEN_Q + inverse_letter(9, 1) + END
    yield 13, 12, 'before_15_register_9_then_inverse', AT_EVEN_Q + unit(9) + one + END
    yield 15, 12, 'before_10_inverse_then_unknown', AT_EVEN_Q + one + b'\xff' + END
    yield 15, 12, 'before_11_inverse_then_cut', AT_EVEN_Q + one + one[:2]
    yield 15, 12, 'before_12_inverse_then_begin', AT_EVEN_Q + one + START + END
    yield 15, 12, 'before_13_inverse_then_register_9', AT_EVEN_Q + one + unit(9) + END
    yield 15, 12, 'before_14_inverse_and_no_end', AT_EVEN_Q + one
    yield 15, 12, 'before_14_inverse_and_bytes_after_end', AT_EVEN_Q + one + END + b'\xff'
    yield 15, 12, 'before_15_two_commands', AT_EVEN_Q + braid(0, (-2, -1)) + END


REFUSALS = (refused_sizes, unknown_commands, cut_commands, misplaced_commands, operands_out_of_range, wrong_ends, missing_inverses)
GROUPS = {'document': documents, 'unit': units, 'set': sets, 'letter': some_letters, 'inverse': inverse_letters,
          'product': products, 'parameter': parameters, 'action': actions, 'slip': slips, 'sum': sums, 'scale': scales,
          'pairing': pairings, 'equality': equalities, 'trace': traces, 'show': shows, 'count': counts, 'size': sizes,
          'mixture': mixtures}


def kit():
    """The name and the bytes of each sheet."""
    for group, sheets in GROUPS.items():
        for name, one in sheets():
            yield f'{group}_{name}', one
    for sheets in REFUSALS:
        for number, where, name, one in sheets():
            yield f'refusal_{number}_{name}_at_{where}', one
    for number, where, name, one in competing_faults():
        yield f'order_{number}_{name}_at_{where}', one


def conformance_kit():
    """The files of the kit that are made."""
    for name, one in kit():
        yield f'{FOLDER}/{name}.sheet', one
        yield f'{FOLDER}/{name}.expected', printed(one).encode()


def strangers(root, made):
    """The files of the kit that are neither made nor written by hand."""
    found = {path.relative_to(root).as_posix() for path in (root / 'conformance').rglob('*') if path.is_file()}
    return sorted(found - WRITTEN_BY_HAND - set(made))
