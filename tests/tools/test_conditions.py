"""Least conditions: against every sum that is shorter, and against the table they come from."""
import itertools
import random
import unittest

from baytools.bay.conditions import (Products, TooLarge, Variable, cells, condition, fewest,
                                     reduce_variables)

POSITIONS = ('intermediate', 'open', 'closed', 'bad')
QA1, QB1, QC1 = (Variable(name, POSITIONS) for name in ('QA1', 'QB1', 'QC1'))
ES, LR = (Variable(name, ('0', '1'), True) for name in ('ES', 'LR'))


def table(variables, test):
    """What holds of each combination of words, as 1 or 0."""
    return ''.join('1' if test({v.name: word for v, word in zip(variables, words)}) else '0'
                   for words in itertools.product(*(v.values for v in variables)))


def words_of(variables, test):
    return condition(variables, table(variables, test)).text()


class Conditions(unittest.TestCase):
    def test_words(self):
        both = [QA1, QC1, ES]
        self.assertEqual(words_of(both, lambda w: w['QA1'] == 'open' and w['QC1'] == 'open'),
                         'QA1 open and QC1 open')
        self.assertEqual(words_of(both, lambda w: w['QA1'] != 'bad'), 'QA1 not bad')
        self.assertEqual(words_of(both, lambda w: w['ES'] == '0'), 'not ES')
        self.assertEqual(words_of(both, lambda w: w['QA1'] in ('open', 'closed')),
                         'QA1 open|closed')
        self.assertEqual(words_of(both, lambda w: True), 'always')
        self.assertEqual(words_of(both, lambda w: False), 'never')

    def test_two_products(self):
        found = words_of([QA1, QB1, ES], lambda w: (w['QA1'] == 'open' and w['QB1'] == 'open')
                         or w['ES'] == '1')
        self.assertEqual(found, 'ES or QA1 open and QB1 open')

    def test_what_does_not_matter(self):
        holds = table([QA1, QB1, ES], lambda w: w['QB1'] == 'closed')
        self.assertEqual(reduce_variables([4, 4, 2], holds), ([1], '0010'))

    def test_an_exclusive_or(self):
        found = condition([ES, LR], table([ES, LR], lambda w: w['ES'] != w['LR']))
        self.assertEqual(sorted(map(sorted, found.products)), [['ES', 'not LR'], ['LR', 'not ES']])

    def test_random_tables_are_covered_exactly(self):
        chance = random.Random(1)
        for _ in range(200):
            sizes = [chance.choice((2, 3, 4)) for _ in range(3)]
            count = sizes[0] * sizes[1] * sizes[2]
            bits = chance.getrandbits(count)
            products = Products(sizes).of(bits)
            chosen, _ = fewest(products, bits, sizes)
            found = 0
            for product in chosen:
                found |= cells(product, sizes)
            self.assertEqual(found, bits)

    def test_no_shorter_sum_is_possible(self):
        chance = random.Random(2)
        for _ in range(12):
            sizes = [2, 3, 2]
            bits = chance.getrandbits(12)
            chosen, is_sure = fewest(Products(sizes).of(bits), bits, sizes)
            within = [cells(p, sizes) for p in
                      itertools.product(*(range(1, 1 << size) for size in sizes))]
            within = [c for c in within if c & bits == c]
            self.assertTrue(is_sure)
            if 1 < len(chosen) < 5:
                fewer = itertools.combinations(within, len(chosen) - 1)
                self.assertFalse(any(self.union(few) == bits for few in fewer))

    @staticmethod
    def union(parts):
        found = 0
        for part in parts:
            found |= part
        return found

    def test_what_is_reduced_is_the_same(self):
        chance = random.Random(4)
        for _ in range(100):
            sizes = [chance.choice((2, 3, 4)) for _ in range(4)]
            needed = sorted(chance.sample(range(4), chance.randrange(5)))
            of = {}
            truths = ''.join(of.setdefault(tuple(it[at] for at in needed), chance.choice('01'))
                             for it in itertools.product(*map(range, sizes)))
            places, left = reduce_variables(sizes, truths)
            self.assertLessEqual(set(places), set(needed))
            kept = [it for it in itertools.product(*map(range, sizes))
                    if all(not it[at] for at in range(4) if at not in places)]
            self.assertEqual(left, ''.join(of[tuple(it[at] for at in needed)] for it in kept))

    def test_too_large(self):
        chance = random.Random(3)
        sizes = [4] * 6
        with self.assertRaises(TooLarge):
            Products(sizes).of(chance.getrandbits(4 ** 6))


if __name__ == '__main__':
    unittest.main()
