"""python3 -m unittest, in this folder, after make; or with the module installed."""

import doctest
import unittest

import tipshare

EXAMPLE = bytes.fromhex("54495000010300020000000000000001" "0000000000000006")


class Calls(unittest.TestCase):
    def refused(self, number, place, call, *arguments):
        with self.assertRaises(tipshare.Refused) as caught:
            call(*arguments)
        self.assertEqual((caught.exception.number, caught.exception.place), (number, place))
        return caught.exception

    def test_page(self):
        self.assertEqual(doctest.testmod(tipshare).failed, 0)
        self.assertEqual(tipshare.version(), tipshare.__version__)

    def test_job(self):
        self.assertEqual(tipshare.job(3, [[0], [1, 2]]), EXAMPLE)
        self.assertEqual(tipshare.job(3, [[0]])[4], 1)
        self.assertEqual(tipshare.job(3, [([0], 5)])[4], 2)
        for wrong in ([[64]], [[-1]], [([0], 256)], [([0], -1)]):
            with self.assertRaises(ValueError):
                tipshare.job(3, wrong)

    def test_example(self):
        self.assertEqual(tipshare.read(EXAMPLE), (3, 2))
        self.assertEqual(tipshare.common(EXAMPLE), (1, 1, [0, 1, 2]))
        self.assertEqual(tipshare.quick(EXAMPLE), ([0, 1], 0))
        self.assertEqual(tipshare.quick(EXAMPLE, mounted=2), ([0, 2], 0))
        self.assertEqual(tipshare.best(EXAMPLE), ([0, 1], 0, [0] * 9))
        self.assertEqual(tipshare.junior(EXAMPLE), ([0, 1], 0, (0, 1)))
        self.assertEqual(tipshare.keep(EXAMPLE, 1), (EXAMPLE, 0))
        self.assertEqual(tipshare.goal(EXAMPLE, 0), EXAMPLE)
        self.assertEqual(tipshare.mend(EXAMPLE), (EXAMPLE, []))
        self.assertTrue(tipshare.report(EXAMPLE).startswith("lines 2 rack 3\noff 1 tips 0 1 2\n"))

    def test_refusals(self):
        self.refused(6, 0, tipshare.read, b"")
        self.refused(10, 0, tipshare.read, EXAMPLE[:-1])
        refused = self.refused(2, 1, tipshare.read, tipshare.job(3, [[0], []]))
        self.assertEqual(str(refused), "refused 2: a line has no tip, line 1")
        self.assertEqual(self.refused(26, 0, tipshare.keep, EXAMPLE, 0).margin, -1)
        self.refused(16, 0, tipshare.quick, EXAMPLE, 3)
        self.refused(34, 0, tipshare.goal, EXAMPLE, 1)
        self.refused(17, 0, tipshare.merge, EXAMPLE, tipshare.job(4, [[0]]))
        self.refused(12, 1, tipshare.order, [(0, 1), (1, 2)])
        self.refused(13, 0, tipshare.order, [(0, 1), (0, 1)], [(1, 1)])
        self.assertEqual(tipshare.words(18), "unknown number")
        self.assertEqual(tipshare.words(2**32 - 1), "unknown number")
        # No number is cut to the 32 bits that C takes.
        for number in (2**32, 2**32 + 7, 2**64, -1):
            with self.assertRaisesRegex(ValueError, f"^the number of a refusal is {number},"):
                tipshare.words(number)

    def test_numbers_are_no_files(self):
        for call in (tipshare.read, tipshare.common, tipshare.quick, tipshare.junior, tipshare.mend, tipshare.report):
            for wrong in (5, 0, True, "TIP", None, 2.5):
                with self.assertRaises(TypeError):
                    call(wrong)
        with self.assertRaises(TypeError):
            tipshare.check(EXAMPLE, 2, 0, [0] * 9)
        for file in (EXAMPLE, bytearray(EXAMPLE), memoryview(EXAMPLE), list(EXAMPLE)):
            self.assertEqual(tipshare.read(file), (3, 2))
        for wrong in (-1, 65536):
            with self.assertRaises(ValueError):
                tipshare.keep(EXAMPLE, wrong)

    def test_along(self):
        file = tipshare.job(4, [[0, 1], [1, 2], ([2, 3], 2)])
        self.assertEqual(tipshare.along(file), ([1, 1, 2], 1, 2))
        self.assertEqual(tipshare.along(file, mounted=0), ([0, 2, 2], 1, 3))
        self.assertEqual(tipshare.along(file, mounted=3), ([1, 1, 2], 2, 2))
        self.assertEqual(tipshare.along(tipshare.job(4, [])), ([], 0, 0))
        self.refused(16, 0, tipshare.along, file, 4)
        self.refused(6, 0, tipshare.along, b"", 4)
        for wrong in (-1, 2**64 - 1):
            with self.assertRaises(ValueError):
                tipshare.along(file, wrong)

    def test_exact(self):
        # Tips 0, 1 and 2 with 10 pairs, or tips 1 and 2 with 9.
        file = tipshare.job(3, [([0, 1], 3), ([0, 2], 2), [1], [2]])
        self.assertEqual(tipshare.exact(file), ([0, 0, 1, 2], 10, 3))
        self.assertEqual(tipshare.exact(file, price=1), ([0, 0, 1, 2], 10, 3))
        self.assertEqual(tipshare.exact(file, price=1, mounted=2), ([1, 2, 1, 2], 9, 2))
        self.assertEqual(tipshare.exact(file, price=2**32 - 1), ([1, 2, 1, 2], 9, 2))
        self.assertEqual(tipshare.exact(tipshare.job(64, [])), ([], 0, 0))
        self.assertEqual(tipshare.exact(tipshare.job(64, [[0, 63], [63]])), ([63, 63], 1, 1))
        self.refused(16, 0, tipshare.exact, file, 0, 3)
        self.refused(35, 0, tipshare.exact, tipshare.job(64, [range(21)]))
        self.refused(6, 0, tipshare.exact, b"")
        for wrong in (-1, 2**32):
            with self.assertRaises(ValueError):
                tipshare.exact(file, wrong)

    def test_check(self):
        file = tipshare.job(3, [([0], 2), ([0, 1], 3), ([1, 2], 3), ([2], 2)])
        tips, pairs, table = tipshare.best(file)
        self.assertEqual((tips, pairs), ([0, 0, 2, 2], 20))
        tipshare.check(file, tips, pairs, table)
        self.refused(19, 0, tipshare.check, file, [0, 0, 0, 2], pairs, table)
        self.refused(20, 0, tipshare.check, file, tips, pairs - 1, table)
        self.refused(33, 0, tipshare.check, file, tips, pairs, [0] * 9)

    def test_two_boards(self):
        other = tipshare.job(3, [([2], 2)])
        panel = tipshare.merge(EXAMPLE, other)
        self.assertEqual(panel, tipshare.job(3, [([0], 1), ([1, 2], 1), ([2], 2)]))
        self.assertEqual(tipshare.alone(EXAMPLE, other), (([0, 1], 0), ([2], 1)))

    def test_mend(self):
        self.assertEqual(tipshare.mend(EXAMPLE[:20]), (tipshare.job(3, [[0]]), [(65535, 5), (65535, 6)]))

    def test_order(self):
        self.assertEqual(tipshare.order([]), [])
        parts = [tipshare.Part(0, 3, tall=True), (0, 3), tipshare.Part(0, 3, fine=True), (0, 3)]
        self.assertEqual(tipshare.order(parts, [(3, 1)]), [2, 3, 1, 0])

    def test_windows(self):
        self.assertEqual(tipshare.windows([]), [])
        parts = [tipshare.Part(0, 3, tall=True), (0, 3), tipshare.Part(0, 3, fine=True), (0, 3)]
        self.assertEqual(tipshare.windows(parts), [(3, 3), (1, 2), (0, 0), (1, 2)])
        self.assertEqual(tipshare.windows(parts, [(3, 1)]), [(3, 3), (2, 2), (0, 0), (1, 1)])
        self.refused(12, 1, tipshare.windows, [(0, 1), (1, 2)])
        self.refused(13, 0, tipshare.windows, [(0, 1), (0, 1)], [(1, 1)])
        self.refused(29, 0, tipshare.windows, [(0, 1), (0, 1)], [(0, 1), (1, 0)])

    def test_order_by_tips(self):
        self.assertEqual(tipshare.order_by_tips([], []), ([], 0))
        self.assertEqual(tipshare.order_by_tips([(0, 2)] * 3, [5, 7, 5]), ([0, 2, 1], 1))
        self.assertEqual(tipshare.order_by_tips([(0, 2)] * 3, [5, 7, 5], mounted=7), ([1, 0, 2], 1))
        self.assertEqual(tipshare.order_by_tips([(0, 2)] * 3, [5, 7, 5], [(1, 0)], 5), ([2, 1, 0], 2))
        self.refused(4, 0, tipshare.order_by_tips, [(0, 1), (0, 1)], [5])
        self.refused(3, 1, tipshare.order_by_tips, [(0, 1), (0, 1)], [5, 64])
        self.refused(16, 0, tipshare.order_by_tips, [(0, 1), (0, 1)], [5, 63], (), 64)
        self.refused(29, 0, tipshare.order_by_tips, [(0, 1), (0, 1)], [5, 63], [(0, 1), (1, 0)])
        for wrong in ([256, 0], [-1, 0]):
            with self.assertRaises(ValueError):
                tipshare.order_by_tips([(0, 1), (0, 1)], wrong)

    def test_plan(self):
        plan = tipshare.plan([("A", {0, 2}), ("B", {1}), ("C", range(2))])
        self.assertEqual((plan.rack, plan.off, plan.common), (3, 1, [0, 1]))
        self.assertEqual((plan.quick, plan.quick_pairs), ({"A": 0, "B": 1, "C": 0}, 1))
        self.assertEqual((plan.best, plan.best_pairs, plan.no_run), (None, None, "A"))
        self.assertEqual(tipshare.plan([], rack=5).best, {})
        self.refused(2, 1, tipshare.plan, [("A", [0]), ("B", [])])
        self.refused(3, 0, tipshare.plan, [("A", [5])], 3)
        with self.assertRaises(ValueError):
            tipshare.plan([("A", [0]), ("A", [1])])
        for wrong in ("R1", ("R1",), ("R1", 3), ("R1", "01"), ("R1", [0.5]), ("R1", [0], "2"), ("R1", [0], 1, 1), None, 7):
            with self.assertRaisesRegex(TypeError, "^part 1 is "):
                tipshare.plan([("A", [0]), wrong])
        with self.assertRaisesRegex(ValueError, "^a tip of line 1 is 64"):
            tipshare.plan([("A", [0]), ("B", [64])])
        with self.assertRaisesRegex(ValueError, "^the quantity of line 0 is 256"):
            tipshare.plan([("A", [0], 256)])
        # 513 parts are one too many.
        self.refused(9, 0, tipshare.plan, [(str(part), [0]) for part in range(513)])


if __name__ == "__main__":
    unittest.main()
