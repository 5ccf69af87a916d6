"""The Python module, held against the examples, the worked sheets and its own promises.

    python3 python/test_burmelox.py

Its last line is 'N passed, 0 failed', where all tests pass; else it ends with status 1.
"""

import re
import struct
import sys
import threading
import unittest
from pathlib import Path

import burmelox
from burmelox import Profile, Refused

ROOT = Path(__file__).resolve().parents[1]
EXAMPLES = ROOT / "examples"

SQUARE = [((0,), 1), ((1,), -2), ((2,), 1)]
CLAIM = burmelox.claim(1, 0, SQUARE)
PROOF = burmelox.proof(1, 1, [((0,), (2,), (1, 1, -2))])
LINE = burmelox.claim(1, -5, [((1,), 1)])


def parted(sheet):
    """The claim and the proof in an example's bytes."""
    end = 8 + sheet[1] * (sheet[0] + 4)
    return sheet[:end], sheet[end:]


def verdict(claim, proof, limits=None):
    """The lines that the program prints for the verdict."""
    try:
        rows, exact = burmelox.check(claim, proof, limits)
    except Refused as refused:
        return f"refused {refused.number} at {refused.index}\n"
    scale, floor = struct.unpack("<I", exact[4:8])[0], struct.unpack("<i", claim[4:8])[0]
    lines = [f"accepted rows {rows} scale {scale} floor {floor}\n"]
    weights = struct.iter_unpack("<3i", exact[len(exact) - 12 * rows :])
    lines += [f"row {row} p {p} q {q} r {r}\n" for row, (p, q, r) in enumerate(weights)]
    return "".join(lines)


class Burmelox(unittest.TestCase):
    def refused(self, sheet, number, index=0):
        """What is called within is refused so."""
        text = rf"^refused {number} at {index} \({sheet}\)$"
        return self.assertRaisesRegex(Refused, text)

    def test_examples_have_their_verdicts(self):
        sheets = sorted(EXAMPLES.glob("*.sheet"))
        self.assertGreater(len(sheets), 20)
        for path in sheets:
            limits = path.with_suffix(".limits")
            limits = limits.read_bytes() if limits.exists() else None
            with self.subTest(path.name):
                text = verdict(*parted(path.read_bytes()), limits)
                self.assertEqual(text, path.with_suffix(".txt").read_text())

    def test_examples_have_their_pages(self):
        for path in EXAMPLES.glob("*.page"):
            claim, proof = parted(path.with_suffix(".sheet").read_bytes())
            with self.subTest(path.name):
                try:
                    _, page = burmelox.check_page(claim, proof)
                except Refused as refused:
                    page = refused.page
                self.assertEqual(page, path.read_text())

    def test_a_page_comes_with_what_is_accepted(self):
        accepted, page = burmelox.check_page(CLAIM, PROOF)
        self.assertEqual(accepted, burmelox.check(CLAIM, PROOF))
        self.assertEqual(len(page), burmelox.PAGE_LENGTH)

    def test_builders_write_the_bytes_of_the_examples(self):
        self.assertEqual(CLAIM + PROOF, (EXAMPLES / "A.sheet").read_bytes())
        limits = burmelox.limits([(2, 5, 1)])
        self.assertEqual(limits, (EXAMPLES / "line-limited.limits").read_bytes())

    def test_terms_may_stand_in_any_order(self):
        self.assertEqual(burmelox.claim(1, 0, SQUARE[::-1]), CLAIM)

    def test_points_have_as_many_exponents_as_variables(self):
        with self.assertRaises(ValueError):
            burmelox.claim(2, 0, [((0, 0, 0), 1), ((1,), 1)])
        with self.assertRaises(ValueError):
            burmelox.proof(2, 1, [((0, 0), (2,), (1, 1, -2))])

    def test_masks_and_limits_are_read(self):
        cube = burmelox.claim(1, 0, [((3,), 1)], mask=1)
        lone = burmelox.proof(1, 1, [((3,), (3,), (1, 0, 0))])
        self.assertEqual(burmelox.check(cube, lone).rows, 1)
        proof = burmelox.proof(1, 10, [((0,), (2,), (25, 1, -10))])
        self.assertEqual(burmelox.check(LINE, proof, burmelox.limits([(2, 5, 1)])).rows, 1)
        with self.refused("proof", 19):
            burmelox.check(LINE, proof)

    def test_evaluations_are_exact(self):
        self.assertEqual(burmelox.evaluate(CLAIM, [-3]), 16)
        self.assertEqual(burmelox.evaluate(burmelox.claim(1, 0, [((56,), 1)]), [2]), 1 << 56)
        with self.refused("claim", 21):
            burmelox.evaluate(burmelox.claim(1, 0, [((57,), 1)]), [2])
        with self.refused("offsets", 20):
            burmelox.evaluate(CLAIM, [])

    def test_searches_find_the_highest_floor(self):
        found = burmelox.search(burmelox.claim(1, -1, SQUARE), PROOF, -3, 3)
        self.assertEqual(found, burmelox.Found(floor=0, tried=4, rows=1, exact=PROOF))
        with self.refused("range", 23):
            burmelox.search(CLAIM, PROOF, 1, 3)
        with self.refused("range", 22):
            burmelox.search(CLAIM, PROOF, 1, 0)

    def test_profiles_are_kept_to(self):
        self.assertEqual(burmelox.check(CLAIM, PROOF, profile=Profile(2, 2, 1)).rows, 1)
        with self.refused("claim", 6, 2):
            burmelox.check(CLAIM, PROOF, profile=Profile(1, 2, 1))
        with self.refused("profile", 27):
            burmelox.evaluate(CLAIM, [0], profile=Profile(121, 1, 0))

    def test_refusals_have_sheet_number_and_index(self):
        with self.assertRaises(Refused) as caught:
            burmelox.check(burmelox.claim(1, 0, [((0,), 1), ((1,), 0)]), PROOF)
        refused = caught.exception
        self.assertEqual((refused.sheet, refused.number, refused.index), ("claim", 5, 1))
        self.assertIsNone(refused.page)

    def test_sheets_have_their_texts(self):
        text = "claim\nvariables 1\nmask 0\nfloor -5\nterm 0 coefficient 1 exponents 1\n"
        self.assertEqual(burmelox.claim_text(LINE), text)
        proof = burmelox.proof(1, 2, [((0,), (2,), (1, 1, -2)), ((2,), (2,), (3, 0, 0))])
        text = "proof\nvariables 1\nscale 2\nrow 0 pair v 0 w 2 p 1 q 1 r -2\nrow 1 lone v 2 p 3\n"
        self.assertEqual(burmelox.proof_text(proof), text)
        text = "limits\nvariables 2\nvariable 1 power 4 limit 3 multiplier 0\n"
        self.assertEqual(burmelox.limits_text(burmelox.limits([None, (4, 3, 0)])), text)
        text = "profile\nexponent 120\nweight 1073741824\nrows 256\n"
        self.assertEqual(burmelox.profile_text(), text)

    def test_texts_refuse_by_the_numbers_of_their_sheets(self):
        with self.refused("claim", 1):
            burmelox.claim_text(b"")
        with self.refused("proof", 9):
            burmelox.proof_text(bytes([9, 0, 0, 0, 1, 0, 0, 0]))
        with self.refused("limits", 24):
            burmelox.limits_text(b"\0")
        with self.refused("profile", 27):
            burmelox.profile_text(Profile(0, 0, 0))

    def test_the_longest_texts_have_room(self):
        most = 1 << 30
        points = [(100,) * 6 + (100 + term // 20, 100 + term % 20) for term in range(64)]
        claim = burmelox.claim(8, -most, [(point, -most) for point in points], mask=255)
        proof = burmelox.proof(8, 1 << 20, [((100,) * 8, (120,) * 8, (-most,) * 3)] * 256)
        limits = burmelox.limits([(4, 1023, 65536)] * 8)
        self.assertEqual(len(burmelox.claim_text(claim)), 4771)
        self.assertEqual(len(burmelox.proof_text(proof)), 31410)
        self.assertEqual(len(burmelox.limits_text(limits)), burmelox.MOST_LIMITS_TEXT)
        self.assertEqual(len(burmelox.profile_text()), burmelox.MOST_PROFILE_TEXT)

    def test_any_bytes_are_sheets(self):
        for kind in (bytearray, memoryview):
            self.assertEqual(burmelox.check(kind(CLAIM), kind(PROOF)).exact, PROOF)
        for other in ("text", 5, None):
            with self.assertRaises(TypeError):
                burmelox.claim_text(other)

    def test_numbers_are_never_cut(self):
        with self.assertRaises(OverflowError):
            burmelox.evaluate(CLAIM, [1 << 32])
        with self.assertRaises(OverflowError):
            burmelox.search(CLAIM, PROOF, 0, 1 << 64)
        with self.assertRaises(OverflowError):
            burmelox.profile_text(Profile(1 << 32, 1, 0))

    def test_threads_may_call_at_once(self):
        values = {}

        def run(x):
            values[x] = [burmelox.evaluate(CLAIM, [x]) for _ in range(200)]

        threads = [threading.Thread(target=run, args=(x,)) for x in range(8)]
        for thread in threads:
            thread.start()
        for thread in threads:
            thread.join()
        self.assertEqual(values, {x: [(x - 1) ** 2] * 200 for x in range(8)})

    def test_names_and_numbers_are_the_headers(self):
        header = (ROOT / "include/burmelox.h").read_text()
        sheets = re.search(r"enum burmelox_sheet \{(.*?)\}", header, re.S)[1]
        sheets = re.findall(r"BURMELOX_(\w+) = (\d+)", sheets)
        self.assertEqual({int(number): name.lower() for name, number in sheets}, burmelox.SHEETS)
        self.assertIn(f'#define BURMELOX_VERSION "{burmelox.__version__}"\n', header)
        texts = [f"MOST_{kind}_TEXT" for kind in ("CLAIM", "PROOF", "LIMITS", "PROFILE")]
        for name in ["PAGE_LENGTH", *texts]:
            self.assertIn(f"#define BURMELOX_{name} {getattr(burmelox, name)}\n", header)
        for name in set(re.findall(r"uint64_t burmelox_(\w+)\(", header)):
            self.assertTrue(callable(getattr(burmelox, name, None)), name)


if __name__ == "__main__":
    result = unittest.main(exit=False).result
    failed = len(result.failures) + len(result.errors)
    print(f"{result.testsRun - failed} passed, {failed} failed")
    sys.exit(failed > 0)
