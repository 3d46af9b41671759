"""write on the real owserver: a chip that is pulled behind any row, or in one, holds the old image, the new one, or one that is
refused, and the same command finishes it."""
import concurrent.futures
import multiprocessing
import random
import unittest

import bench
import support
from support import sample_bytes

# Pairs that are tried at once, each on a server of its own: most of the time a server waits for its chip.
AT_ONCE = 4
# Of a pair with more rows than these the chip is pulled behind one row after the other, and each command goes on from there.
MANY = 24


class Pair(bench.Case):
    """An old and a new image. `tried` is run for each pair, and no test of its own."""

    def tried(self):
        self.serve()
        self.cuts = self.refused = 0
        self.chip = self.small if len(self.new) == 128 else self.large
        self.file("new", self.new)
        self.file("old", self.old)
        self.chip.hold(self.old)
        rows = self.write(0).count("  row ")
        if rows > MANY:
            self.row_by_row(rows)
            return
        for cut in range(rows + 1):
            self.pulled(cut)
        self.pulled(self.chance.randrange(rows), self.chance)

    def write(self, status, **said):
        words = ("--to", f"ow:{self.chip.name}", "--force", "--keep", self.path("old"), *self.at)
        return self.gives(status, "write", self.path("new"), *words, **said)[0]

    def pulled(self, cut, torn=None):
        self.chip.hold(self.old, cut, torn)
        self.write(3, err="; the same command finishes it\n")
        self.judged()
        self.finished()

    def row_by_row(self, rows):
        self.chip.hold(self.old)
        for _ in range(rows):
            self.chip.hold(bytes(self.chip.memory), 1)
            self.write(3, err="; the same command finishes it\n")
            self.judged()
        self.finished()

    def judged(self):
        """What the chip holds behind a cut, as owserver reads it once it is connected again."""
        held = bytes(self.chip.memory)
        self.chip.hold(held)
        found, accepted = self.saved(self.chip.name)
        self.assertEqual(found, held)
        if accepted:
            self.assertIn(found, (self.old, self.new))
        self.cuts += 1
        self.refused += not accepted

    def finished(self):
        self.write(0)
        self.assertEqual(self.saved(self.chip.name), (self.new, True))


def try_pair(numbered):
    """How often the chip was pulled and how often it was refused then, and what failed."""
    number, (old, new) = numbered
    pair = Pair("tried")
    pair.old, pair.new, pair.chance = old, new, random.Random(number)
    result = unittest.TestResult()
    pair.run(result)
    return pair.cuts, pair.refused, [f"pair {number}: {text}" for _, text in result.errors + result.failures]


class Pulled(support.Case):
    def changed(self, name, *changes):
        self.gives(0, "set", support.sample(name), *changes, "--level", "maker", "-o", self.path("changed"), "--force")
        return self.bytes("changed")

    def pairs(self):
        """Of both kinds: recalibrated, replaced by another sender's, and over what is blank, damaged or no sheet at all."""
        cell, torque, large = (sample_bytes(name) for name in ("load-cell.kind1", "torque.kind1", "many-points.kind2"))
        chance = random.Random(44)
        yield from ((b"\xff" * 512, large), (cell, torque), (torque, cell), (bytes(128), torque))
        yield from ((sample_bytes("blank.kind1"), cell), (sample_bytes("damaged.kind1"), cell))
        yield bytes(chance.randrange(256) for _ in range(128)), cell
        yield cell, self.changed("load-cell.kind1", "location=1")
        yield cell, self.changed("load-cell.kind1", "date=2026-11-16", "initials=A.B")
        yield sample_bytes("brake-pressure.kind1"), sample_bytes("exhaust-pressure.kind1")
        yield sample_bytes("temperature.kind1"), sample_bytes("brake-pressure.kind1")
        yield large, self.changed("many-points.kind2", "location=9", "serial=77")
        yield large, self.changed("many-points.kind2", "date=2026-11-16")
        built = support.built_images(60, 44)
        small, wide = ([image.data for image in built if image.kind == kind] for kind in (1, 2))
        yield from ((large, wide[0]), (wide[1], wide[2]), (wide[3], wide[4]))
        yield from zip(small[:4], small[4:8])

    def test_pulled(self):
        pairs = list(enumerate(self.pairs()))
        self.assertEqual(len(pairs), 20)
        # Each begins as a new program, which has no lock of a thread that was not copied; one that dies is an error, and no wait.
        with concurrent.futures.ProcessPoolExecutor(AT_ONCE, multiprocessing.get_context("spawn")) as pool:
            found = list(pool.map(try_pair, pairs, timeout=3 * support.LONGEST))
        cuts, refused = (sum(one[at] for one in found) for at in (0, 1))
        failed = [text for *_, texts in found for text in texts]
        self.assertFalse(failed, "\n".join(failed))
        self.assertGreater(cuts, 300)
        self.assertGreater(cuts - refused, 20)
        told = f"{refused} times refused, else the old image or the new; all finished"
        print(f"chips: 20 pairs of images, the chip pulled {cuts} times: {told}")


if __name__ == "__main__":
    unittest.main()
