"""The ruler, the ends of the span, and corrections, against document 01's formulas worked out here."""
import struct
from fractions import Fraction

import support
from dartelm.command import readings
from dartelm.command.image import build, read_sheet
from dartelm.command.singles import nearest
from dartelm.command.trouble import Refusal
from dartelm.command.units import EXACT


def single(text):
    return nearest(EXACT.create_decimal(text))


class Ruler(support.Case):
    def test_figures(self):
        chance = support.random.Random(21)
        for low, high in (("0", "5000"), ("-5000", "5000"), ("250", "-50"), ("0", "0.1"), ("1e-30", "3e38"), ("7", "7")):
            ruler = readings.Ruler(single(low), single(high))
            least, greatest = (single(end) for end in (low, high))
            places = [0, 1, 10**9, -(10**8), 11 * 10**8] + [chance.randrange(-(10**8), 11 * 10**8) for _ in range(20)]
            for place, figure in zip(places, ruler.figures(places)):
                self.assertEqual(
                    struct.pack(">d", figure), struct.pack(">d", least + (greatest - least) * (place / 1000000000))
                )
            self.assertEqual(ruler.figures((-(10**8) - 1, 11 * 10**8 + 1)), [None, None])

    def test_places(self):
        for low, high in (("0", "5000"), ("-5000", "5000"), ("250", "-50"), ("0", "16e6")):
            ruler = readings.Ruler(single(low), single(high))
            for place in (0, 1, 200000000, 333333333, 10**9, -(10**8), 1099999999):
                self.assertEqual(ruler.place(Fraction(ruler.figures((place,))[0])), place)
            self.assertIsNone(ruler.place(Fraction(10**9)))


class Span(support.Case):
    def test_ends(self):
        """A reading at an end of the span is at 0 or at the whole of it."""
        done = 0
        for image in support.built_images(400, 31):
            sheet = read_sheet(image)
            ends = readings.ends_of(sheet)
            if sheet.template == 32 or ends is None or readings.why_no_reading(sheet, image):
                continue
            done += 1
            bare = build(sheet.bare())
            self.assertEqual([got.fraction for got in readings.of(bare, ends)], [0, readings.WHOLE_SPAN])
            for one in readings.take(sheet, image, readings.evenly(ends, 7)):
                self.assertFalse(isinstance(one, Refusal))
                self.assertEqual(one.fraction, one.position + one.correction)
        self.assertGreater(done, 30)

    def test_corrections_at_the_points(self):
        image = support.images.read_image(support.sample("load-cell.kind1"))
        sheet = read_sheet(image)
        low, high = readings.ends_of(sheet)
        for point, deviation in sheet.points:
            given = low + round(Fraction(point * (high - low), 10**9))
            (one,) = readings.take(sheet, image, [given])
            self.assertLessEqual(abs(one.correction - deviation), 1000)


if __name__ == "__main__":
    support.unittest.main()
