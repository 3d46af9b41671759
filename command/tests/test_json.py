"""--json: names that docs/JSON.md lists, and figures as the sheet has them."""
import json
import os
import re

import support
from support import ACCEPTED, sample

CELL = sample("load-cell.kind1")


class Json(support.Case):
    def object(self, status, *words):
        out, _ = self.gives(status, *words, "--json")
        return json.loads(out)

    def test_show(self):
        cell, damaged = self.object(1, "show", CELL, sample("damaged.kind1"), "--today", "2026-11-16")
        self.assertEqual((cell["accepted"], cell["kind"], cell["bytes"], cell["bits"], cell["template"]), (True, 1, 128, 716, 33))
        found = {one["number"]: (one["name"], one["value"], one["unit"]) for one in cell["fields"]}
        self.assertEqual(len(found), 21)
        self.assertEqual(found[5], ("serial number", "555", None))
        self.assertEqual(found[8], ("maximum physical value", "5000", "N"))
        self.assertEqual(found[11], ("maximum electrical value", "0.002", "V/V"))
        self.assertEqual(found[13], ("bridge element impedance", "350", "ohm"))
        self.assertEqual(found[14], ("response time", "0.000001", "s"))
        self.assertEqual(found[18], ("calibration date", "2025-11-03", None))
        self.assertEqual(found[20], ("calibration period", "365", "days"))
        self.assertEqual((cell["calibration_date"], cell["calibration_due"]), ("2025-11-03", "2026-11-03"))
        self.assertEqual(cell["points"][1], {"point_billionths": 200001600, "deviation_billionths": 150000})
        self.assertEqual((cell["domain"], cell["segments"], cell["dashes"]), ("electrical", [], ["large", "small"]))
        self.assertEqual(cell["closing_text"], "rolling road 2, left drum")
        self.assertEqual(cell["look_at"], ["calibration is overdue since 2026-11-03"])
        self.assertEqual((damaged["accepted"], damaged["refusal"]["number"], damaged["refusal"]["place"]), (False, 2, 2))
        (torque,) = self.object(0, "show", sample("torque.kind1"))
        self.assertEqual(torque["domain"], "physical")
        (curve,) = self.object(0, "show", sample("exhaust-pressure.kind1"))
        self.assertEqual((len(curve["segments"]), curve["segments"][1]["start_billionths"]), (2, 499995000))
        self.assertEqual(curve["segments"][1]["terms"][0], {"exponent": 0, "coefficient": "-0.3"})
        (many,) = self.object(0, "show", sample("many-points.kind2"))
        self.assertEqual((many["dashes"], many["fields"][12]["value"], many["calibration_date"]), (["large"], None, None))

    def test_read(self):
        found = self.object(1, "read", CELL, "1mV/V", "5mV/V")
        self.assertEqual((found["file"], found["dash"]), (CELL, "large"))
        first, last = found["readings"]
        self.assertEqual((first["input_nV_per_V"], first["fraction_billionths"], first["unit"]), (1000000, 500400001, "N"))
        self.assertEqual((first["figure"], first["correction_billionths"]), (5000 * (500400001 / 1e9), 400001))
        self.assertEqual((last["refusal"]["number"], last["figure"]), (14, None))

    def test_why(self):
        found = self.object(1, "why", sample("damaged.kind1"))
        self.assertEqual([one["verdict"] for one in found["pages"]], ["adds up", "adds up", "does not add up", "adds up, every byte 0"])
        self.assertEqual(found["whole_pages_say"]["serial number"], "555")
        self.assertTrue(found["likely"] and found["to_do"])
        self.assertEqual(self.object(0, "why", CELL)["refusal"], None)

    def test_certificate(self):
        found = self.object(0, "certificate", CELL, sample("load-cell.csv"))
        self.assertEqual((found["verdict"], found["distance_billionths"], found["unit"]), ("AGREES", 517, "N"))
        self.assertEqual(found["bound_billionths"], 12)
        self.assertEqual(len(found["points"]), 12)
        second = found["points"][1]
        self.assertEqual((second["at_billionths"], second["input_nV_per_V"]), (200000000, 400000))
        self.assertEqual((second["certificate_billionths"], second["within"]), (200150000, True))

    def test_tray(self):
        found = self.object(3, "tray", CELL, sample("damaged.kind1"), self.path("nope"), "--today", "2026-01-01")
        cell, damaged, nope = found["chips"]
        self.assertEqual((cell["bits"], cell["serial"], cell["points"], cell["look_at"]), (716, "555", 6, []))
        self.assertEqual((damaged["refused"], damaged["accepted"]), (2, False))
        self.assertIn("cannot read", nope["error"])
        self.assertEqual(found["total_bits"], 716)

    def test_every_name_is_documented(self):
        with open(os.path.join(support.HOME, "docs", "JSON.md"), encoding="utf-8") as file:
            documented = set(re.findall(r"`(\w+)`", file.read()))
        names = set()

        def collect(value):
            if isinstance(value, dict):
                names.update(key for key in value if " " not in key and "," not in key)
                for key, one in value.items():
                    if key != "whole_pages_say":
                        collect(one)
            elif isinstance(value, list):
                for one in value:
                    collect(one)

        for name in ACCEPTED:
            collect(self.object(0, "show", sample(name)))
        collect(self.object(1, "read", CELL, "1mV/V", "5mV/V"))
        collect(self.object(1, "why", sample("damaged.kind1")))
        collect(self.object(0, "certificate", CELL, sample("load-cell.csv")))
        collect(self.object(1, "tray", CELL, sample("damaged.kind1")))
        self.assertEqual(names - documented, set())


if __name__ == "__main__":
    support.unittest.main()
