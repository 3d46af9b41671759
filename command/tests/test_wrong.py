"""command/wrong: the changes that it makes, and the reasons for those that change no answer."""
import ast
import importlib.machinery
import importlib.util
import os
import unittest

import support

PATH = os.path.join(support.HOME, "command", "wrong")
SMALL = '''
def one(some):
    """A docstring is left as it is."""
    if some[0] < 1 and not any(some):
        return -some[1:] + 2.5
'''
CHANGED = (
    "some[0] <= 1", "some[0] >= 1", "some[1] < 1", "some[0] < 2", "some[0] < 0", "all(some)", "and any(some)", "or not any(some)",
    "if not (some[0] < 1 and (not any(some)))", "some[2:]", "some[0:]", "some[1:-1]", "return some[1:]", "-some[1:] - 2.5", "25.0",
)  # fmt: skip


def loaded():
    loader = importlib.machinery.SourceFileLoader("wrong", PATH)
    module = importlib.util.module_from_spec(importlib.util.spec_from_loader("wrong", loader))
    loader.exec_module(module)
    return module


class Wrong(unittest.TestCase):
    def test_changes(self):
        wrong = loaded()
        listing = wrong.Change()
        listing.visit(ast.parse(SMALL))
        made = [ast.unparse(wrong.Change(number).visit(ast.parse(SMALL))) for number in range(len(listing.found))]
        self.assertEqual(len(set(made)), len(CHANGED))
        for part in CHANGED:
            self.assertTrue(any(part in one for one in made), (part, made))

    def test_reasons(self):
        """No two changes have one label, and each label in survivors.txt has its reason below it."""
        wrong = loaded()
        folder = wrong.command_folder()
        names = [name for name in os.listdir(os.path.join(support.HOME, folder)) if name.endswith(".py")]
        labels = [one.label for name in names for one in wrong.versions_of(folder, name)]
        self.assertEqual(len(set(labels)), len(labels))
        self.assertGreater(len(labels), 1000)
        with open(os.path.join(support.HOME, "command", "survivors.txt"), encoding="utf-8") as file:
            lines = [line.rstrip("\n") for line in file if not line.startswith("#")]
        self.assertEqual(lines[1::2], [line for line in lines if line.startswith("  ")])
        self.assertEqual(len(set(lines[::2])) * 2, len(lines))


if __name__ == "__main__":
    unittest.main()
