"""README and docs/BENCH.md, CONSOLE.md and TRAY.md: each example gives what the page says."""
import os
import re
import subprocess

import support


class Examples(support.Case):
    def blocks(self, page):
        """Commands and what stands below them."""
        with open(os.path.join(support.HOME, "docs", page), encoding="utf-8") as file:
            for block in re.findall(r"(?:^    .*\n)+", file.read(), re.MULTILINE):
                lines = [line[4:] for line in block.splitlines()]
                for number, line in enumerate(lines):
                    if line.startswith("$ "):
                        below = lines[number + 1 :]
                        end = next((n for n, other in enumerate(below) if other.startswith("$ ")), len(below))
                        yield line[2:], "".join(other + "\n" for other in below[:end])

    def test_each(self):
        for name in ("bin", "samples", "include", "examples", "portable"):
            os.symlink(os.path.join(support.HOME, name), self.path(name))
        commands = {page: list(self.blocks(page)) for page in ("BENCH.md", "CONSOLE.md", "TRAY.md", "../README.md")}
        self.assertGreater(min(map(len, commands.values())), 1)
        for command, wanted in sum(commands.values(), []):
            done = subprocess.run(command, shell=True, cwd=self.room, capture_output=True, text=True, check=False)
            self.assertEqual(done.stdout, wanted, command + done.stderr)


if __name__ == "__main__":
    support.unittest.main()
