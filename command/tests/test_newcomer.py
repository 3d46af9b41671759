"""What somebody meets first: progress, help, a chip's bytes in other forms, the manual page."""
import os
import re
import shutil
import subprocess

import support
from dartelm.command import main
from dartelm.command.image import from_stream
from support import sample, sample_bytes

RT = """#!/bin/sh
for crate in refusal memory words console; do
    echo "fn $crate::one: proved"
    echo "fn $crate::part::two: proved"
    echo "logic=proved functions=2"
done >&2
mkdir -p out
printf '#!/bin/sh\\ncat\\n' > "out/$(basename "$PWD")"
chmod +x out/*
"""


def stream_of(data):
    """Document 01: the register, if any, then bytes 1 to 31 of each page."""
    register = data[:8] if len(data) == 40 else b""
    pages = data[len(register) :]
    return register + b"".join(pages[n + 1 : n + 32] for n in range(0, len(pages), 32))


class Newcomer(support.Case):
    def home(self, rt):
        """A home that has nothing built, and an rt of its own."""
        os.mkdir(self.path("path"))
        shutil.copytree(os.path.join(support.HOME, "bin"), self.path("home/bin"))
        os.makedirs(self.path("home/crates/console"))
        self.file("home/crates.txt", "# crates\nrefusal:\nmemory: refusal\nwords: memory refusal\nconsole: words libc io\nother: words\n")
        with open(self.path("path/rt"), "w", encoding="ascii") as file:
            file.write(rt)
        os.chmod(self.path("path/rt"), 0o755)
        return {**os.environ, "PATH": self.path("path") + ":" + os.environ["PATH"]}

    def test_progress(self):
        env = self.home(RT)
        words = [self.path("home/bin/console")]
        done = subprocess.run(words, input="line\n", capture_output=True, text=True, env=env, check=True)
        self.assertEqual(done.stdout, "line\n")
        self.assertEqual(
            done.stderr.splitlines()[1:],
            [f"console: proved {n} of 4: {name}" for n, name in enumerate(("refusal", "memory", "words", "console"), 1)],
        )
        again = subprocess.run(words, input="line\n", capture_output=True, text=True, env=env, check=True)
        self.assertEqual(again.stderr, "")

    def test_what_cannot_be_built(self):
        env = self.home("#!/bin/sh\necho 'fn memory::sum: proved'\necho logic=proved\necho 'rt: words: a fact fails'\nexit 1\n")
        done = subprocess.run([self.path("home/bin/console"), "help"], capture_output=True, text=True, env=env, check=False)
        self.assertEqual(done.returncode, 3)
        for part in ("console: proved 2 of 4: memory\n", "rt: words: a fact fails\n", "console: it cannot be built\n"):
            self.assertIn(part, done.stderr)
        self.assertEqual([name for name in os.listdir(self.room) if name.startswith("tmp")], [])

    def test_help(self):
        for name in ("console", "tray", "release"):
            program = os.path.join(support.HOME, "bin", name)
            done = subprocess.run([program, "--help"], capture_output=True, text=True, check=True, cwd=self.room)
            self.assertRegex(done.stdout, r"(?i)ends with")
            self.assertNotIn("#", done.stdout)
            self.assertEqual(os.listdir(self.room), [])
        done = subprocess.run([program, "--archive"], capture_output=True, text=True, check=False, cwd=self.room)
        self.assertEqual((done.returncode, os.listdir(self.room)), (3, []))

    def test_a_stream_without_check_bytes(self):
        for name in support.ACCEPTED:
            data = sample_bytes(name)
            path = self.file("sheet.ted", stream_of(data))
            self.gives(1, "why", path, out=("without the check bytes", f"accepted image of kind {name[-1]}", "-o NEW.kind"))
            self.gives(0, "why", path, "-o", self.path("new"), "--force", out="written and read again, accepted")
            self.assertEqual(self.bytes("new"), data)
            self.gives(1, "why", self.file("hex.txt", stream_of(data).hex()), out="without the check bytes")
        self.gives(1, "why", self.file("bad.ted", bytes(124)), out=("without the check bytes", "refused: 5 at bit 0"))
        self.assertIsNone(from_stream(bytes(125)))

    def test_an_array_as_c_has_it(self):
        for name in ("load-cell.kind1", "oil-pressure.kind0"):
            data = sample_bytes(name)
            rows = [", ".join(f"0x{byte:02x}" for byte in data[n : n + 12]) for n in range(0, len(data), 12)]
            text = "unsigned char chip[] = {\n  " + ",\n  ".join(rows) + "\n};\nunsigned int chip_len = %d;\n" % len(data)
            for form in (text, text.replace("\n};", ",\n};")):
                self.gives(0, "why", self.file("chip.h", form), "-o", self.path("new"), "--force", out="accepted, kind")
                self.assertEqual(self.bytes("new"), data)
        self.gives(1, "why", self.file("chip.h", text.replace("0x", "x", 1)), out="likely: a text")

    def test_the_manual_page_and_the_completion_have_every_word(self):
        table = main.parser()
        manual, completion = (self.gives(0, option)[0] for option in ("--man", "--completion"))
        said, _ = self.gives(0, "--help")
        commands = re.search(r"\n  COMMAND\n(.*)", said, re.DOTALL).group(1)
        names = re.findall(r"^    (\w+) ", commands, re.MULTILINE)
        self.assertGreater(len(names), 9)
        for name in names:
            helped, _ = self.gives(0, name, "--help")
            self.assertIn(f".SS {name}\n", manual)
            section = manual.split(f".SS {name}\n")[1].split(".SS ")[0]
            (words,) = re.findall(rf'^ +{name}\) words="(.*)" ;;$', completion, re.MULTILINE)
            for option in set(re.findall(r"--[a-z-]+", helped)) - {"--help"}:
                self.assertIn(option.replace("-", "\\-"), section)
                self.assertIn(option, words.split(" "))
        self.assertEqual(subprocess.run(["bash", "-n"], input=completion, text=True, check=False).returncode, 0)
        script = completion + 'COMP_WORDS=(dartelm set x --level m) COMP_CWORD=4; _dartelm; echo "${COMPREPLY[@]}"\n'
        script += 'COMP_WORDS=(dartelm di) COMP_CWORD=1; _dartelm; echo "${COMPREPLY[@]}"\n'
        script += 'COMP_WORDS=(dartelm make --dr) COMP_CWORD=2; _dartelm; echo "${COMPREPLY[@]}"\n'
        done = subprocess.run(["bash"], input=script, capture_output=True, text=True, check=True)
        self.assertEqual(done.stdout.splitlines(), ["maker", "distance", "--dry-run"])
        self.assertEqual(table.prog, "dartelm")


if __name__ == "__main__":
    support.unittest.main()
