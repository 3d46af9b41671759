"""The command `dartelm` of an installed package: docs/BENCH.md. In the repository it is bin/dartelm."""
import sys

from .command import main as command


def main() -> int:
    return command.main(sys.argv[1:])


if __name__ == "__main__":
    sys.exit(main())
