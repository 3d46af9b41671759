"""The bench command: what a person asks of the proved calls, in plain words and units (docs/BENCH.md).

Every figure comes from the package's calls. What is worked out here stands in docs/BENCH.md, "What it works out itself".
"""
