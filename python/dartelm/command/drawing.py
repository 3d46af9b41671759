"""A line drawn in text."""

ROWS = 9
COLUMNS = 61


def row_of(y, low, high):
    return 0 if high == low else round((high - y) * (ROWS - 1) / (high - low))


def text_curve(places, label):
    """Places (x from 0 to 1, y) in nine rows, with what y is at the top, at nought and at the bottom, and the span below."""
    low = min(0, *(y for _, y in places))
    high = max(0, *(y for _, y in places))
    grid = [[" "] * COLUMNS for _ in range(ROWS)]
    zero = row_of(0, low, high)
    grid[zero] = ["-"] * COLUMNS
    for x, y in places:
        grid[row_of(y, low, high)][min(COLUMNS - 1, max(0, round(x * (COLUMNS - 1))))] = "*"
    labels = {row_of(y, low, high): label(y) for y in (low, high)}
    labels[zero] = label(0)
    width = max(len(text) for text in labels.values())
    lines = [f"{labels.get(row, ''):>{width}} |{''.join(cells).rstrip()}" for row, cells in enumerate(grid)]
    foot = "0 %" + "50 %".center(COLUMNS - 7) + "100 %"
    return lines + [" " * (width + 2) + foot + " of the span"]
