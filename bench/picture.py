"""The ratios of instructions as a picture: a bar for each, to the left of the line at 1 where the library takes fewer."""
import html
import math

LEFT, WIDTH, ROW, TOP, BAR = 290, 520, 24, 64, 8
GCC_AT, CLANG_AT = LEFT + WIDTH + 20, LEFT + WIDTH + 64
LEAST, MOST = 1 / 8, 8
GCC, CLANG = "#1f5f99", "#a9c4dd"


def across(ratio):
    ratio = min(max(ratio, LEAST), MOST)
    return LEFT + WIDTH * math.log(ratio / LEAST) / math.log(MOST / LEAST)


def bar(ratio, y, colour):
    left, right = sorted([across(1), across(ratio)])
    return f'<rect x="{left:.1f}" y="{y}" width="{right - left:.1f}" height="{BAR}" fill="{colour}"/>'


def text(x, y, words, anchor="start", size=12):
    return f'<text x="{x:.1f}" y="{y}" text-anchor="{anchor}" font-size="{size}">{html.escape(words)}</text>'


def row(number, name, beside_gcc, beside_clang):
    y = TOP + ROW * number
    return [
        text(LEFT - 8, y + 13, name, "end"),
        bar(beside_gcc, y + 3, GCC),
        bar(beside_clang, y + 3 + BAR, CLANG),
        text(GCC_AT, y + 13, f"{beside_gcc:.2f}"),
        text(CLANG_AT, y + 13, f"{beside_clang:.2f}"),
    ]


def scale(bottom):
    parts, ratio = [], LEAST
    while ratio <= MOST:
        x, name = across(ratio), f"{ratio:g}" if ratio >= 1 else f"1/{1 / ratio:g}"
        width = 2 if ratio == 1 else 0.5
        parts.append(f'<line x1="{x:.1f}" y1="{TOP - 6}" x2="{x:.1f}" y2="{bottom}" stroke="#555" stroke-width="{width}"/>')
        parts.append(text(x, TOP - 10, name, "middle", 11))
        ratio *= 2
    return parts


def legend():
    return [
        text(8, 18, "Instructions, ours over the model's by gcc (dark) and by clang (light). Left of 1 ours are fewer.", size=13),
        text(GCC_AT, TOP - 10, "gcc", size=11),
        text(CLANG_AT, TOP - 10, "clang", size=11),
    ]


def svg(rows):
    """`rows` has a name and two ratios each."""
    bottom = TOP + ROW * len(rows) + 4
    width = CLANG_AT + 80
    parts = [f'<svg xmlns="http://www.w3.org/2000/svg" width="{width}" height="{bottom + 12}" font-family="sans-serif">']
    parts += ['<rect width="100%" height="100%" fill="white"/>'] + legend() + scale(bottom)
    for number, values in enumerate(rows):
        parts += row(number, *values)
    return "\n".join(parts + ["</svg>", ""])
