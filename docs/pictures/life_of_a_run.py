"""Draws docs/pictures/life-of-a-run.svg from the numbered steps of docs/design/life-of-a-run.md: python3 docs/pictures/life_of_a_run.py

A lane is a crate, with the program at the top, as crates.txt has them from the bottom up. A circle is a step, from left to right, with
the first function that it names.
"""
import os
import re

ROOT = os.path.normpath(os.path.join(os.path.dirname(os.path.abspath(__file__)), "..", ".."))
PAGE = os.path.join(ROOT, "docs", "design", "life-of-a-run.md")
PICTURE = os.path.join(ROOT, "docs", "pictures", "life-of-a-run.svg")
LEFT, TOP, STEP, LANE = 130, 30, 42, 40


def steps():
    """The steps of the page: its crate and the names that it has in backquotes."""
    with open(PAGE, encoding="utf-8") as file:
        found = re.findall(r"(?m)^(\d+)\. `(\w+)`: (.*)$", file.read())
    if [int(number) for number, _, _ in found] != list(range(1, len(found) + 1)):
        raise SystemExit(f"{PAGE}: the steps aren't numbered from 1 on")
    return [(crate, re.findall(r"`([^`]+)`", text)) for _, crate, text in found]


def lanes(crates):
    """The crates of the steps, the highest first."""
    with open(os.path.join(ROOT, "crates.txt"), encoding="utf-8") as file:
        listed = [re.split(r"[\s:]", line)[0] for line in file if line.strip() and not line.startswith("#")]
    return [crate for crate in reversed(listed) if crate in crates]


def drawn():
    """The picture's text."""
    walk = steps()
    rows = lanes({crate for crate, _ in walk})
    places = [(LEFT + STEP * (at + 1), TOP + LANE * rows.index(crate) + LANE // 2) for at, (crate, _) in enumerate(walk)]
    width, height = LEFT + STEP * (len(walk) + 2), TOP + LANE * len(rows) + 10
    out = [f'<svg xmlns="http://www.w3.org/2000/svg" viewBox="0 0 {width} {height}" font-family="sans-serif" font-size="11">']
    out.append(f'<rect width="{width}" height="{height}" fill="#ffffff"/>')
    for row, crate in enumerate(rows):
        y = TOP + LANE * row + LANE // 2
        out.append(f'<line x1="{LEFT}" y1="{y}" x2="{width - 10}" y2="{y}" stroke="#dddddd"/>')
        out.append(f'<text x="{LEFT - 8}" y="{y + 4}" text-anchor="end">{crate}</text>')
    out.append(f'<polyline points="{" ".join(f"{x},{y}" for x, y in places)}" fill="none" stroke="#0b6e4f" stroke-width="2"/>')
    for at, ((_, names), (x, y)) in enumerate(zip(walk, places), 1):
        out.append(f'<circle cx="{x}" cy="{y}" r="9" fill="#ffffff" stroke="#0b6e4f" stroke-width="2"/>')
        out.append(f'<text x="{x}" y="{y + 4}" text-anchor="middle" font-size="10">{at}</text>')
        name = names[0].split("::")[-1]
        label = f'<text x="{x}" y="{y - 12}" text-anchor="middle" font-size="9"'
        out.append(f'{label} stroke="#ffffff" stroke-width="3" stroke-linejoin="round">{name}</text>')
        out.append(f'{label} fill="#333333">{name}</text>')
    return "\n".join([*out, "</svg>", ""])


if __name__ == "__main__":
    with open(PICTURE, "w", encoding="utf-8") as picture:
        picture.write(drawn())
