#!/usr/bin/env python3
"""A log of 100,000 requests: the path of each, and how many milliseconds it took."""
import random
import sys

LINES, BOUND = 100_000, 4_000_000
PATHS = ["/", "/index.html", "/login", "/search", "/api/orders", "/api/items", "/img/logo.png", "/robots.txt"]


def requests():
    draw = random.Random(11)
    for _ in range(LINES):
        yield draw.choice(PATHS) if draw.random() < 0.9 else f"/items/{draw.randrange(500)}", int(draw.expovariate(1 / 80))


def figures(values):
    return f"count {len(values)}, sum {sum(values)}, least {min(values)}, greatest {max(values)}"


def print_report(groups):
    for group, values in groups.items():
        print(f"{group}: {figures(values)}")
    print(f"total: groups {len(groups)}, {figures([value for values in groups.values() for value in values])}")


def main():
    if sys.argv[1:] == ["in"]:
        print(f"bound {BOUND // 10}")
        for path, milliseconds in requests():
            print(path, milliseconds)
        return
    groups = {}
    for path, milliseconds in requests():
        groups.setdefault(path, []).append(milliseconds)
    print_report(groups)
    print()
    print_report({group: values for group, values in groups.items() if sum(values) >= BOUND // 10})


main()
