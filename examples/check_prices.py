#!/usr/bin/env python3
"""Checks the prices of a certificate against a list of payloads: check_prices.py CERTIFICATE PAYLOADS.

Each line of PAYLOADS is a permitted payload: V W full BYTES, or V W diff BYTES.
"""

import sys


def wrong_rows(rows, target, payloads):
    """The rows that break a rule, each with its release and the rule, from the highest release."""
    order = {release: index for index, release in enumerate(rows)}
    price = {release: None if row[0] == "none" else int(row[0]) for release, row in rows.items()}
    for release, row in reversed(rows.items()):
        out = [p for p in payloads if p[0] == release and price[p[1]] is not None]
        sums = {(order[to], kind == "diff"): size + price[to] for _, to, kind, size in out}
        named = (order[row[2]], row[1] == "diff") if len(row) == 3 else None
        if (row[-1] == "end") != (release == target):
            yield release, "C1"
        elif sums and (price[release] is None or price[release] > min(sums.values())):
            yield release, "C2"
        elif named and sums.get(named) != price[release]:
            yield release, "C3"
        elif named and named != max(key for key in sums if sums[key] == price[release]):
            yield release, "C4"


def main(certificate, payloads):
    lines = [line.split(" ") for line in open(certificate).read().splitlines()]
    rows = {line[0]: line[1:] for line in lines[7:]}
    edges = [(v, w, kind, int(size)) for v, w, kind, size in map(str.split, open(payloads))]
    wrong = next(wrong_rows(rows, lines[5][1], edges), None)
    print("wrong " + " ".join(wrong) if wrong else "certified")


main(*sys.argv[1:])
