#!/usr/bin/env python3
"""Works out, from the rules alone, what crates/numbers must print, and compares."""
import pathlib
import sys

from rules import A, chosen, judged_values, packed, permitted, scored, table_rows, told, unpacked, zone_rows


def expected():
    data = packed(A)
    assert data.hex(" ") == "13 01 40 19 00 12 00 04 10 02 b0 4a 00 24 00 08 10 02 d0 64 00 48 00 10 10"
    verdict, jobs = unpacked(data)
    yield from ("A", told(verdict), str(len(jobs)))
    yield from (" ".join(map(str, job)) for job in jobs + [(0,) * 5] * 5)
    yield from (told(None), str(len(data)), (data + b"\xee" * 3).hex(), told((11, len(data))), "ee" * 24)

    def score(jobs, *periods):
        verdict, *scores = scored(jobs, periods)
        return told(verdict), *map(str, scores)

    yield "needs"
    yield from score(A, 25, 50, 100)
    yield from score(A, 20, 60, 60)
    yield from score([(7, 7, 1, 0, 1)], 7)
    yield from score([(7, 7, 1, 0, 1)] * 2, 7, 7)
    yield from score([(3600, 3600, 0, 0, 1)], 3600)

    def changed(at, byte):
        return told(unpacked(data[:at] + bytes([byte]) + data[at + 1:])[0])

    yield "bad bytes"
    yield told(unpacked(b"")[0])
    yield from (changed(0, 0x23), changed(0, 0x10), changed(0, 0x19), told(unpacked(data[:24])[0]))
    yield from (changed(3, 0), changed(24, 0), changed(24, 0x11), changed(9, 0xFF))
    yield told(unpacked(b"\x11" + b"\xff" * 8)[0])

    good, bad = (7, 7, 1, 0, 1), (0, 2 ** 32 - 1, 32768, 2 ** 32 - 1, 0)
    yield "bad values"
    yield from (told(judged_values(n, [good] * 8)) for n in (0, 9, 8))
    for job in ((0, 7, 1, 0, 1), (8, 7, 1, 0, 1), (7, 3601, 1, 0, 1), (7, 7, 1, 0, 0), (7, 7, 1, 0, 33), (7, 7, 32768, 0, 1), bad):
        yield told(judged_values(1, [job]))
    yield told(judged_values(1, [good, bad]))

    yield "bad periods"
    for periods in ((19, 60, 60), (25, 75, 75), (25, 51, 100), (25, 50, 0)):
        yield from score(A, *periods)
    yield from score([(0, 7, 1, 0, 1)], 7)

    def spans(*intervals):
        return [(lo, hi, 1, 0, 1) for lo, hi in intervals]

    def choice(jobs, budget):
        verdict, scores, ts = chosen(jobs, budget)
        return told(verdict), " ".join(map(str, (*scores, *ts, *(0,) * (8 - len(ts)))))

    most = 2 ** 32 - 1
    yield "choices"
    for budget in (4175, 4176, 5219, 5220):
        yield from choice(A, budget)
    yield from choice(spans((1, 1), (2, 6), (35, 35)), most)
    yield from choice(spans((1, 1), (2, 4), (35, 35)), most)
    yield from choice(spans((7, 7)), 514)
    yield from choice(spans((7, 7)), 515)
    yield from choice(spans((1801, 3600)), 1)
    yield from choice(spans((1801, 3600)), most)
    yield from choice([(3600, 3600, 0, 0, 1)], 0)

    yield "zones"
    assert len(list(permitted(spans((6, 10), (11, 22), (19, 40))))) == 9
    for jobs in (A, spans((6, 10), (11, 22), (19, 40)), spans((1, 1), (2, 6), (35, 35)), spans((1, 1), (2, 4), (35, 35))):
        rows = zone_rows(jobs)
        yield from (told(None if rows else (9, 0)), str(len(rows) // 16), rows.hex() + "ee" * (81 - len(rows)))
    yield from (told((11, len(zone_rows(A)) // 16)), "ee" * 15)

    yield "tables"
    table = table_rows(A)
    assert table[:16].hex(" ") == "00 00 10 50 01 90 32 06 40 00 00 00 00 00 00 00"

    def built(jobs):
        rows = table_rows(jobs)
        return told(None if rows else (9, 0)), str(len(rows) // 16), rows.hex() + "ee" * (145 - len(rows))

    yield from built(A)
    yield from (told((11, len(table) // 16)), "ee" * 128)
    yield from built(spans((1801, 3600)))
    yield from built(spans((1, 1), (2, 4), (35, 35)))

    yield "lookups"
    for budget in (4175, 4176, 5219, 5220):
        found = [table[i:i + 16] for i in range(0, len(table), 16) if int.from_bytes(table[i:i + 4], "big") <= budget]
        yield from (told(chosen(A, budget)[0]), found[-1].hex() if found else "")


def main():
    stored = (pathlib.Path(__file__).parent.parent / "crates/numbers/stdout").read_text().splitlines()
    right = list(expected())
    for line, (have, want) in enumerate(zip(stored, right), 1):
        if have != want:
            sys.exit(f"crates/numbers/stdout:{line}: {have!r}, where the rules give {want!r}")
    if len(stored) != len(right):
        sys.exit(f"crates/numbers/stdout has {len(stored)} lines, where the rules give {len(right)}")
    print(f"numbers: {len(right)} lines as the rules give them")


main()
