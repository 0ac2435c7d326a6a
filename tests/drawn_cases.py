#!/usr/bin/env python3
"""tests/drawn_cases.py REPOSITORY COUNT SEED: draws cases, works them out by the rules, and writes them as crates of REPOSITORY.

A crate drawn_K has a list of up to 300 cases and the claim that each is right. With --off-by-one for COUNT there is one crate,
off_by_one, with two claims for each kind of case: of one as it was drawn, and of the same with an answer that is one too great
somewhere; and two more for each number of the need that a score or a choice tells. The names of the wrong claims are printed.
"""
import collections
import itertools
import math
import pathlib
import random
import re
import sys

from rules import (chosen, judged_values, looked_up, need_of, packed, pages_in, permitted, put, rows_of, scored, table_rows,
                   unpacked, zone_rows)

MOST = 2 ** 32 - 1
LIST = 300

# Values as the text of a case, in the words of crates/cases/specs/Case.antt.

# The refusals 1 to 13, each with its detail.
REFUSALS = ("NoBytes", "Edition", "JobCount", "Length", "(Interval {})", "(Stiffness {})", "(Spare {})", "(Pages {})",
            "NoPeriods", "(below {})", "(Room {})", "(Row {})", "(Periods {})")


def as_list(items):
    return "(" + "".join(f"{item} ∷ " for item in items) + "[])"


def as_jobs(jobs):
    return as_list("job " + " ".join(map(str, job)) for job in jobs)


def as_profile(n, jobs):
    return f"(record {{ n = {n}; jobs = {as_jobs(jobs)} }})"


def as_answer(verdict, answer):
    """The answer, or the refusal in its place."""
    return f"(Err {REFUSALS[verdict[0] - 1].format(verdict[1])})" if verdict else f"({answer})"


def as_count(verdict, count):
    return as_answer(verdict, f"number {count}")


# What is asked about. Permitted lists are few, so that the checker computes every case in a moment.

def one_in(k):
    return random.randrange(k) == 0


def pages():
    return random.choice((0, 1, random.randrange(50), random.randrange(50), random.randrange(32768)))


def sound_job(least, widest):
    lo = random.randint(least, least + widest)
    return lo, min(3600, lo + random.randint(0, widest)), pages(), pages(), random.choice((1, random.randint(1, 32)))


def sound_jobs():
    """One to four jobs or eight, with few permitted lists, seldom with none."""
    while True:
        n = random.choice((1, 2, 2, 3, 3, 3, 4, 4, 8))
        least, widest = (1, 4) if n == 8 else random.choice(((1, 12), (1, 40), (20, 40), (1750, 50), (3550, 50)))
        jobs = [sound_job(least, widest) for _ in range(n)]
        lists = len(list(itertools.islice(permitted(jobs), 41)))
        if 1 <= lists <= 40 or not lists and one_in(8):
            return jobs


def broken_job(lo, hi, d, g, w):
    """A rule of the job broken; the first five of these can be packed."""
    return ((0, hi, d, g, w), (hi + 1, hi, d, g, w), (lo, 3601, d, g, w), (lo, hi, d, g, 0), (lo, hi, d, g, 33),
            (lo, hi, 32768, g, w), (lo, hi, d, 32768, w), (lo, hi, MOST, MOST, w), (lo, MOST, MOST, MOST, MOST))


def with_broken(jobs, kinds):
    k = random.randrange(len(jobs))
    return [*jobs[:k], random.choice(broken_job(*jobs[k])[:kinds]), *jobs[k + 1:]]


def profile():
    """n and eight jobs, those beyond n anything; one in six is refused."""
    jobs = sound_jobs()
    n = len(jobs)
    if one_in(8):
        jobs = with_broken(jobs, 9)
    elif one_in(24):
        n = random.choice((0, 9, MOST))
    return n, jobs + [tuple(random.choice((0, 9, 40000, MOST)) for _ in range(5)) for _ in range(8 - len(jobs))]


def budget_for(n, jobs):
    """Near a need, or any."""
    if judged_values(n, jobs) or one_in(5):
        return random.choice((0, 1, random.randrange(10000), random.randrange(MOST), MOST))
    needs = [math.ceil(need_of(jobs[:n], ts)) for ts in permitted(jobs[:n])] or [0]
    return max(0, random.choice((random.choice(needs), min(needs))) + random.choice((-1, 0, 0, 1)))


def buffer_for(size):
    """Lent bytes, about as many as are needed."""
    size += random.choice((-size, -17, -16, -1, 0, 0, 0, 1, 15, 17))
    return bytes(random.choice((0, 0xEE, 0xFF)) for _ in range(size))


def changed(data, at, byte):
    return data[:at] + bytes([byte]) + data[at + 1:]


TURNS = itertools.cycle(range(12))


def profile_bytes(jobs):
    """In turn: no bytes, another header, edition 2, another length, a spare bit, a broken job; and sound ones."""
    data = packed(jobs)
    last = 8 * random.randint(1, len(jobs))
    return (b"", changed(data, 0, random.randrange(256)), changed(data, 0, data[0] ^ 0x30), data[:-1], data + b"\0",
            changed(data, last, data[last] ^ 1 << random.randrange(4)), packed(with_broken(jobs, 5)), packed(with_broken(jobs, 5)),
            data, data, data, data)[next(TURNS)]


def spoiled_table(table):
    """A table cut short, with another bit, with other starts, with rows swapped, twice, or left out."""
    rows = [table[i:i + 16] for i in range(0, len(table), 16)]
    at, row = random.randrange(len(table)), random.randrange(len(rows))
    start = int.from_bytes(rows[row][:4], "big") + 1
    return random.choice((table[:at], changed(table, at, table[at] ^ 1 << random.randrange(8)), table + rows[row],
                          b"".join(rows[:row] + [start.to_bytes(4, "big") + rows[row][4:]] + rows[row + 1:]),
                          b"".join(random.sample(rows, len(rows))), b"".join(row for row in rows if one_in(2))))


# What the three writers write, before room is asked for: the verdict, the bytes, and the size of a piece that is counted.

def profile_of(n, jobs):
    verdict = judged_values(n, jobs)
    return verdict, b"" if verdict else packed(jobs[:n]), 1


def zones_of(n, jobs):
    return *rows_of(n, jobs, zone_rows), 16


def table_of(n, jobs):
    return *rows_of(n, jobs, table_rows), 16


# The kinds of case. Each gives what is asked, what must come out, and the verdict in it.

def in_any_room(writes):
    n, jobs = profile()
    verdict, data, size = writes(n, jobs)
    return as_profile(n, jobs), f"{as_count(verdict, len(data) // size)} {as_list(data)}", verdict


def in_a_room(writes):
    n, jobs = profile()
    verdict, data, size = writes(n, jobs)
    old = buffer_for(len(data))
    verdict, count, new = put(verdict, data, size, old)
    return f"{as_profile(n, jobs)} {as_list(old)}", f"{as_count(verdict, count)} {as_list(new)}", verdict


def reading():
    data = profile_bytes(sound_jobs())
    verdict, jobs = unpacked(data)
    return as_list(data), as_answer(verdict, f"values {as_jobs(jobs)}"), verdict


def permitting():
    jobs = sound_jobs()
    lists = as_list(as_list(f"seconds {t}" for t in ts) for ts in permitted(jobs))
    return as_profile(len(jobs), jobs), f"sound {lists}", None


def counting():
    """The pages of about the last period, of more than two of them, or of any number of seconds."""
    jobs = next(jobs for jobs in iter(sound_jobs, None) if any(permitted(jobs)))
    periods = random.choice(list(permitted(jobs)))
    last = periods[-1]
    seconds = random.choice((last - 1, last, 2 * last + random.randrange(last), random.randrange(1000)))
    asked = f"{as_profile(len(jobs), jobs)} {as_list(f'seconds {t}' for t in periods)} {seconds}"
    return asked, str(pages_in(jobs, periods, seconds)), None


def scoring():
    n, jobs = profile()
    verdict, whole, remainder, loss = judged_values(n, jobs), 0, 0, 0
    lists = [] if verdict else list(permitted(jobs[:n]))
    periods = [*random.choice(lists or [()]), *(random.choice((1, 7, 4000000000)) for _ in range(8))][:8]
    if one_in(3):
        periods[random.randrange(min(n, 8) or 1)] += random.choice((-1, 1, 60))
    if not verdict:
        verdict, whole, remainder, loss = scored(jobs[:n], periods)
    asked = f"{as_profile(n, jobs)} {as_list(f'seconds {t}' for t in periods)}"
    return asked, as_answer(verdict, f"scored {whole} {remainder} {loss}"), verdict


def choosing():
    n, jobs = profile()
    budget = budget_for(n, jobs)
    verdict, (whole, remainder, loss), ts = judged_values(n, jobs), (0, 0, 0), ()
    if not verdict:
        verdict, (whole, remainder, loss), ts = chosen(jobs[:n], budget)
    plan = f"plan {whole} {remainder} {loss} {as_list(ts)}"
    return f"{as_profile(n, jobs)} {budget}", as_answer(verdict, plan), verdict


def looking_up():
    n, jobs = profile()
    _, data, _ = table_of(n, jobs)
    if data and one_in(2):
        data = spoiled_table(data)
    budget = budget_for(n, jobs)
    verdict, row = looked_up(n, jobs, data, budget)
    part = data[16 * row - 16:16 * row] if row else b""
    return f"{as_profile(n, jobs)} {as_list(data)} {budget}", f"{as_count(verdict, row)} {as_list(part)}", verdict


KINDS = {
    "reading": reading,
    "writing": lambda: in_any_room(profile_of),
    "writing_in": lambda: in_a_room(profile_of),
    "permitting": permitting,
    "counting": counting,
    "scoring": scoring,
    "choosing": choosing,
    "listing": lambda: in_any_room(zones_of),
    "listing_in": lambda: in_a_room(zones_of),
    "building": lambda: in_any_room(table_of),
    "building_in": lambda: in_a_room(table_of),
    "looking_up": looking_up,
}
Case = collections.namedtuple("Case", "kind asked answer verdict")


def drawn():
    """Cases without end, the kinds in turn."""
    for kind in itertools.cycle(KINDS):
        yield Case(kind, *KINDS[kind]())


# What is put off by one, as a kind of case, a place in its answer and whether that must be sound: what comes first in any answer of
# each kind, and the two numbers of a need.
OFF = {kind: (kind, 0, False) for kind in KINDS}
for kind in ("scoring", "choosing"):
    OFF |= {f"{kind}_whole": (kind, 0, True), f"{kind}_remainder": (kind, 1, True)}


def off_by_one(case, place):
    """The case with the number at this place of its answer, from 0, one greater; as it is where the answer has fewer."""
    places = itertools.count()
    return case._replace(answer=re.sub(r"\b\d+\b", lambda number: str(int(number[0]) + (next(places) == place)), case.answer))


# Crates that claim cases to be right.

MODULE = f"""-- Cases that were drawn, with what tests/rules.py gives for them. Assumes nothing.
use mathlib.Core.Path.{{refl}}
use mathlib.Core.List.{{List, [], ◌∷◌, Memᴰ}}
use Rattle.std.specs.Prelude.{{Err}}
use Rattle.model.specs.declared.Refusal.TheVariants.{{{", ".join(r.strip("(){} ") for r in REFUSALS if "below" not in r)}}}
use Rattle.model.specs.Model.{{sound, seconds}}
use Rattle.cases.specs.Case.{{Case, Right, {", ".join(KINDS)}, job, values, plan, scored, below, number}}
use Rattle.cases.proofs.Worked.{{Computed, all_right}}
"""
CLAIM = """
unfoldable pub {name} : List Case
{name} =
    {cases}
    ∷ []

{name}_computed : Computed {name}
unfolding {name} Computed
{name}_computed = refl

pub {name}_right : (c : Case) → Memᴰ c {name} → Right c
{name}_right = all_right {name} {name}_computed
"""


def write_crate(repository, name, claims):
    """A crate with a claim for each name and list of cases."""
    crate = repository / "crates" / name
    (crate / "src").mkdir(parents=True)
    (crate / "proofs").mkdir()
    (crate / "src/lib.rt").write_text("// Cases that were drawn. There is no code here.\n#![tactic(auto)]\n")
    (crate / "proofs/Lib.antt").write_text("pub mod Drawn\n")
    text = MODULE
    for claim, cases in claims:
        text += CLAIM.format(name=claim, cases="\n    ∷ ".join(f"{case.kind} {case.asked} {case.answer}" for case in cases))
    (crate / "proofs/Drawn.antt").write_text(text)
    with open(repository / "crates.txt", "a") as crates:
        crates.write(f"{name}: model cases\n")


def main():
    repository, count, seed = sys.argv[1:]
    repository = pathlib.Path(repository)
    random.seed(seed)
    if count == "--off-by-one":
        claims = []
        for name, (kind, place, sound) in OFF.items():
            cases = (case for case in drawn() if case.kind == kind and not (sound and case.verdict))
            case = next(case for case in cases if off_by_one(case, place) != case)
            claims += [(f"{name}_drawn", [case]), (f"{name}_off", [off_by_one(case, place)])]
            print(f"{name}_off")
        write_crate(repository, "off_by_one", claims)
        return
    cases = list(itertools.islice(drawn(), int(count)))
    for first in range(0, len(cases), LIST):
        write_crate(repository, f"drawn_{first // LIST + 1}", [("drawn", cases[first:first + LIST])])
    kinds = collections.Counter(case.kind for case in cases)
    refusals = collections.Counter(case.verdict[0] for case in cases if case.verdict)
    if len(cases) >= LIST and len(refusals) < 13:
        sys.exit(f"statement: not every refusal occurs among {len(cases)} cases of seed {seed}: {sorted(refusals)}")
    print(f"statement: {len(cases)} cases proved (" + ", ".join(f"{kinds[kind]} {kind}" for kind in KINDS) + ")")
    print(f"statement: {len(cases) - sum(refusals.values())} sound, " + ", ".join(f"{refusals[k]} times {k}" for k in sorted(refusals)))


main()
