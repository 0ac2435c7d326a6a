"""Document 01's rules, with the need of tickets 3 and 4, a second time: exact fractions, strings of bits, plain enumeration.

They share nothing with the crates, so that what is stored as right is no copy of what a program happened to write.
"""
from fractions import Fraction
from math import ceil, floor

# lo, hi, data, metadata, stiffness, spare.
WIDTHS = (12, 12, 15, 15, 6, 4)
A = [(20, 25, 9, 1, 1), (43, 74, 18, 2, 1), (45, 100, 36, 4, 1)]


def packed(jobs, edition=1):
    bits = f"{edition:04b}{len(jobs):04b}"
    for job in jobs:
        bits += "".join(f"{field:0{width}b}" for field, width in zip((*job, 0), WIDTHS))
    return bytes(int(bits[i:i + 8], 2) for i in range(0, len(bits), 8))


def judged_job(job, number, values=True, spare=0):
    lo, hi, d, g, w = job
    if lo == 0 or hi < lo or hi > 3600:
        return (5, number)
    if not 1 <= w <= 32:
        return (6, number)
    if values:
        return (8, number) if max(d, g) > 32767 else None
    return (7, number) if spare else None


def judged_values(n, jobs):
    if not 1 <= n <= 8:
        return (3, 0)
    return next((v for k in range(n) if (v := judged_job(jobs[k], k + 1))), None)


def unpacked(data):
    """The verdict and the jobs of a profile's bytes."""
    if not data:
        return (1, 0), []
    bits = "".join(f"{byte:08b}" for byte in data)
    n = int(bits[4:8], 2)
    if int(bits[:4], 2) != 1:
        return (2, 0), []
    if not 1 <= n <= 8:
        return (3, 0), []
    if len(data) != 1 + 8 * n:
        return (4, 0), []
    jobs, at = [], 8
    for k in range(n):
        fields = []
        for width in WIDTHS:
            fields.append(int(bits[at:at + width], 2))
            at += width
        verdict = judged_job(fields[:5], k + 1, False, fields[5])
        if verdict:
            return verdict, []
        jobs.append(tuple(fields[:5]))
    return None, jobs


def pages_in(jobs, periods, seconds):
    """What the drive writes in so many seconds after second 0, at which all jobs start together: the data of every run, and at each
    second on which jobs fall metadata once, as much as the largest of theirs.
    """
    data, metadata = 0, [0] * (seconds + 1)
    for (_, _, d, g, _), t in zip(jobs, periods):
        for second in range(t, seconds + 1, t):
            data += d
            metadata[second] = max(metadata[second], g)
    return data + sum(metadata)


def need_of(jobs, periods):
    """Exact pages per hour. What meets a budget, settles a tie or starts a row is rounded up."""
    last = periods[len(jobs) - 1]
    return Fraction(3600 * pages_in(jobs, periods, last), last)


def loss_of(jobs, periods):
    return sum(w * (3600 * (d + g) // lo - 3600 * (d + g) // t) ** 2 for (lo, _, d, g, w), t in zip(jobs, periods))


def scored(jobs, periods):
    """The verdict, the need's whole pages and its remainder over the last period, and the loss."""
    verdict = judged_values(len(jobs), jobs)
    if verdict:
        return verdict, 0, 0, 0
    before = 1
    for k, (job, t) in enumerate(zip(jobs, periods)):
        if not job[0] <= t <= job[1] or t % before:
            return (13, k + 1), 0, 0, 0
        before = t
    need = need_of(jobs, periods)
    whole = floor(need)
    return None, whole, int((need - whole) * before), loss_of(jobs, periods)


def permitted(jobs, before=1):
    """All permitted lists, in the order of the lists."""
    if not jobs:
        yield ()
        return
    for t in range(jobs[0][0], jobs[0][1] + 1):
        if t % before == 0:
            yield from ((t, *rest) for rest in permitted(jobs[1:], t))


def plans(jobs):
    """All permitted lists behind their losses and needs, rounded up, the best first."""
    return sorted((loss_of(jobs, ts), ceil(need_of(jobs, ts)), ts) for ts in permitted(jobs))


def chosen(jobs, budget):
    """The verdict, the score of the best periods, and these."""
    every = plans(jobs)
    if not every:
        return (9, 0), (0, 0, 0), ()
    fitting = [plan for plan in every if plan[1] <= budget]
    if not fitting:
        return (10, min(need for _, need, _ in every)), (0, 0, 0), ()
    ts = fitting[0][2]
    return None, scored(jobs, ts)[1:], ts


def zone_rows(jobs):
    """The rows of the zones: permitted lists grouped by their multipliers."""
    zones = {}
    for ts in permitted(jobs):
        zones.setdefault(tuple(t // ts[0] for t in ts), []).append(ts[0])
    rows = b""
    for multipliers, firsts in sorted(zones.items()):
        assert firsts == list(range(firsts[0], firsts[-1] + 1))
        fields = (firsts[0], firsts[-1], *multipliers[1:], *(0,) * (8 - len(multipliers)))
        rows += int("".join(f"{field:012b}" for field in fields) + "0" * 20, 2).to_bytes(16, "big")
    return rows


def ladder(jobs):
    """The need, rounded up, the loss and the periods of each different answer, in rising need."""
    rows = []
    for loss, need, ts in plans(jobs):
        if not rows or need < rows[-1][0]:
            rows.append((need, loss, ts))
    return rows[::-1]


def table_rows(jobs):
    """The rows of the table."""
    fields = (f"{need:032b}" + "".join(f"{t:012b}" for t in (*ts, *(0,) * (8 - len(ts)))) for need, _, ts in ladder(jobs))
    return b"".join(int(bits, 2).to_bytes(16, "big") for bits in fields)


def rows_of(n, jobs, rows):
    """The verdict and the rows of a profile's zones or table, before room is asked for."""
    verdict = judged_values(n, jobs)
    data = b"" if verdict else rows(jobs[:n])
    return verdict or (None if data else (9, 0)), data


def put(verdict, data, size, old):
    """The verdict, the count and the buffer when data, in pieces of `size` bytes, go into a lent one."""
    count = len(data) // size
    if not verdict and len(old) // size < count:
        verdict = (11, count)
    return (verdict, 0, old) if verdict else (None, count, data + old[len(data):])


def looked_up(n, jobs, table, budget):
    """The verdict, and the number from 1 of the row that answers."""
    verdict = judged_values(n, jobs)
    if verdict:
        return verdict, 0
    if not table or len(table) % 16:
        return (12, 0), 0
    rows = []
    for number in range(1, len(table) // 16 + 1):
        bits = "".join(f"{byte:08b}" for byte in table[16 * number - 16:16 * number])
        start, periods = int(bits[:32], 2), [int(bits[at:at + 12], 2) for at in range(32, 128, 12)]
        refusal, _, _, loss = scored(jobs[:n], periods)
        sound = not refusal and not any(periods[n:]) and start == ceil(need_of(jobs[:n], periods))
        if not sound or rows and not (start > rows[-1][0] and loss < rows[-1][1]):
            return (12, number), 0
        rows.append((start, loss))
    if budget < rows[0][0]:
        return (10, rows[0][0]), 0
    return None, max(number for number, (start, _) in enumerate(rows, 1) if start <= budget)


def listing(data, most=4096):
    """The ladder program's text for a profile's bytes."""
    verdict, jobs = unpacked(data)
    rows = ladder(jobs) if not verdict else []
    if not verdict and not rows:
        verdict = (9, 0)
    if not verdict and len(rows) > most:
        verdict = (11, len(rows))
    if verdict:
        return told(verdict) + "\n"
    lines = [f"jobs {len(jobs)} rows {len(rows)}", *(" ".join(map(str, (need, loss, *ts))) for need, loss, ts in rows)]
    return "\n".join(lines) + "\n"


def told(verdict):
    return "refused {} {}".format(*verdict) if verdict else "sound"
