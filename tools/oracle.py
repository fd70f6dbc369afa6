#!/usr/bin/env python3
"""An independent reading of docs/RULES.md, used to make test texts with their expected answers.

    tools/oracle.py limits DIR         a job text on both sides of every limit, and what `bench judge` answers
    tools/oracle.py random DIR N       N random web joints, and what `bench choose` answers
    tools/oracle.py ranges DIR         each number of a card at the ends of its range, as the program `ranges` has it
    tools/oracle.py limits_next DIR    as limits, with heels and splices, and what `bench_next judge` answers
    tools/oracle.py random_next DIR N  N random joints over a list under layers, and what `bench_next choose` answers
    tools/oracle.py whys DIR           random joints over a coil under layers, and what `bench_next explain` answers

Each writes DIR/stdout and, where there is a text, DIR/stdin. It shares no code with the engine and computes the
sines with the C library's, so that the two can only agree by both being right.
"""
import math
import random
import sys
from copy import deepcopy
from fractions import Fraction

SINE = [int(10000 * math.sin(math.radians(a)) ** 2 + 0.5) for a in range(91)]
DEPTHS = [64, 89, 114, 140, 184, 235, 286]
BITE = {64: (38, 45, 51, 57), 89: (38, 45, 51, 57), 114: (38, 45, 51, 57), 140: (38, 51, 57, 64),
        184: (51, 57, 64, 76), 235: (64, 70, 76, 83), 286: (76, 76, 83, 89)}
KD = {"permanent": 65, "standard": 100, "short": 115}
KSF = {"dry": 100, "unseasoned": 80, "wet": 67}
WORDS = {"A": "the sheet does not allow the turning", "B": "the family has no card",
         "C": "the teeth are too long for the wood", "D": "the bite", "E": "the bite across the grain",
         "F": "the resistance of the teeth", "G": "the steel in tension", "H": "the steel in shear",
         "I": "the slip of the teeth", "J": "the extent of the splice plate",
         "K": "the moment in the steel of the splice"}
GROUNDS = {1: "a number of the sheet lies outside its range",
           2: "the members run past the list, or number none or over six",
           (3, "member"): "a number of the member lies outside its range",
           (3, "family"): "a number of the card lies outside its range",
           4: "the field of the member is empty",
           8: "nothing fits, no plate of the list passes in either turning"}
# what `bench_next` says in place of these
FULLER = {2: "the members run past the list, or number none, over six, or in a splice not two",
          8: "nothing fits, no plate shown passes in either turning"}


class Refused(Exception):
    pass


def within(low, n, high):
    return low <= n <= high


def card_right(c):
    return (all(within(10, v, 20000) for v in c["teeth"] + c["slip"])
            and all(within(1, v, 2000) for v in c["tension"] + c["shear"]) and within(1, c["tooth"], 40))


def member_right(m):
    return (all(within(0, m[k], 200000) for k in ("normal", "parallel", "specified", "cross"))
            and within(0, m["theta"], 90) and within(0, m["rho"], 90) and within(0, m["sigma"], 179)
            and m["depth"] in DEPTHS and all(within(-1000, v, 1000) for v in m["field"]))


def stand(job, sheet):
    right = within(1, sheet["truss"], 30500)
    if "slope" in sheet:
        right = right and all(within(1, v, 10000) for v in sheet["slope"])
    if "moment" in sheet:
        right = right and sheet["moment"] <= 20000000 and within(1, sheet["wood"], 400)
    if not right:
        raise Refused(1, "sheet", 0)
    first, count = sheet["members"]
    few = count == 2 if "moment" in sheet else within(1, count, 6)
    if not few or first + count > len(job["members"]):
        raise Refused(2, "sheet", 0)
    own = range(first, first + count)
    for i in own:
        if not member_right(job["members"][i]):
            raise Refused(3, "member", i)
    for i, c in enumerate(job["cards"][:16]):
        if not card_right(c):
            raise Refused(3, "family", i)
    for i in own:
        x0, x1, y0, y1 = job["members"][i]["field"]
        if x0 >= x1 or y0 >= y1:
            raise Refused(4, "member", i)
    return [job["members"][i] for i in own]


def grain(p, q, theta):
    return p * q * 10000 // (p * SINE[theta] + q * (10000 - SINE[theta]))


def lateral(values, theta, rho):
    p, q, pt, qt = values
    return (grain(p, q, theta) * (90 - rho) + grain(pt, qt, theta) * rho) // 90


def side(low, high, e):
    return max(0, min(2 * high, e) - max(2 * low, -e)) // 2


def setback(mark, tooth):
    return {"plain": 0, "edge": max(6, math.ceil(tooth / 4)), "end": max(12, math.ceil(tooth / 2))}[mark]


def heel_factor(sheet):
    rise, run = sheet["slope"]
    slope = Fraction(rise, run)
    if sheet.get("rule", "table") == "formula":
        return max(65, min(85, 95 - math.ceil(60 * slope)))
    for limit, factor in ((Fraction(1, 4), 85), (Fraction(1, 3), 80), (Fraction(5, 12), 75)):
        if slope < limit:
            return factor
    return 70 if slope <= Fraction(5, 11) else 65


def verdict(job, sheet, own, plate, turned):
    factor = heel_factor(sheet) if "slope" in sheet else 100
    w, l, family = plate
    if sheet["turnings"] == ("unturned" if turned else "turned"):
        return "A", 0
    if family >= len(job["cards"]):
        return "B", 0
    card = job["cards"][family]
    if 2 * card["tooth"] > 38:
        return "C", 0
    ex, ey = (w, l) if turned else (l, w)

    def full(m, axis):
        x0, x1, y0, y1 = m["field"]
        return side(x0, x1, ex) if axis == "x" else side(y0, y1, ey)

    def area(m):
        if sheet["area"] == "gross":
            return full(m, "x") * full(m, "y")
        x0, x1, y0, y1 = m["field"]
        a, b, c, d = (setback(k, card["tooth"]) for k in m["marks"])
        return side(x0 + a, x1 - b, ex) * side(y0 + c, y1 - d, ey)

    def angle(m):
        return 90 - m["rho"] if turned else m["rho"]

    def bite(m):
        column = sum(sheet["truss"] > limit for limit in (12500, 18300, 24400))
        return BITE[m["depth"]][column] <= min(full(m, "x"), full(m, "y"))

    def cross(m):
        a = full(m, "y" if m["grain"] == "x" else "x")
        k = 41 if m["species"] == "spruce" else 55
        return m["cross"] <= 2500 or k * a >= m["cross"] - 2500 or 4 * a >= 3 * m["depth"]

    def grip(m):
        values = [v * 80 // 100 for v in card["teeth"]] if sheet["area"] == "gross" else card["teeth"]
        nr = lateral(values, m["theta"], angle(m)) * 90 * KD[sheet["duration"]] * KSF[sheet["service"]] * factor // 10 ** 8
        cap = nr * area(m) // 1000
        k = 4 if m["force"] == "tension" else 1
        return 4 * m["parallel"] ** 2 + k * m["normal"] ** 2 <= 4 * cap ** 2

    def tension(m):
        if m["force"] == "compression":
            return True
        t = (card["tension"][0] * (90 - angle(m)) + card["tension"][1] * angle(m)) // 90
        return m["normal"] <= 60 * t * full(m, m["interface"]) // 100

    def shear(m):
        s = (m["sigma"] + 90) % 180 if turned else m["sigma"]
        low, r = divmod(s, 30)
        v = (card["shear"][low] * (30 - r) + card["shear"][(low + 1) % 6] * r) // 30
        return m["parallel"] <= 60 * v * full(m, m["interface"]) // 100

    def slip(m):
        ns = lateral(card["slip"], m["theta"], angle(m))
        return m["specified"] <= ns * KSF[sheet["service"]] * area(m) // 100000

    for letter, test in zip("DEFGHI", (bite, cross, grip, tension, shear, slip)):
        for i, m in enumerate(own):
            if not test(m):
                return letter, i + 1
    if "moment" in sheet:
        m, b, c = own[0], 38, sheet["wood"]
        across = "y" if m["grain"] == "x" else "x"
        if 100 * (ex if across == "x" else ey) < 65 * m["depth"]:
            return "J", 0
        w, d = full(m, across), m["depth"]
        t = (card["tension"][0] * (90 - angle(m)) + card["tension"][1] * angle(m)) // 90
        pull = m["normal"] if m["force"] == "tension" else 0
        y = math.floor(Fraction(100 * (b * d * c + 74 * pull - 20 * w * t), 40 * t + 2 * b * c))
        held = 270 * t * (50 * w + y) ** 2 + 18 * b * c * (50 * d - y) ** 2 - 10 ** 5 * pull * y
        if sheet["moment"] != 0 and not (-50 * w <= y <= 50 * w and 10 ** 7 * sheet["moment"] <= held):
            return "K", 0
    return None


def exists(row):
    return within(20, row[0], 300) and within(20, row[1], 1000) and within(0, row[2], 15)


def pile(job):
    """What is shown at each place."""
    if "coil" in job:
        coil = job["coil"]
        rows = [[w, coil["first"] + i * coil["step"], coil["family"]] for w in coil["widths"] for i in range(min(64, coil["steps"]))]
    else:
        rows = job["rows"]
    shown = [r if exists(r) else None for r in rows]
    for name, layer in job.get("layers", ()):
        for place, r in enumerate(shown):
            if name == "strike" and place in layer["places"]:
                shown[place] = None
            if name == "press" and r and (r[0] > layer["width"] or r[1] > layer["length"]):
                shown[place] = None
    return shown


def choose(job, sheet):
    own = stand(job, sheet)
    best = None
    for place, row in enumerate(pile(job)):
        if row is None:
            continue
        for turned in (False, True):
            if verdict(job, sheet, own, row, turned) is None:
                key = (row[0] * row[1], place, turned)
                best = min(best, key) if best else key
    if best is None:
        raise Refused(8, "sheet", 0)
    return best


def refusal(job, number, e):
    n, thing, position = e.args
    grounds = {**GROUNDS, **FULLER} if job["fuller"] else GROUNDS
    words = grounds[(3, thing)] if n == 3 else grounds[n]
    return f"sheet {number} refused {n} {thing} {position}: {words}"


def judge_line(job, number, sheet):
    try:
        own = stand(job, sheet)
    except Refused as e:
        return refusal(job, number, e)
    *plate, turning = sheet["try"]
    missed = verdict(job, sheet, own, plate, turning == "turned")
    if missed is None:
        return f"sheet {number} passes"
    return f"sheet {number} misses {missed[0]} member {missed[1]}: {WORDS[missed[0]]}"


def choose_line(job, number, sheet):
    try:
        area, place, turned = choose(job, sheet)
    except Refused as e:
        return refusal(job, number, e)
    w, l, family = pile(job)[place]
    turning = "turned" if turned else "unturned"
    return f"sheet {number} place {place} {turning} {w} x {l} family {family} area {area} asked {len(pile(job))}"


def explain_lines(job, number, sheet):
    try:
        own = stand(job, sheet)
    except Refused as e:
        return [refusal(job, number, e)]
    lines, counts = [], dict.fromkeys("ABCDEFGHIJK", 0)
    for place, row in enumerate(pile(job)):
        for turned in (False, True) if row else ():
            missed = verdict(job, sheet, own, row, turned)
            turning = "turned" if turned else "unturned"
            told = f"misses {missed[0]} member {missed[1]}: {WORDS[missed[0]]}" if missed else "passes"
            lines.append(f"sheet {number} place {place} {turning} {row[0]} x {row[1]} family {row[2]} {told}")
            if missed:
                counts[missed[0]] += 1
    stopped = " ".join(f"{k} {v}" for k, v in counts.items())
    return lines + [f"sheet {number} stopped {stopped} passed {len(lines) - sum(counts.values())}"]


def block(name, values):
    lines = [name]
    for k, v in values.items():
        if k not in ("note", "kind"):
            lines.append("  " + k + " " + " ".join(map(str, v if isinstance(v, (list, tuple)) else [v])))
    return lines


def text(job):
    lines = ["# made by tools/oracle.py"]
    for c in job["cards"]:
        lines += block("card", c)
    for m in job["members"]:
        lines += block("member", m)
    for s in job["sheets"]:
        if "note" in s:
            lines.append("# " + s["note"])
        lines += block(s.get("kind", "web"), s)
    if "coil" in job:
        lines += block("coil", job["coil"])
    if job["rows"]:
        lines.append("list")
        lines += ["  plate " + " ".join(map(str, r)) for r in job["rows"]]
    for name, layer in job.get("layers", ()):
        lines += block(name, layer)
    return "\n".join(lines) + "\n"


CARD = {"teeth": [2000, 1500, 1800, 1400], "slip": [1000, 800, 900, 700], "tension": [200, 150],
        "shear": [100, 110, 120, 130, 120, 110], "tooth": 9}
MEMBER = {"force": "tension", "normal": 0, "parallel": 0, "specified": 0, "cross": 0, "theta": 30, "rho": 45,
          "sigma": 0, "depth": 140, "species": "spruce", "grain": "x", "interface": "x",
          "field": [-100, 100, -100, 100], "marks": ["plain"] * 4}
SHEET = {"members": [0, 1], "truss": 12000, "duration": "standard", "service": "dry", "area": "gross",
         "turnings": "either", "try": [200, 200, 0, "unturned"]}


def limits(fuller):
    """Joints that differ in one number, on both sides of each limit."""
    job = {"cards": [], "members": [], "sheets": [], "rows": [], "fuller": fuller}
    for tooth in (9, 19, 20, 40, 1):
        job["cards"].append({**deepcopy(CARD), "tooth": tooth})
    job["cards"].append({"teeth": [10] * 4, "slip": [20000] * 4, "tension": [1, 2000], "shear": [2000, 1, 1, 1, 1, 1], "tooth": 1})

    def case(note, member=None, sheet=None, more=()):
        m = {**deepcopy(MEMBER), **(member or {})}
        first = len(job["members"])
        job["members"] += [m] + [{**deepcopy(MEMBER), **x} for x in more]
        s = {**deepcopy(SHEET), **(sheet or {})}
        if "members" not in (sheet or {}):
            s["members"] = [first, 1 + len(more)]
        job["sheets"].append({**s, "note": note})

    def both(note, make, low, high):
        case(note + ", inside", *make(low))
        case(note + ", outside", *make(high))

    def wide(n):
        return [-n, n, -n, n]

    for d in DEPTHS:
        for column, truss in enumerate((12500, 18300, 24400, 30500)):
            b = BITE[d][column]
            both(f"bite {b} at depth {d}, truss {truss}",
                 lambda v, d=d, truss=truss: ({"depth": d, "field": [0, v, -100, 100]}, {"truss": truss}), b, b - 1)
            case(f"bite up at depth {d}, truss {truss}", {"depth": d, "field": [-100, 100, 0, b - 1]}, {"truss": truss})
    for truss in (12500, 18300, 24400):
        for d in DEPTHS:
            b = BITE[d][(12500, 18300, 24400).index(truss)]
            case(f"truss {truss + 1} at depth {d}", {"depth": d, "field": [0, b, -100, 100]}, {"truss": truss + 1})
    for name, make in {
        "truss length 30500": lambda v: ({}, {"truss": v}),
    }.items():
        both(name, make, 30500, 30501)
        both("truss length 1", make, 1, 0)
    for key, top in (("normal", 200000), ("parallel", 200000), ("specified", 200000), ("cross", 200000),
                     ("theta", 90), ("rho", 90), ("sigma", 179)):
        both(f"{key} {top}", lambda v, key=key: ({key: v}, {}), top, top + 1)
    for d in DEPTHS:
        both(f"depth {d}", lambda v: ({"depth": v, "field": wide(150)}, {"try": [300, 300, 0, "unturned"]}), d, d + 1)
        case(f"depth {d - 1}", {"depth": d - 1})
    for i, name in enumerate(("x0", "x1", "y0", "y1")):
        for end, beyond in ((1000, 1001), (-1000, -1001)):
            def make(v, i=i):
                f = [-1000, 1000, -1000, 1000]
                f[i] = v
                return {"field": f}, {}
            both(f"{name} {end}", make, end, beyond)
    both("x0 below x1", lambda v: ({"field": [v, 50, -100, 100]}, {}), 49, 50)
    both("y0 below y1", lambda v: ({"field": [-100, 100, v, 50]}, {}), 49, 50)
    case("second member's field is empty", {}, {}, [{"field": [5, 5, 0, 1]}])
    case("second member's number before the first's field", {"field": [5, 5, 0, 1]}, {}, [{"theta": 91}])
    for count in (0, 1, 6, 7):
        case(f"{count} members", {}, {"members": [0, count]})
    n = len(job["members"])
    case("first past the list", {}, {"members": [100000, 1]})
    case("first and count at the largest", {}, {"members": [4294967295, 4294967295]})
    case("last of the list", {}, {})
    case("one past the list", {}, {"members": [len(job["members"]), 2]})
    both("2500 N across the grain", lambda v: ({"cross": v, "field": [-100, 100, 0, 1], "depth": 64}, {"truss": 1}), 2500, 2501)
    both("41 N for each mm, spruce", lambda v: ({"cross": v, "depth": 286, "field": [-100, 100, 0, 100]}, {}), 2500 + 4100, 2500 + 4101)
    both("55 N for each mm, Douglas fir", lambda v: ({"cross": v, "depth": 286, "species": "douglas", "field": [-100, 100, 0, 100]}, {}), 8000, 8001)
    both("three quarters of the depth", lambda v: ({"cross": 200000, "depth": 140, "field": [-100, 100, 0, v]}, {}), 105, 104)
    both("three quarters, grain along y", lambda v: ({"cross": 200000, "depth": 140, "grain": "y", "field": [0, v, -100, 100]}, {}), 105, 104)
    both("teeth of 19 in 38 mm", lambda v: ({}, {"try": [200, 200, v, "unturned"]}), 1, 2)
    case("family 6 has no card", {}, {"try": [200, 200, 6, "unturned"]})
    case("family 15 has no card", {}, {"try": [200, 200, 15, "unturned"]})
    for allowed in ("unturned", "turned", "either"):
        for turning in ("unturned", "turned"):
            case(f"{turning} where {allowed} is allowed", {}, {"turnings": allowed, "try": [200, 200, 0, turning]})
    greatest(case)
    for count in (1, 2, 3):
        case(f"member {count} of 3 misses", {}, {}, [{"cross": 200000 if k == count else 0, "field": [-100, 100, 0, 50]} for k in (2, 3)])
    case("bite of member 2 before the teeth of member 1", {"normal": 200000}, {}, [{"field": [0, 1, 0, 1]}])
    case("teeth of member 2 before the slip of member 1", {"specified": 200000}, {}, [{"normal": 200000}])
    if fuller:
        heels(case, both)
        splices(case, both)
    answers = [judge_line(job, i + 1, s) for i, s in enumerate(job["sheets"])]
    return job, answers


def top_load(member, sheet, key, other=()):
    """The greatest load under which the plate of the sheet passes, found by search on the rules above."""
    *plate, turning = sheet["try"]

    def passes(v):
        own = [{**deepcopy(MEMBER), **m} for m in ({**member, key: v}, *other)]
        return verdict({"cards": [deepcopy(CARD)]}, {**SHEET, **sheet}, own, plate, turning == "turned") is None
    return max(v for v in range(0, 60000) if passes(v))


def heels(case, both):
    """Each slope limit: the load that the factor allows, and one more, just under, at and over the limit."""
    member = {"depth": 89, "field": [-37, 60, -45, 41], "force": "compression"}
    slopes = [(2499, 10000), (1, 4), (2501, 10000), (3333, 10000), (1, 3), (3334, 10000), (4166, 10000), (5, 12), (4167, 10000),
              (4545, 10000), (5, 11), (4546, 10000), (1, 6), (1, 2), (10000, 1), (1, 10000), (1, 7), (3, 10)]
    for slope in slopes:
        for rule in ("table", "formula", None):
            sheet = {"kind": "heel", "slope": list(slope), "try": [101, 127, 0, "unturned"]}
            if rule:
                sheet["rule"] = rule
            top = top_load(member, sheet, "normal")
            for v in (top, top + 1):
                case(f"heel of {slope[0]}/{slope[1]}, {rule or 'no rule'}, normal {v}", {**member, "normal": v}, sheet)
    for i in (0, 1):
        for low, high in ((1, 0), (10000, 10001)):
            both(f"slope number {i} at {low}", lambda v, i=i: ({}, {"kind": "heel", "slope": [v, 5] if i == 0 else [5, v]}), low, high)


def splices(case, both):
    """The extent, the axis on either side of the centre line and of the plate's edges, and the greatest moment."""
    sheet = {"kind": "splice", "moment": 0, "wood": 100, "try": [101, 127, 0, "unturned"]}
    other = [{"depth": 89}]
    both("moment 20000000", lambda v: ({}, {**sheet, "moment": v}, other), 20000000, 20000001)
    both("wood 1", lambda v: ({}, {**sheet, "wood": v}, other), 1, 0)
    both("wood 400", lambda v: ({}, {**sheet, "wood": v}, other), 400, 401)
    for count in (1, 2, 3):
        case(f"splice of {count} members", {}, sheet, [{}] * (count - 1))
    both("extent of 65 hundredths of the depth", lambda v: ({"depth": 140}, {**sheet, "try": [v, 200, 0, "unturned"]}, other), 91, 90)
    both("the same across x", lambda v: ({"depth": 140, "grain": "y"}, {**sheet, "try": [200, v, 0, "unturned"]}, other), 91, 90)
    case("the plate's extent, not the contact side", {"depth": 140, "field": [-100, 100, -26, 26]}, sheet, other)
    for force in ("tension", "compression"):
        for normal in (0, 700, 4000):
            for wood in (1, 20, 150, 400):
                for turning in ("unturned", "turned"):
                    member = {"depth": 89, "force": force, "normal": normal, "field": [-60, 60, -45, 45]}
                    at = {**sheet, "wood": wood, "try": [120, 127, 0, turning]}
                    low, high = 0, 20000001
                    while high - low > 1:
                        mid = (low + high) // 2
                        m = [{**deepcopy(MEMBER), **member}, {**deepcopy(MEMBER), **other[0]}]
                        ok = verdict({"cards": [deepcopy(CARD)]}, {**SHEET, **at, "moment": mid}, m, (120, 127, 0), turning == "turned") is None
                        low, high = (mid, high) if ok else (low, mid)
                    for v in (low, low + 1):
                        case(f"moment {v}, {force} of {normal}, wood {wood}, {turning}", member, {**at, "moment": v}, other)


def greatest(case):
    """The greatest load that each clause takes, and one more, found by search on the rules above."""
    settings = [
        ("gross", "standard", "dry", ["plain"] * 4), ("net", "standard", "dry", ["edge", "end", "plain", "edge"]),
        ("net", "permanent", "unseasoned", ["end"] * 4), ("gross", "short", "wet", ["edge"] * 4),
    ]
    shapes = [("unturned", 0, 0, 0, "x"), ("turned", 30, 20, 45, "y"), ("unturned", 90, 90, 179, "y"), ("turned", 44, 45, 100, "x")]
    for (area, duration, service, marks), (turning, theta, rho, sigma, interface) in zip(settings, shapes):
        for force in ("tension", "compression"):
            for key in ("normal", "parallel", "specified"):
                member = {"force": force, "theta": theta, "rho": rho, "sigma": sigma, "interface": interface,
                          "field": [-37, 60, -45, 41], "marks": marks, "depth": 89}
                sheet = {"area": area, "duration": duration, "service": service, "try": [101, 127, 0, turning]}
                probe = {"cards": [deepcopy(CARD)]}

                def passes(v):
                    m = {**deepcopy(MEMBER), **member, key: v}
                    return verdict(probe, {**SHEET, **sheet}, [m], (101, 127, 0), turning == "turned") is None
                top = max(v for v in range(0, 40000) if passes(v))
                for v in (top, top + 1):
                    case(f"{key} {v} in {force}, {area}, {turning}", {**member, key: v}, sheet)


def random_kind(r, count):
    """What makes the sheet of so many members a heel or a splice, if it is one."""
    kind = r.choice(("web", "heel", "splice"))
    if kind == "heel":
        own = {"slope": [r.randint(1, 12), r.randint(8, 24)]}
        if r.random() < 0.6:
            own["rule"] = r.choice(("table", "formula"))
        return {**own, "kind": kind}
    if kind == "splice" and count == 2:
        return {"moment": r.choice((0, r.randint(0, 500000), r.randint(0, 3000000))), "wood": r.randint(1, 400), "kind": kind}
    return {"kind": "web"}


def random_job(count, fuller, seed=1):
    r = random.Random(seed)
    job = {"cards": [], "members": [], "sheets": [], "rows": [], "fuller": fuller}
    for _ in range(5):
        job["cards"].append({"teeth": [r.randint(800, 3000) for _ in range(4)], "slip": [r.randint(800, 3000) for _ in range(4)],
                             "tension": [r.randint(50, 400) for _ in range(2)], "shear": [r.randint(50, 400) for _ in range(6)],
                             "tooth": r.choice((8, 9, 14, 19, 20))})
    for _ in range(60):
        job["rows"].append([r.choice((38, 51, 64, 76, 102, 127, 152, 203)), r.choice((76, 102, 127, 152, 203, 254, 305)), r.randint(0, 5)])
    job["rows"] += [[19, 100, 0], [100, 1001, 0], [100, 100, 16]]
    job["rows"] += job["rows"][:5]
    for _ in range(count):
        n = r.randint(1, 4)
        first = len(job["members"])
        for _ in range(n):
            x0, y0 = r.randint(-120, 10), r.randint(-120, 10)
            job["members"].append({
                "force": r.choice(("tension", "compression")), "normal": r.randint(0, 9000), "parallel": r.randint(0, 4000),
                "specified": r.randint(0, 5000), "cross": r.choice((0, 2000, 2500, 3500, 5000)), "theta": r.randint(0, 90),
                "rho": r.randint(0, 90), "sigma": r.randint(0, 179), "depth": r.choice((64, 89, 89, 114, 140, 184)),
                "species": r.choice(("spruce", "douglas")), "grain": r.choice("xy"), "interface": r.choice("xy"),
                "field": [x0, x0 + r.randint(60, 200), y0, y0 + r.randint(60, 200)],
                "marks": [r.choice(("plain", "edge", "end")) for _ in range(4)]})
        sheet = {"members": [first, n], "truss": r.randint(3000, 20000), "duration": r.choice(list(KD)),
                 "service": r.choice(list(KSF)), "area": r.choice(("net", "gross")),
                 "turnings": r.choice(("unturned", "turned", "either", "either"))}
        job["sheets"].append({**sheet, **(random_kind(r, n) if fuller else {})})
    return job


def many(count, fuller):
    job = random_job(count, fuller)
    if fuller:
        job["layers"] = [("press", {"width": 152, "length": 254}), ("strike", {"places": [3, 7, 7, 60, 4000]}),
                         ("press", {"width": 203, "length": 250})]
    return job, [choose_line(job, i + 1, s) for i, s in enumerate(job["sheets"])]


def whys():
    job = random_job(8, True, seed=7)
    job["rows"] = []
    job["coil"] = {"family": next(i for i, c in enumerate(job["cards"]) if c["tooth"] < 19), "widths": [51, 76, 102, 301, 152], "first": 76, "step": 51, "steps": 5}
    job["layers"] = [("strike", {"places": [0, 6, 24, 25]}), ("press", {"width": 200, "length": 255})]
    job["sheets"].append({**job["sheets"][0], "truss": 0})
    return job, [line for i, s in enumerate(job["sheets"]) for line in explain_lines(job, i + 1, s)]


def ranges():
    """A second card with one number altered: is the joint lawful?"""
    lines = []
    for number in range(17):
        for value in ((9, 10, 20000, 20001) if number < 8 else (0, 1, 2000, 2001) if number < 16 else (0, 1, 40, 41)):
            card = deepcopy(CARD)
            if number == 16:
                card["tooth"] = value
            else:
                key = ["teeth", "slip", "tension", "shear", "shear"][number // 4 if number < 8 else 2 if number < 10 else 3]
                card[key][number % 4 if number < 8 else number - 8 if number < 10 else number - 10] = value
            told = "lawful" if card_right(card) else "refused 3 at card 1"
            lines.append(f"number {number} at {value}: {told}")
    return lines


def main():
    kind, folder, *rest = sys.argv[1:]
    if kind == "ranges":
        with open(folder + "/stdout", "w") as f:
            f.write("\n".join(ranges()) + "\n")
        return
    fuller = kind.endswith("_next")
    if kind == "whys":
        job, answers = whys()
    else:
        job, answers = limits(fuller) if kind.startswith("limits") else many(int(rest[0]), fuller)
    with open(folder + "/stdin", "w") as f:
        f.write(text(job))
    with open(folder + "/stdout", "w") as f:
        f.write("\n".join(answers) + "\n")


if __name__ == "__main__":
    main()
