"""A new user of the repository: see run. Takes its top, the user's directory and the program nostwier-solve."""

import copy
import doctest
import importlib.util
import json
import os
import pty
import random
import re
import select
import struct
import subprocess
import sys
import time
from fractions import Fraction
from pathlib import Path

import nostwier
from nostwier import flowgates

TOP, HOME, SOLVE = Path(sys.argv[1]), Path(sys.argv[2]), sys.argv[3]
passed = failed = 0


def check(what, holds, shown=""):
    global passed, failed
    if holds:
        passed += 1
    else:
        failed += 1
        print(f"failed: {what}" + (f"\n    {shown}" if shown else ""))


def run(*words, stdin=None):
    return subprocess.run(words, cwd=HOME, stdin=stdin or subprocess.DEVNULL, capture_output=True, text=True, timeout=60)


def command(*words):
    return run("python3", "-m", "nostwier", *words)


def says(what, ran, status, *words):
    """The command ended with the status; a refusal is one line; what it says has the words (regular expressions), before the advice
    that is the same for every refusal by that number."""
    shown = f"status {ran.returncode}: {ran.stdout}{ran.stderr}"
    check(f"{what}: exit status {status}", ran.returncode == status, shown)
    check(f"{what}: no traceback", "Traceback" not in ran.stderr, shown)
    if status:
        check(f"{what}: one line on standard error, none on standard output",
              ran.stderr.startswith("nostwier") and ran.stderr.count("\n") == 1 and not ran.stdout, shown)
    for word in words:
        check(f"{what}: says '{word}'", re.search(word, (ran.stdout + ran.stderr).split(" What to do: ")[0], re.IGNORECASE | re.DOTALL),
              shown)


# ---- The five-bus system, as a user copies it out of the textbook.

GENERATORS = [  # MW, $/MWh, bus
    ("Alta", 110, 14, "A"), ("Park City", 100, 15, "A"), ("Solitude", 520, 30, "C"), ("Sundance", 200, 35, "D"),
    ("Brighton", 600, 10, "E"),
]
OUTPUT = {"Alta": 110, "Park City": 100, "Solitude": 10, "Sundance": 110, "Brighton": 570}  # MW
LOAD = {"B": 300, "C": 300, "D": 300}
REACTANCES = {"AB": 2.81, "AD": 3.04, "AE": 0.64, "BC": 1.08, "CD": 2.97, "ED": 2.97}  # per cent
LIMIT = 240


def source(filed, kw=1000, cents=100):
    """The case's JSON source, with kW to the MW and cents to the dollar."""
    none = {"multiplier": 1000, "minutes": 10, "share": 0, "requirement": 0}
    return {
        "demand": sum(LOAD.values()) * kw,
        "reserves": {"contingency": none, "regulating": none, "short_term": none},
        "curves": {"operating": [], "regulating_plus_spinning": [], "regulating": [], "short_term": []},
        "zones": [{"name": "PJM", "operating": 0, "regulating_plus_spinning": 0, "regulating": 0, "short_term": 0}],
        "resources": [
            {
                "name": name, "kind": "conventional", "zone": 1, "breaker": "closed", "estimated_output": OUTPUT[name] * kw,
                "economic": {"minimum": 0, "maximum": most * kw},
                "ramp_up": min(400, most) * kw, "ramp_down": min(400, most) * kw, "ramp_rate": min(400, most) * kw,
                "initial_energy": OUTPUT[name] * kw,
                "energy_steps": [{"width": most * kw, "price": price * cents}],
            }
            for name, most, price, _ in GENERATORS
        ],
        "flowgates": [{**filed, "limit": filed["limit"] * kw // 1000}],
    }


def least_cost(factors):
    """The least cost in dollars of an interval, with exact factors: every generator at 0 or its most but two, which meet demand
    and the line's limit."""
    room = Fraction(LIMIT) + sum(Fraction(factors[bus]) * load for bus, load in LOAD.items())
    best = None
    ends = [(0, most) for _, most, _, _ in GENERATORS]
    for first in range(5):
        for second in range(first):
            for choice in range(8):
                given = [None] * 5
                others = [place for place in range(5) if place not in (first, second)]
                for bit, place in enumerate(others):
                    given[place] = ends[place][choice >> bit & 1]
                demand = sum(LOAD.values()) - sum(given[place] for place in others)
                flow = room - sum(Fraction(factors[GENERATORS[place][3]]) * given[place] for place in others)
                a, b = (Fraction(factors[GENERATORS[place][3]]) for place in (first, second))
                if a == b:
                    continue
                given[first] = (flow - b * demand) / (a - b)
                given[second] = demand - given[first]
                if all(0 <= amount <= most for amount, (_, most) in zip(given, ends)):
                    cost = sum(amount * price for amount, (_, _, price, _) in zip(given, GENERATORS)) / 12
                    best = cost if best is None else min(best, cost)
    return best


def write(name, content):
    path = HOME / name
    path.write_bytes(content) if isinstance(content, bytes) else path.write_text(content)
    return name


def story():
    """From the textbook to the sentence; gives the source's name, and the case's and the certificate's."""
    made = run("python3", "examples/five_bus/network.py")
    says("network.py", made, 0, '"limit": 240000')
    check("examples/five_bus/line.json is what network.py prints", made.stdout == (TOP / "examples/five_bus/line.json").read_text())
    line = json.loads(made.stdout)
    kirchhoff(exact_factors(line))
    write("line.json", made.stdout)
    shown = command("flowgate", "line.json")
    says("flowgate", shown, 0, "0.878 kW", "3.278", '"limit": 640112')
    filed = json.loads(command("flowgate", "line.json", "--json").stdout)["flowgate"]
    own = source(filed)
    shipped = nostwier.Case.load(str(TOP / "examples/five_bus/five_bus.json"))
    check("examples/five_bus/five_bus.json is what the user writes", nostwier.Case.from_dict(own).to_bytes() == shipped.to_bytes())
    write("five_bus.json", json.dumps(own))

    steps = readme_steps()
    wanted = ("write-case", "nostwier-solve", "nostwier_cli", "explain", "cite")
    for step in wanted:
        check(f"README shows a command with {step}", any(step in line for line in steps), steps)
    given = next((re.search(r"write-case (\S+) (\S+)", line) for line in steps if "write-case" in line), None)
    if given is None:
        return None
    text = "\n".join(steps).replace(given[1], "five_bus.json")
    # From the environment that a newcomer has.
    environment = {name: value for name, value in os.environ.items() if name not in ("PYTHONPATH", "NOSTWIER_LIBRARY")}
    ran = subprocess.run(["bash", "-euo", "pipefail", "-c", text], cwd=HOME, env=environment, stdin=subprocess.DEVNULL,
                         capture_output=True, text=True, timeout=120)
    shown = ran.stdout + ran.stderr
    check("README's commands end well", ran.returncode == 0, shown)
    verdict = r"^cost \d+\nbound \d+\ngap \d+\n1 1 110000 "
    check("README's commands give the program's verdict", re.search(verdict, ran.stdout, re.M), shown)
    check("README's commands end in a sentence",
          "The schedule costs $1,070.15" in ran.stdout and "Checked by Nostwier" in ran.stdout, shown)
    check("the sentence says that it is about the case as filed", "about the case as filed" in ran.stdout, shown)
    check("what is printed shows the units",
          re.search(r"900\.000 MW.*\$/MWh", ran.stdout, re.S) and "12,841.8" in ran.stdout, shown)
    case, certificate = given[2], re.search(r"-o (\S+)", text)[1]
    if not ((HOME / case).exists() and (HOME / certificate).exists()):
        check("README's commands leave a case and a certificate", False, shown)
        return None
    files = (HOME / case).read_bytes(), (HOME / certificate).read_bytes()
    result = nostwier.check_certificate(*files)
    check("the gap is under two cents of an interval", 0 <= result.gap < 24_000_000, result)
    exact = least_cost({bus: str(factor) for bus, factor in exact_factors(line).items()})
    off = abs(Fraction(result.cost, 1_200_000_000) - exact)
    check("the cost is within half a cent of the least with exact factors", off < Fraction(1, 200),
          f"{float(exact)} {float(off)}")
    # Sundance at D and Brighton at E are neither at 0 nor at their most, so their LMPs are their offers: that fixes the line's
    # price, and with it every other LMP.
    factors = exact_factors(line)
    price = (35 - 10) / (factors["E"] - factors["D"])
    wanted = [35 - price * (factors[bus] - factors["D"]) for _, _, _, bus in GENERATORS]
    lmps = [lmp / 100_000 for lmp in nostwier.prices(*files).lmps]
    check("the LMPs are those of the exact line, to two cents", len(lmps) == len(wanted) and
          all(abs(a - b) < 0.02 for a, b in zip(lmps, wanted)), f"{lmps} {wanted}")
    return "five_bus.json", case, certificate, own


def kirchhoff(factors):
    """network.py's flows on all lines keep both of Kirchhoff's laws, which no other flows do, and line.json has those of E to D."""
    spec = importlib.util.spec_from_file_location("network", TOP / "examples/five_bus/network.py")
    network = importlib.util.module_from_spec(spec)
    spec.loader.exec_module(network)
    of_line = {ends: network.shift_factors(ends) for ends in REACTANCES}
    for bus in "ABCDE":
        flow = {ends: float(of_line[ends][bus]) for ends in REACTANCES}
        for node in "ABCDE":
            out = sum(flow[ends] for ends in flow if ends[0] == node) - sum(flow[ends] for ends in flow if ends[1] == node)
            check(f"from {bus} to D: what enters {node} leaves it", abs(out - (node == bus) + (node == "D")) < 1e-9, flow)
        drop = {ends: REACTANCES[ends] * flow[ends] for ends in flow}
        for what, over in [("ABCDA", drop["AB"] + drop["BC"] + drop["CD"] - drop["AD"]), ("AEDA", drop["AE"] + drop["ED"] - drop["AD"])]:
            check(f"from {bus} to D: no drop around {what}", abs(over) < 1e-9, flow)
        check(f"line.json has the factor of {bus}", bus not in factors or abs(factors[bus] - flow["ED"]) < 1e-9, factors)
    check("line.json has a factor for every bus", set(factors) == set("ABCDE"), factors)


def exact_factors(line):
    factors = {part["name"]: part["shift_factor"] for part in line["loads"]}
    for (_, _, _, bus), part in zip(GENERATORS, line["resources"]):
        factors[bus] = part["shift_factor"]
    return factors


def readme_steps():
    """The commands of the block that makes a case of a source."""
    blocks, block = [], []
    for line in (TOP / "README.md").read_text().splitlines() + [""]:
        if line.startswith("    "):
            block.append(line[4:])
        elif block:
            blocks.append(block)
            block = []
    return next((block for block in blocks if any("write-case" in line for line in block)), [])


# ---- Damages.


def changed_certificate(name, change):
    """The certificate with a change to its JSON, as a file."""
    read = json.loads(command("read-certificate", CERT).stdout)
    change(read)
    write(name + ".json", json.dumps(read))
    made = command("write-certificate", name + ".json", name)
    check(f"{name} is written", made.returncode == 0, made.stderr)
    return name


def damages(source_name, own, filed):
    case, certificate = (HOME / CASE).read_bytes(), (HOME / CERT).read_bytes()

    says("truncated", command("explain", write("cut.case", case[:-10]), CERT), 1, "refused 1:", r"Was it cut short by 10 bytes\?")
    says("truncated certificate", command("explain", CASE, write("cut.cert", certificate[:-1])), 1, "refused 8:", r"Was it cut short by 1 bytes?\?")
    says("empty", command("explain", write("empty.case", b""), CERT), 1, "refused 1:", "empty")

    dollars = copy.deepcopy(own)
    for resource, (_, _, price, _) in zip(dollars["resources"], GENERATORS):
        resource["energy_steps"][0]["price"] = price
    says("dollars for cents", command("write-case", write("dollars.json", json.dumps(dollars)), "dollars.case"), 0,
         r"0\.10.{1,9}0\.35 \$/MWh", "dollars", "cents per MWh", "100")
    right = command("write-case", source_name, "again.case")
    says("cents for cents", right, 0, r"10\.00.{1,9}35\.00 \$/MWh", r"900(\.0+)? MW")
    check("a case that is right has no warning", not re.search("warning|not on-line", right.stdout + right.stderr), right.stdout)

    says("MW for kW", command("write-case", write("mw.json", json.dumps(source(filed, kw=1))), "mw.case"), 0,
         r"not on-line", r"Sundance\b.*\b110\b.*\b500\b", r"0\.9(00)? MW", "filed in MW", "1,000")
    says("MW for kW, by a solver", run(SOLVE, "mw.case", "-o", "mw.cert"), 1, "no schedule", "can give 0 to 600 kW",
         "Not on-line: 1, 2, 3, 4 ", r"docs/MODEL\.md")

    says("swapped", command("explain", CERT, CASE), 1, "refused 4:", "swapped")

    negative = copy.deepcopy(own)
    negative["resources"][1]["regulating_price"] = -700
    says("negative price", command("write-case", write("negative.json", json.dumps(negative)), "negative.case"), 1, "refused",
         r"resources\[1\]\.regulating_price", "Park City", "-700", "Is its sign the wrong way round")
    check("nothing is written of a refused source", not (HOME / "negative.case").exists())

    def above(read):
        read["resources"][4]["e"] += 30_000

    says("above bound", command("explain", CASE, changed_certificate("above.cert", above), "--names", source_name), 1,
         "refused 13 25:", "Brighton", r"603,92\d", "600,000 kW", "step")
    says("above bound, without names", command("explain", CASE, "above.cert"), 1, "refused 13 25:", "resource 5")

    def unbalanced(read):
        read["resources"][3]["e"] -= 7

    says("unbalanced", command("explain", CASE, changed_certificate("unbalanced.cert", unbalanced)), 1, "refused 14 1:", "demand",
         "899,993 kW", "900,000 kW", r"\b7 kW are missing")

    text = write("text.case", "demand = 900 MW\n" * 40)
    says("text", command("explain", text, CERT), 1, "refused 1:", "text")
    says("JSON source for a case", command("explain", source_name, CERT), 1, "refused 1:", "JSON", "write-case")

    with open(HOME / "huge.case", "wb") as file:
        file.write(case)
        file.truncate(64_000_000)
    started = time.monotonic()
    says("huge", command("explain", "huge.case", CERT), 1, r"above [\d,]+ bytes", "another file")
    check("huge: it is told soon", time.monotonic() - started < 10)

    says("a byte too many", command("explain", write("long.case", case + b"\0"), CERT), 1, "refused 1:", f"{len(case) + 1:,} bytes",
         f"announce {len(case):,}")

    # As the solver prints it: the price of an 'at most' row below 0. In a file, then in JSON.
    place = certificate.index(struct.pack(">I", FLOWGATE_PRICE))
    signed = certificate[:place] + struct.pack(">i", -FLOWGATE_PRICE) + certificate[place + 4:]
    says("price of the wrong sign", command("explain", CASE, write("signed.cert", signed)), 1, "refused 12:", "sign", "flowgate")
    read = json.loads(command("read-certificate", CERT).stdout)
    turned = json.dumps(read).replace(str(FLOWGATE_PRICE), str(-FLOWGATE_PRICE))
    says("price of the wrong sign, in JSON", command("write-certificate", write("signed.json", turned), "signed2.cert"), 1,
         "refused", "sign", "flowgate", f"-{FLOWGATE_PRICE:,}".replace(",", ",?"))


def machine_faults():
    says("no such file", command("explain", "none.case", CERT), 2, "none.case")
    says("a directory for a file", command("cite", CASE, "target"), 2, "'target': Is a directory")
    says("no arguments", command("cite"), 2, "cite")
    says("no such command", command("verify", CASE, CERT), 2, "verify", "write-case", "explain")
    says("a solver without a case", run(SOLVE, "none.case", "-o", "none.cert"), 2, "none.case")


# ---- Progress of nostwier-solve, and flowgates.


def progress():
    """On a terminal a line shows what is waited for, and is gone at the end; elsewhere nothing is shown."""
    quiet = run(SOLVE, CASE, "-o", "quiet.cert")
    check("without a terminal nothing is on standard error", quiet.returncode == 0 and quiet.stderr == "", quiet.stderr)
    master, slave = pty.openpty()
    ran = subprocess.Popen([SOLVE, CASE, "-o", "shown.cert"], cwd=HOME, stdin=subprocess.DEVNULL, stdout=subprocess.PIPE,
                           stderr=slave)
    os.close(slave)
    shown = b""
    while select.select([master], [], [], 30)[0]:
        try:
            part = os.read(master, 4096)
        except OSError:  # the end of a terminal
            break
        if not part:
            break
        shown += part
    os.close(master)
    out = ran.communicate(timeout=30)[0]
    check("on a terminal the solver's work is shown",
          re.search(rb"glpsol solves relaxed\.mps: \d+ s", shown) and re.search(rb"whole\.mps: \d+ s of at most 20\b", shown), shown)
    check("its line is gone at the end", shown.endswith(b"\r\x1b[K"), shown)
    check("it answers the same", ran.returncode == 0 and out.decode() == quiet.stdout, out)


def lines():
    """Flowgates of random lines: what is promised of their error holds for random schedules, and for the worst."""
    dice = random.Random(7)
    worse = 0
    for number in range(40):
        count = dice.randint(2, 12)
        span = dice.choice([0.02, 0.3, 1.0])
        factors = [round(dice.uniform(-span, span), 9) for _ in range(count)]
        maxima = [dice.randint(10_000, 300_000) for _ in range(count)]
        demand = round(sum(maxima) * dice.uniform(0.2, 0.9))
        loads = [(round(dice.uniform(-span, span), 9), demand // 3) for _ in range(3)]
        limit = dice.randint(0, 100_000)
        made = flowgates.flowgate(limit, factors, loads, demand, maxima)
        filed = made.flowgate
        exact = [Fraction(str(factor)) for factor in factors]
        net = limit + sum(Fraction(str(factor)) * load for factor, load in loads)
        scale = Fraction(made.scale)
        numbers = [filed.limit, *filed.shift_factors]
        check(f"line {number}: whole numbers, and factors in their range",
              all(isinstance(each, int) for each in numbers) and all(abs(factor) <= 1000 for factor in filed.shift_factors), filed)
        # The flow over the limit, exact and as filed, of schedules at the corners and within.
        over = []
        order = sorted(range(count), key=lambda r: filed.shift_factors[r] / made.scale / 1000 - factors[r])
        for trial in range(30):
            places = order if trial == 0 else order[::-1] if trial == 1 else dice.sample(order, count)
            left, energy = demand, [0] * count
            for place in places:
                energy[place] = min(maxima[place], left)
                left -= energy[place]
            truth = sum(factor * kw for factor, kw in zip(exact, energy)) - net
            said = (Fraction(sum(factor * kw for factor, kw in zip(filed.shift_factors, energy)), 1000) - filed.limit) / scale
            over.append(float(truth - said))
        close = 1e-3
        check(f"line {number}: no schedule is further off than said",
              max(over) <= made.above + close and -min(over) <= made.below + close, f"{max(over)} {min(over)} {made}")
        above, below = max(0, *over[:2]), max(0, -over[0], -over[1])
        check(f"line {number}: the worst schedule is as far off as said",
              abs(above - made.above) < close and abs(below - made.below) < close, f"{above} {below} {made}")
        plain = [Fraction(round(factor * 1000), 1000) - factor for factor in exact]
        low, high = flowgates._ends(plain, demand, maxima)
        worse += made.above + made.below > float(high - low) + close / float(min(scale, 1)) + 1 / made.scale
    check("no line is filed with more error than by plain rounding", worse == 0, worse)
    found = doctest.testmod(flowgates)
    check("the text of flowgates.py shows what it does", found.failed == 0 and found.attempted > 0, found)

    line = json.loads((TOP / "examples/five_bus/line.json").read_text())
    forward, back = (json.loads(command("flowgate", "line.json", "--json", *more).stdout) for more in ([], ["--reverse"]))
    check("the other direction has the signs turned",
          [-factor for factor in forward["flowgate"]["shift_factors"]] == back["flowgate"]["shift_factors"], back)
    for what, change, words in [
        ("factors in thousandths", lambda l: l["resources"][0].update(shift_factor=368), ["-1 to 1", "not thousandths"]),
        ("a load that is text", lambda l: l["loads"][0].update(load="much"), ["load 1", "number", "much"]),
        ("a resource without factor", lambda l: l["resources"][2].pop("shift_factor"), [r"resources\[2\]", "shift_factor"]),
        ("maxima in MW", lambda l: [r.update(maximum=r["maximum"] // 1000) for r in l["resources"]], ["maxima", "MW"]),
        ("a field that is none", lambda l: l.update(limits=1), ["limits", "the fields are"]),
        ("a number beyond all", lambda l: l["loads"][1].update(load=10**400), ["load 2", "no number so large"]),
        ("equal factors", lambda l: [r.update(shift_factor=0.25) for r in l["resources"]], ["equal", "leave the flowgate out"]),
        ("a limit out of range", lambda l: l.update(limit=240_000_000), ["20,000,000", "kW"]),
    ]:
        damaged = copy.deepcopy(line)
        change(damaged)
        says(f"flowgate, {what}", command("flowgate", write("damaged.json", json.dumps(damaged))), 1, *words)
    line["loads"][1]["load"] = "1e-999999999"
    says("flowgate, a load of next to nothing", command("flowgate", write("nothing.json", json.dumps(line))), 0, '"limit"')
    says("flowgate, JSON without an end", command("flowgate", write("deep.json", "[" * 100_000)), 1, "no JSON")
    says("flowgate, no text", command("flowgate", write("bytes.json", b"\xff\xfe")), 1, "UTF-8")
    says("flowgate, no JSON", command("flowgate", write("none.txt", "E to D")), 1, "no JSON")
    says("flowgate, no file", command("flowgate", "nowhere.json"), 2, "nowhere.json")
    says("flowgate, no argument", command("flowgate"), 2, "flowgate")
    says("flowgate --help", command("flowgate", "--help"), 0, "Usage", "--reverse", "--json", "least error")


told = story()
if told is not None:
    source_name, CASE, CERT, own = told
    FLOWGATE_PRICE = nostwier.Certificate.from_bytes((HOME / CERT).read_bytes()).prices_of_rows()[9]
    damages(source_name, own, json.loads(command("flowgate", "line.json", "--json").stdout)["flowgate"])
    machine_faults()
    progress()
lines()
print(f"{passed} passed, {failed} failed")
sys.exit(failed > 0 or passed == 0)
