"""The command nostwier, or python3 -m nostwier: see --help."""

import argparse
import csv
import io
import json
import sys
from typing import Callable, Dict, List, NamedTuple, Optional

from . import calls, flowgates, layout, model
from .explain import INTERVALS_AN_HOUR, as_dictionary, cite, explain, explained, summary_dictionary, summary_lines
from .labels import Names
from .layout import Counts
from .library import VERSION, LibraryMissing
from .records import Case, Certificate, Misfiled
from .refusals import Refused
from .units import dollars

STATUS = """\
Exit status: 0 accepted or done, 1 a file is refused or a source is wrong, 2 wrong use, or a file or the machine at fault.
"""
LARGEST = 16 * 1024 * 1024  # bytes of a file that is read


class Misuse(Exception):
    """The command line is wrong, or a file cannot be read or written."""


class _Parser(argparse.ArgumentParser):
    """A parser whose faults are one line."""

    def error(self, message):
        raise Misuse(f"{message}; see '{self.prog} --help'")


# ---- Files.


def _read(path: str) -> bytes:
    try:
        with open(path, "rb") as file:
            content = file.read(LARGEST + 1)
    except (OSError, ValueError) as error:
        raise Misuse(f"cannot read '{path}': {getattr(error, 'strerror', None) or error}") from None
    if len(content) > LARGEST:
        raise Misfiled(f"'{path}' is above {LARGEST:,} bytes, and no case or certificate is above {layout.LARGEST.case_bytes:,}: "
                       "look whether it is another file")
    return content


def _write(path: str, content: bytes) -> None:
    try:
        with open(path, "wb") as file:
            file.write(content)
    except (OSError, ValueError) as error:
        raise Misuse(f"cannot write '{path}': {getattr(error, 'strerror', None) or error}") from None


def _source(record, path):
    """A record of a JSON source."""
    content = _read(path)
    try:
        text = content.decode("utf-8-sig")
    except UnicodeDecodeError:
        text = None
    if text is None or "\0" in text:
        raise Misfiled(f"'{path}' is no text in UTF-8: a JSON source is wanted. Is it a {record.__name__.lower()} file already? "
                       f"'nostwier read-{record.__name__.lower()}' makes a source of one")
    try:
        return record.from_json(text)
    except Misfiled as error:
        raise Misfiled(f"'{path}': {error}") from None


def _pair(options):
    """Case and certificate as bytes, and the names of the source, which must be this case's."""
    case, certificate = _read(options.case), _read(options.certificate)
    return case, certificate, _names(getattr(options, "names", None), case)


def _names(path: Optional[str], case: bytes) -> Optional[Names]:
    if path is None:
        return None
    source = _source(Case, path)
    try:
        calls.check_case(case)
    except Refused as refusal:  # the source is not that of a damaged file, but its names serve if it has as many
        if refusal.number in (5, 6, 7) and source.counts == Counts.of_file(case):
            calls.check_case(case, source.names)
        raise
    if source.to_bytes() != case:
        raise Misfiled(f"'{path}' is not the source of this case: {_difference(source, Case.from_bytes(case))}. Give the source from "
                       "which the case was written, or make the case anew by 'nostwier write-case'")
    return source.names


def _difference(source, case):
    if source.counts != case.counts:
        words = ["{} resources, {} zones and {} flowgates".format(*counts) for counts in (source.counts, case.counts)]
        return f"it has {words[0]}, and the case {words[1]}"
    for theirs, mine in zip(source.fields(), case.fields()):
        if theirs.number != mine.number:
            return f"{theirs.where} is {theirs.number:,} in it, and {mine.number:,} in the case"
    return "it makes another file"


# ---- Forms of output.


def _json(value) -> str:
    return json.dumps(value, indent=2, ensure_ascii=False) + "\n"


def _csv(header: List[str], rows) -> str:
    text = io.StringIO()
    writer = csv.writer(text, lineterminator="\n")
    writer.writerow(header)
    writer.writerows(rows)
    return text.getvalue()


# ---- Commands: each takes the options and returns what is printed.


def _check(options):
    case, certificate, names = _pair(options)
    result = calls.check_certificate(case, certificate, names)
    if options.csv:
        return _csv(["item", "grains", "dollars", "dollars_an_hour"],
                    [[name, grains, f"{dollars(grains, 9):f}", f"{dollars(INTERVALS_AN_HOUR * grains, 9):f}"]
                     for name, grains in zip(result._fields, result)])
    prices = calls.prices(case, certificate)
    rows = list(zip(Case.from_bytes(case).states(), Certificate.from_bytes(certificate).resources, prices.lmps))
    if options.json:
        return _json({**result._asdict(),
                      "resources": [{"on_line": state.on_line, "availability": state.availability.value,
                                     "e": d.e, "g": d.g, "c": d.c, "s": d.s, "o": d.o, "lmp": lmp}
                                    for state, d, lmp in rows],
                      "zones": [zone._asdict() for zone in prices.zones]})
    lines = [f"{name} {grains}" for name, grains in zip(result._fields, result)]
    lines += [f"{number} {int(state.on_line)} {d.e} {d.g} {d.c} {d.s} {d.o} {lmp}" for number, (state, d, lmp) in enumerate(rows, 1)]
    lines += [f"zone {number} " + " ".join(map(str, zone)) for number, zone in enumerate(prices.zones, 1)]
    return "\n".join(lines) + "\n"


def _explain(options):
    case, certificate, names = _pair(options)
    if not options.json and not options.csv:
        return explain(case, certificate, names, options.most)
    told = as_dictionary(explained(case, certificate, names))
    told["charges"] = told["charges"][:options.most]
    if options.json:
        return _json(told)
    header = ["number", "label", "grains", "dollars", "amount_is", "amount_kw", "price_dollars_per_mwh"]
    return _csv(header, [[f"{charge[key]:.9f}" if key == "dollars" else charge[key] for key in header] for charge in told["charges"]])


def _prices(options):
    case, certificate, names = _pair(options)
    calls.check_certificate(case, certificate, names)
    prices, names = calls.prices(case, certificate), names or Names()
    rows = [("LMP", names.of("resource", number), "energy", price) for number, price in enumerate(prices.lmps, 1)]
    rows += [("zone price", names.of("zone", number), name.replace("_", "-"), price)
             for number, zone in enumerate(prices.zones, 1) for name, price in zone._asdict().items()]
    if options.json:
        return _json([{"price": what, "of": of, "product": product, "thousandths_of_a_cent_per_mwh": price, "dollars_per_mwh":
                       price / 100_000} for what, of, product, price in rows])
    if options.csv:
        return _csv(["price", "of", "product", "thousandths_of_a_cent_per_mwh", "dollars_per_mwh"],
                    [[*row, f"{row[3] / 100_000:.5f}"] for row in rows])
    return "".join(f"{price / 100_000:>16,.5f} $/MWh  {of}: {product}\n" for _, of, product, price in rows)


def _cite(options):
    case, certificate, _ = _pair(options)
    return cite(case, certificate)


def _write_case(options):
    case = _source(Case, options.source)
    content = case.to_bytes()
    _write(options.target, content)
    summary = model.summary(case)
    if options.json:
        return _json({"bytes": len(content), **summary_dictionary(summary)})
    return "\n".join([f"case written, {len(content):,} bytes", *summary_lines(summary)]) + "\n"


def _write_certificate(options):
    certificate = _source(Certificate, options.source)
    content = certificate.to_bytes()
    _write(options.target, content)
    energy, price = sum(resource.e for resource in certificate.resources), certificate.row_prices.energy
    if options.json:
        return _json({"bytes": len(content), "energy_kw": energy, "energy_price_dollars_per_mwh": price / 100_000})
    return (f"certificate written, {len(content):,} bytes\nenergy {model.mw(energy)} MW; price of row 1 {price / 100_000:,.5f} $/MWh\n")


def _show(record):
    return lambda options: record.from_bytes(_read(options.file)).to_json()


class Command(NamedTuple):
    """A subcommand: what it does in a line, its arguments, and the function that takes the options and returns a text."""

    help: str
    arguments: Callable[[argparse.ArgumentParser], None]
    run: Callable[[argparse.Namespace], str]


def _files(*names):
    def add(parser):
        words = {"case": "the case file", "certificate": "the certificate file", "source": "the JSON source",
                 "target": "the file to write", "file": "the file to read"}
        for name in names:
            parser.add_argument(name, metavar=name.upper(), help=words[name])
    return add


def _with(*adders):
    def add(parser):
        for adder in adders:
            adder(parser)
    return add


def _named(parser):
    parser.add_argument("--names", metavar="SOURCE", help="the JSON source of this case: its names are used in what is said")


def _as_json(parser):
    parser.add_argument("--json", action="store_true", help="print JSON")


def _forms(parser):
    forms = parser.add_mutually_exclusive_group()
    forms.add_argument("--json", action="store_true", help="print JSON")
    forms.add_argument("--csv", action="store_true", help="print comma-separated values, with a line of headings")


def _count(word):
    if not word.isdecimal():
        raise argparse.ArgumentTypeError("a whole number is wanted, 0 or more")
    return int(word)


def _most(parser):
    parser.add_argument("--most", metavar="N", type=_count, help="list at most so many charges")


_PAIR = _with(_files("case", "certificate"), _named)

COMMANDS: Dict[str, Command] = {
    "check": Command("check a certificate; print what the proved program prints, in grains and kW", _with(_PAIR, _forms), _check),
    "explain": Command("check a certificate; print cost, bound and gap in dollars, and the charges that make up the gap, largest "
                       "first", _with(_PAIR, _most, _forms), _explain),
    "prices": Command("check a certificate; print LMPs and zone prices in $/MWh", _with(_PAIR, _forms), _prices),
    "cite": Command("check a certificate; print the sentence to publish, with what identifies the files",
                    _files("case", "certificate"), _cite),
    "write-case": Command("make a case file of a JSON source; print totals, and what is odd", _with(_files("source", "target"), _as_json),
                          _write_case),
    "write-certificate": Command("make a certificate file of a JSON source", _with(_files("source", "target"), _as_json),
                                 _write_certificate),
    "read-case": Command("print a case file as JSON", _files("file"), _show(Case)),
    "read-certificate": Command("print a certificate file as JSON", _files("file"), _show(Certificate)),
    "flowgate": Command(flowgates.SUMMARY, flowgates.arguments, lambda options: flowgates.command(_read(options.line), options)),
}


def parser() -> argparse.ArgumentParser:
    """The parser of the command line."""
    top = _Parser(prog="nostwier", epilog=STATUS, allow_abbrev=False,
                  description="Checks certificates of electricity dispatch, and makes and shows their files.")
    top.add_argument("--version", action="version", version=f"nostwier {VERSION}")
    commands = top.add_subparsers(dest="command", metavar="COMMAND", parser_class=_Parser)
    for name, command in COMMANDS.items():
        sub = commands.add_parser(name, help=command.help, description=command.help[0].upper() + command.help[1:] + ".", epilog=STATUS,
                                  allow_abbrev=False)
        command.arguments(sub)
    return top


def _print(text: str) -> None:
    """Prints to the end, or says why not."""
    if sys.stdout is None:
        raise Misuse("cannot print: standard output is closed")
    try:
        sys.stdout.flush()
        sys.stdout.buffer.write(text.encode("utf-8", "surrogateescape"))
        sys.stdout.flush()
    except (OSError, ValueError) as error:
        setattr(sys, "stdout", None)  # nothing more is tried at the end
        raise Misuse(f"cannot print: {getattr(error, 'strerror', None) or error}") from None


def _say(text: str) -> None:
    """A line on standard error, if there is one."""
    try:
        sys.stderr.buffer.write(f"nostwier: {text}\n".encode("utf-8", "surrogateescape"))
        sys.stderr.flush()
    except (OSError, ValueError, AttributeError):
        pass


def main(words: Optional[List[str]] = None) -> int:
    """Runs a command line; returns the exit status."""
    words = sys.argv[1:] if words is None else words
    try:
        try:
            top = parser()
            if not words:
                raise Misuse("a command is wanted: " + ", ".join(COMMANDS) + "; see 'nostwier --help'")
            if not words[0].startswith("-") and words[0] not in COMMANDS:
                raise Misuse(f"there is no command '{words[0]}'; the commands are {', '.join(COMMANDS)}")
            shown = io.StringIO()
            before, sys.stdout = sys.stdout, shown  # what --help and --version print is printed as all else
            try:
                options = top.parse_args(words)
            except SystemExit:
                options = None
            finally:
                sys.stdout = before
            _print(shown.getvalue() if options is None else COMMANDS[options.command].run(options))
        except (Refused, Misfiled) as error:
            _say(str(error))
            return 1
        except (Misuse, LibraryMissing) as error:
            _say(str(error))
            return 2
    except KeyboardInterrupt:
        _say("interrupted")
        return 2
    except MemoryError:
        _say("the machine has too little memory")
        return 2
    except Exception as error:  # a fault of this module: a line too
        _say(f"a fault of this command, and not of the files: {type(error).__name__}: {error}".replace("\n", " "))
        return 2
    return 0


if __name__ == "__main__":
    sys.exit(main())
