"""The command line of `tools/trace`. Exit status: 0 done; 1 a mistake in what was read; 2 bad usage, or reading or writing failed."""
import argparse
import signal

from . import streams
from .assemble import decoded, trace_of
from .explain import Explainer, Known, known_of
from .help import HELP, USAGE
from .layout import spelled
from .show import shown
from .streams import Progress, Trouble, complain
from .values import TWO_DIGITS, Mistake

USUAL = Known(bytes((0x5A, 0xA5)), True)


class Parser(argparse.ArgumentParser):
    def error(self, message):
        raise Trouble(f"{message}\n{USAGE}")


def hex_byte(word):
    try:
        return TWO_DIGITS.of(word)
    except Mistake as mistake:
        raise argparse.ArgumentTypeError(str(mistake)) from None


def parsed(arguments):
    parser = Parser(prog="trace", add_help=False, allow_abbrev=False)
    commands = parser.add_subparsers(dest="command", metavar="COMMAND", required=True, parser_class=Parser)
    for name in ("write", "show", "explain", "help"):
        command = commands.add_parser(name, add_help=False, allow_abbrev=False)
        if name != "help":
            command.add_argument("file", nargs="?", metavar="FILE")
        if name == "explain":
            command.add_argument("--trace", metavar="TRACE")
            command.add_argument("--header", nargs=2, type=hex_byte, metavar=("H1", "H2"))
            command.add_argument("--no-checking", action="store_true")
    return parser.parse_args(["help"] if "-h" in arguments or "--help" in arguments else arguments)


# ---- The commands

def write(options):
    source = streams.name_of(options.file)
    streams.write(trace_of(decoded(streams.whole(options.file), source), source, Progress("lines of text read")))
    return 0


def show(options):
    streams.write_pieces(shown(streams.whole(options.file)), Progress("bytes of text written"))
    return 0


def known(options):
    if options.trace is None:
        header = USUAL.header if options.header is None else bytes(options.header)
        return Known(header, not options.no_checking)
    if options.header is not None or options.no_checking:
        raise Trouble(f"--trace says header and checking: --header and --no-checking cannot stand beside it\n{USAGE}")
    found = known_of(streams.whole(options.trace))
    if found is None:
        complain(f"{options.trace} does not begin with a setup: taken are header {spelled(USUAL.header)} and checking")
    return found or USUAL


def explain(options):
    explainer = Explainer(known(options))
    for lines in streams.lines(options.file):
        streams.write("".join(explainer.explained(line) for line in lines).encode())
    streams.write(explainer.finished().encode())
    if explainer.strange:
        raise Mistake(f"{streams.name_of(options.file)}: this is not what the program prints: see the {explainer.strange} marked above with 'not'")
    return 0


def print_help(options):
    streams.write(HELP.encode())
    return 0


def main(arguments):
    signal.signal(signal.SIGPIPE, signal.SIG_DFL)       # whoever reads the output may stop early, and nothing is to be said then
    signal.signal(signal.SIGINT, signal.SIG_DFL)
    try:
        options = parsed(arguments)
        return {"write": write, "show": show, "explain": explain, "help": print_help}[options.command](options)
    except Mistake as mistake:
        complain(mistake)
        return 1
    except Trouble as trouble:
        complain(trouble)
        return 2
    except MemoryError:
        complain("there is not enough memory")
        return 2
