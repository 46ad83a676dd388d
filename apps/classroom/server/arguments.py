"""What ./class is asked for. Run as a program it only tells: see STATUS."""

import argparse
import os
import sys

PORT = 8891
SEATS = 4
MOST_SEATS = 16

# How the program ends: the class is to be served, an argument is wrong, the help was printed, a file is
# to be replayed. Python itself ends with 1 or 2 on an error, so the last two are other numbers.
SERVE, WRONG, HELP, REPLAY = 0, 2, 77, 78


def whole(least, most):
    """Reads a whole number of that range."""

    def read(text):
        if not (text.isascii() and text.isdigit() and len(text) < 10 and least <= int(text) <= most):
            raise argparse.ArgumentTypeError(f"must be a whole number from {least} to {most}")
        return int(text)

    return read


def file_to_read(text):
    """The whole path of a file that can be read."""
    if not os.path.isfile(text) or not os.access(text, os.R_OK):
        raise argparse.ArgumentTypeError(f"names no file that can be read: {text}")
    return os.path.abspath(text)


class _Parser(argparse.ArgumentParser):
    def error(self, message):
        if message.startswith("argument "):
            message = message.removeprefix("argument ").replace(": ", " ", 1)
        message = message.replace("expected one argument", "lacks its value")
        message = message.replace("unrecognized arguments:", "there is no option")
        self.exit(WRONG, f"{message}\n./class --help tells more.\n")


def parser():
    """The arguments of ./class."""
    made = _Parser(
        prog="./class",
        allow_abbrev=False,
        add_help=False,
        usage="./class [--new] [--store FILE] [--port N] [--seats N]\n"
        "               [--open-to-the-net [--certificate FILE | --plain]]\n"
        "       ./class --replay FILE",
        description="A class of HELLO hosts in browsers: prints the teacher's address and one for "
        "each seat, and serves until it is stopped (Ctrl-C). Everything is kept in a store, and the "
        "last class is resumed, with its addresses and keys.",
        epilog="HELLO_SO names a ready libhello.so, HELLO_LIB the folder of libhello.a and libclass_bench.a. "
        "Without them, rt proves and builds the library in target/, in some minutes. The Debian packages "
        "python3-aiohttp and python3-qrcode are installed if they are missing.",
    )
    made.add_argument("-h", "--help", action="store_true", help="prints this")
    made.add_argument(
        "--port",
        type=whole(0, 65535),
        metavar="N",
        help=f"the port of the server; 0 takes a free one. If not said, the port that the class had, "
        f"or {PORT}",
    )
    made.add_argument(
        "--seats",
        type=whole(1, MOST_SEATS),
        metavar="N",
        help=f"how many students a new class has, 1 to {MOST_SEATS} ({SEATS} if not said)",
    )
    made.add_argument("--new", action="store_true", help="begins another class, and keeps the last one")
    made.add_argument(
        "--store",
        metavar="FILE",
        help="the file of the class: resumed if there is one, else made. If not said, the last one of "
        "the folder that HELLO_CLASSES names, or of classes/ beside ./class",
    )
    made.add_argument(
        "--open-to-the-net",
        action="store_true",
        help="other machines may come too, by TLS; without it, this machine alone. A certificate is "
        "made at the first start, and its fingerprint is printed",
    )
    made.add_argument(
        "--certificate",
        type=file_to_read,
        metavar="FILE",
        help="a certificate of your own for --open-to-the-net: a PEM file with its chain and its key",
    )
    made.add_argument(
        "--plain",
        action="store_true",
        help="--open-to-the-net without TLS: anyone in the net can read the keys",
    )
    made.add_argument(
        "--replay",
        type=file_to_read,
        metavar="FILE",
        help="makes the calls of a file again, and says whether all ends equal",
    )
    return made


def read(arguments):
    """The arguments as an object with port, seats, new, store, open_to_the_net, certificate, plain,
    replay, help."""
    made = parser()
    asked = made.parse_args(arguments)
    if (asked.plain or asked.certificate) and not asked.open_to_the_net:
        made.error("--plain and --certificate are for --open-to-the-net")
    if asked.plain and asked.certificate:
        made.error("--plain has no certificate")
    return asked


def main():
    """Ends with one of the numbers above."""
    asked = read(sys.argv[1:])
    if asked.help:
        parser().print_help()
        return HELP
    return REPLAY if asked.replay else SERVE


if __name__ == "__main__":
    sys.exit(main())
