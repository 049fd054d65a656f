"""The arguments of scripts, as the page at the head of a script describes them, and the program that they try."""

import argparse
import sys

import runs


class Page(argparse.Action):
    """An option that prints the page of a script, and ends it."""

    def __call__(self, parser, namespace, values, option_string=None):
        print(self.const)
        parser.exit()


def parser_of(page):
    """A parser that has the usage line of a script's page, and the option --help, which prints the page."""
    parser = argparse.ArgumentParser(usage=page.split("usage: ")[1].split("\n")[0], add_help=False)
    parser.add_argument("-h", "--help", action=Page, nargs=0, const=page.strip(), default=argparse.SUPPRESS)
    return parser


def program_of(options):
    """The path of cvwatch, which the option --cvwatch may name. Without one the script ends with status 2."""
    return runs.find_program(options.cvwatch) or sys.exit(2)
