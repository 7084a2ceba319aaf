"""Builds the program without proving anything, to measure a change before its proof is written.

    bench/run unproved PROGRAM [--checkout FOLDER]

What it builds is for `bench/run ladder --program` and for profiles alone; `tools/launcher/unproved.py` builds it, and tells
how, and that nothing is known of it.
"""
import argparse
import os
import sys

from launcher.unproved import Failed, build
from program import TOP


def main(words):
    parser = argparse.ArgumentParser(prog="bench/run unproved", description=__doc__, formatter_class=argparse.RawDescriptionHelpFormatter)
    parser.add_argument("program", help="where to write it")
    parser.add_argument("--checkout", default=TOP, help="the checkout to build; this one else")
    chosen = parser.parse_args(words)
    try:
        build(os.path.realpath(chosen.checkout), "qc_program", os.path.realpath(chosen.program))
    except Failed as error:
        sys.exit(f"bench/run unproved: {error}")
