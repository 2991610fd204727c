"""What the programs of peer/ and bench/ are given, and what must be there before they start: where it is not, they say so in one line."""
import argparse
import os
import shutil
import subprocess
import sys


def repository(path):
    if not os.path.exists(os.path.join(path, "crates.txt")):
        raise argparse.ArgumentTypeError(f"no crates.txt in {path}")
    return path


def count(word):
    if not word.isdecimal() or int(word) == 0:
        raise argparse.ArgumentTypeError(f"{word} is no count")
    return int(word)


def arguments(doc, default=None):
    """A parser that takes a repository; without one it takes the default, if any."""
    words = argparse.ArgumentParser(description=doc, formatter_class=argparse.RawDescriptionHelpFormatter)
    words.add_argument("repository", type=repository, nargs="?" if default else None, default=default)
    return words


def made(path, command):
    if not os.path.exists(path):
        sys.exit(f"no {path}: first `{command}`")


def installed(*commands):
    for command in commands:
        if shutil.which(command) is None:
            sys.exit(f"no {command} on this machine: install it first")


def run(words):
    """Runs a command that says itself what is wrong."""
    if subprocess.run(words).returncode:
        sys.exit(f"{words[0]} failed")
