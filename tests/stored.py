"""What the scripts of this folder share: the files that they work out are stored in the repository, written by main or, with --check,
compared with what is stored and not written."""
import argparse
import os
import sys

ROOT = os.path.dirname(os.path.dirname(os.path.abspath(__file__)))


def difference(stored, wanted):
    """Where the stored bytes are first not those that are worked out, counted as cmp counts; nothing where they are the same."""
    if stored == wanted:
        return ""
    at = next((i for i, (x, y) in enumerate(zip(stored, wanted)) if x != y), min(len(stored), len(wanted)))
    return f"differs at byte {at + 1}, line {wanted[:at].count(10) + 1}"


def fault(path, wanted):
    """What is wrong with the stored file, in words, or nothing."""
    try:
        with open(os.path.join(ROOT, path), "rb") as f:
            return difference(f.read(), wanted)
    except FileNotFoundError:
        return "is not there"


def write(files):
    for path, wanted in files.items():
        with open(os.path.join(ROOT, path), "wb") as f:
            f.write(wanted)


def check(files):
    """Whether every file is stored as it is worked out; says which are not, and where."""
    script = "tests/" + os.path.basename(sys.argv[0])
    faults = {path: fault(path, wanted) for path, wanted in files.items()}
    for path, words in faults.items():
        if words:
            print(f"{script}: {path} {words}")
    if any(faults.values()):
        return False
    print(f"{script}: {len(files)} files, as they are stored")
    return True


def main(files):
    """Writes or compares the files: the bytes of each by its path from the repository's root."""
    arguments = argparse.ArgumentParser(description="Writes the stored files that this script works out.")
    arguments.add_argument("--check", action="store_true", help="write nothing, and say which stored files differ from what is worked out")
    if not arguments.parse_args().check:
        write(files)
    elif not check(files):
        sys.exit(1)
