"""Counts what passed and what failed in the programs in Python that tests and the test command run."""
import os
import pathlib
import sys

HERE = pathlib.Path(__file__).resolve().parent.parent
counts = {"passed": 0, "failed": 0, "skipped": 0}


def count(word, line=None):
    """Counts one of the three, and prints a line. The test command prints all failures again at its end."""
    counts[word] += 1
    if line is not None:
        print(line, flush=True)
    if word == "failed" and os.environ.get("SLH_FAILURES"):
        with open(os.environ["SLH_FAILURES"], "a") as failures:
            failures.write((line or "a test without a name").splitlines()[-1] + "\n")


def tell(name, is_right):
    """Counts a test, and prints its line."""
    count("passed" if is_right else "failed", f"{name}: {'yes' if is_right else 'no'}")


def end_counts():
    """Prints the counts as the last line, and ends. The status is 0 where nothing failed, and something was run."""
    if not sum(counts.values()):
        count("failed", "something was run: no")
    print(", ".join(f"{number} {word}" for word, number in counts.items()))
    sys.exit(counts["failed"] != 0)


def nothing_to_test(why):
    print(f"{pathlib.Path(sys.argv[0]).name}: {why}", file=sys.stderr)
    sys.exit(2)
