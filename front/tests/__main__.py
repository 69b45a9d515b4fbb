"""`python3 -m tests`, in the folder `front`: runs all tests, and says which weren't run, and why."""

import sys
import unittest


def main() -> int:
    """Runs all tests; the status is 1 where one fails."""
    suite = unittest.defaultTestLoader.discover("tests", top_level_dir=".")
    result = unittest.TextTestRunner(buffer=True).run(suite)
    for test, reason in result.skipped:
        print(f"not run: {test.id()}: {reason}", file=sys.stderr)
    return 0 if result.wasSuccessful() else 1


if __name__ == "__main__":
    sys.exit(main())
