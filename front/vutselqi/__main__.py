"""`python3 -m vutselqi`."""

import sys

from vutselqi.commands import main

if __name__ == "__main__":
    sys.exit(main())
