"""The command picky, as `python3 -m picky`."""
import sys

from .command.parser import main

if __name__ == "__main__":
    sys.exit(main())
