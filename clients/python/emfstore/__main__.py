"""The commands of this package: `python3 -m emfstore send SCRIPT`, and `python3 -m emfstore check FILE.json [METAMODEL.json]`."""
from __future__ import annotations

import sys

from emfstore import checker, sender

COMMANDS = {"send": sender.main, "check": checker.main}


def main() -> int:
    """Runs the command that the first word names."""
    command = COMMANDS.get(sys.argv[1]) if len(sys.argv) > 1 else None
    if command is None:
        print(__doc__, file=sys.stderr)
        return 2
    return command(sys.argv[2:])


if __name__ == "__main__":
    sys.exit(main())
