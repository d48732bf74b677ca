"""Runs the command, as `python3 -m rjoin_cluster`."""
import sys

from rjoin_cluster.command import main

if __name__ == "__main__":
    sys.exit(main())
