"""python3 -m rjoin"""
import sys

from rjoin.command import main

sys.exit(main())
