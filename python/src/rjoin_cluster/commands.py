"""The commands, each of which runs the program's of the same name, and options of both."""

JOIN = "join"
NEAR = "near"
NEAREST = "nearest"
WINDOW = "window"
STATS = "stats"
BOUNDS = "bounds"
OF_ONE_LAYER = (WINDOW, STATS, BOUNDS)
PAIRS = "--pairs"
EDITS = "--edits"
