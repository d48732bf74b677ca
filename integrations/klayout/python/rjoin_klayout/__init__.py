"""Joins two layers of a layout by the program rjoin, into a report database of KLayout."""
