"""Joins of layers that are larger than one run of rjoin takes, by tiles on a dask cluster."""
__version__ = "0.2.0"
