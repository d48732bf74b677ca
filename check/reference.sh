#!/usr/bin/env bash
# Tests the plain computation of matrices by itself, and compares the program with it.
#     check/reference.sh [WORDS FOR compare]
# The last line counts, and the status is 1 where something failed.
set -eu
cd "$(dirname "${BASH_SOURCE[0]}")/../crates/shape_tests/reference"
export PYTHONDONTWRITEBYTECODE=1
python3 test_reference.py
exec ./compare "$@"
