#!/usr/bin/env bash
# Runs the tests of the integrations with the hosts that are installed; a host that isn't there is named as skipped, and
# check/install.py installs it. Python and tools are those of Debian 12, whatever else is on the PATH. The program is that of
# RJOIN, else the one on the PATH, else this checkout's. The last line counts; the status is 1 where a test failed.
set -u
export PATH=/usr/bin:/bin:$PATH
cd "$(dirname "${BASH_SOURCE[0]}")/../integrations" || exit 2

python=/usr/bin/python3
if ! "$python" -c 'import pytest' 2>/dev/null; then
    echo "skipped  all: pytest is not installed; $(../check/install.py --missing integrations)"
    echo "integrations: 0 passed, 0 failed, 1 skipped"
    exit 0
fi

report=$(mktemp)
trap 'rm -f "$report"' EXIT
PYTHONDONTWRITEBYTECODE=1 "$python" -m pytest -q -rs --no-header -p no:cacheprovider --junitxml "$report" tests "$@"
"$python" - "$report" <<'COUNT'
import sys
import xml.etree.ElementTree as ElementTree

try:
    suite = next(ElementTree.parse(sys.argv[1]).getroot().iter("testsuite"))
except (ElementTree.ParseError, StopIteration):
    print("integrations: 0 passed, 1 failed, 0 skipped")
    sys.exit(1)
failed = int(suite.get("failures")) + int(suite.get("errors"))
skipped = int(suite.get("skipped"))
print(f"integrations: {int(suite.get('tests')) - failed - skipped} passed, {failed} failed, {skipped} skipped")
sys.exit(1 if failed else 0)
COUNT
