#!/usr/bin/env bash
# Installs the packages into a new environment beside Debian's modules, checks types and style, also those of the
# repository's scripts, and runs the tests.
#     check/python.sh [WORDS FOR PYTEST]
# What is not installed is named and skipped; check/install.py installs it. Tools are those of Debian 12, whatever else is on
# the PATH. The program is RJOIN's, or the one that the repository has built. The last line counts, and the status is 1
# where something failed.
set -u
export PATH=/usr/bin:/bin:$PATH
root=$(cd "$(dirname "${BASH_SOURCE[0]}")/.." && pwd)
here=$root/python
reference=$root/crates/shape_tests/reference
python=${PYTHON:-/usr/bin/python3}
work=$(mktemp -d)
trap 'rm -rf "$work"' EXIT
passed=0 skipped=0 failed=0

count() { # what happened, and to what
    printf '%-8s %s\n' "$1" "$2"
    case $1 in
        passed) passed=$((passed + 1)) ;;
        skipped) skipped=$((skipped + 1)) ;;
        *) failed=$((failed + 1)) ;;
    esac
}

step() { # a name and a command
    local name=$1
    shift
    if "$@" >"$work/log" 2>&1; then
        count passed "$name"
    else
        count failed "$name"
        cat "$work/log"
    fi
}

finish() {
    echo "python: $passed passed, $failed failed, $skipped skipped"
    [ "$failed" -eq 0 ]
    exit
}

# What other versions find differs.
declare -A pinned=([flake8]=5.0.4 [mypy]=1.0.1)

tool() { # a name, a module of Python and its words
    local name=$1 module=$2 found
    shift 2
    found=$("$python" -m "$module" --version 2>/dev/null | grep -oE '[0-9]+(\.[0-9]+)+' | head -n 1)
    if [ "$found" = "${pinned[$module]}" ]; then
        step "$name" "$python" -m "$module" "$@"
    else
        count skipped "$name: $module ${pinned[$module]} is not installed${found:+, but $found}"
    fi
}

install() {
    cp -r "$here" "$work/source"
    "$python" -m venv --system-site-packages "$work/venv" &&
        "$work/venv/bin/python" -m pip install --no-build-isolation --no-index --quiet --disable-pip-version-check \
            "$work/source"
}

types() { # a name and files, for mypy
    local name=$1
    shift
    MYPYPATH=$here/src:$here/tests:$root/bench:$root/packaging:$root/tools:$reference tool "types of $name" \
        mypy --config-file "$here/pyproject.toml" --cache-dir "$work/mypy" --scripts-are-modules "$@"
}

scripts() { # a folder of the repository: its Python files, and what runs by Python
    find "$root/$1" -maxdepth 1 -type f \( -name '*.py' -o -exec grep -q '^#!.*python3' {} \; \) -print | sort
}

# The last line of a script has its counts: geopandas: 160 passed, 0 failed, 0 skipped
counted() { # a name, and a command
    local name=$1
    shift
    "$@" >"$work/log" 2>&1
    local status=$? found
    found=$(tail -n 1 "$work/log" | grep -oE '^[a-z]+: [0-9]+ passed, [0-9]+ failed, [0-9]+ skipped$')
    if [ -z "$found" ]; then
        count failed "$name"
        cat "$work/log"
        return
    fi
    echo "$found"
    [ "$status" -eq 0 ] || cat "$work/log"
    read -r _ good _ bad _ left _ <<<"$found"
    passed=$((passed + good)) failed=$((failed + bad)) skipped=$((skipped + left))
}

# pytest's last line has its counts, such as: 160 passed, 2 skipped in 40.00s
counts_of() { # a word
    tail -n 1 "$work/tests" | grep -oE "[0-9]+ $1" | cut -d' ' -f1 || true
}

tests() { # a folder and words for pytest
    (cd "$work" && "$work/venv/bin/python" -m pytest -q -rs -p no:cacheprovider --rootdir "$here" \
        -c "$here/pyproject.toml" "$@" 2>&1) | tee "$work/tests"
    local status=${PIPESTATUS[0]} few
    for word in passed skipped failed error; do
        few=$(counts_of "$word")
        case $word in
            passed) passed=$((passed + ${few:-0})) ;;
            skipped) skipped=$((skipped + ${few:-0})) ;;
            *) failed=$((failed + ${few:-0})) ;;
        esac
    done
    # no tests at all end with 5, and a crash with no counts
    [ "$status" -le 1 ] || [ "$failed" -gt 0 ] || failed=1
}

for module in venv ensurepip pip setuptools wheel numpy pandas; do
    if ! "$python" -c "import $module" 2>/dev/null; then
        count skipped "all: the Python module $module is not installed; $("$root/check/install.py" --missing python)"
        finish
    fi
done
export RJOIN=${RJOIN:-$root/crates/rjoin/out/rjoin} PYTHONDONTWRITEBYTECODE=1
folders=("$here/tests")
if "$python" -c "import distributed" 2>/dev/null; then
    folders+=("$here/tests_cluster")
else
    count skipped "tests_cluster: the Python module distributed is not installed"
fi
step "pip install" install
[ "$failed" -eq 0 ] || finish
for folder in src "${folders[@]##*/}"; do
    types "$folder" "$here/$folder"
done
tool style flake8 --max-line-length 100 --extend-ignore E203 "$here/src" "${folders[@]}"
all=()
for folder in bench check crates/shape_tests/reference packaging tools; do
    mapfile -t files < <(scripts "$folder")
    types "the scripts in $folder" "${files[@]}"
    all+=("${files[@]}")
done
tool "style of the scripts" flake8 --max-line-length 120 "${all[@]}"
if "$work/venv/bin/python" -c "import pytest" 2>/dev/null; then
    for folder in "${folders[@]}"; do tests "$folder" "$@"; done
    if "$work/venv/bin/python" -c "import geopandas" 2>/dev/null; then
        counted "GeoPandas' own tests" "$work/venv/bin/python" "$root/check/geopandas_tests.py"
    else
        count skipped "GeoPandas' own tests: GeoPandas is not installed"
    fi
else
    count skipped "tests: pytest is not installed"
fi
finish
