# shellcheck shell=sh
# How both launchers, the checkout's ./rjoin and the installed rjoin, run the built program. Whoever includes this file
# defines `commit`, which prints the commit that the program was built from.

# Layers of a million features take some hundred megabytes, and the system clears each page that it hands out: the C
# library is asked for huge pages, to take memory by 4 MiB, the longest lists among it, and to keep what is freed for
# what comes next. It reads this before the program begins.
tunables=glibc.malloc.hugetlb=1:glibc.malloc.top_pad=4194304:glibc.malloc.mmap_threshold=4294967296
tunables=$tunables:glibc.malloc.trim_threshold=4294967296

# Prints the version that the program tells, and the commit, which it can't know.
print_version() {
    version=$("$@") || return
    if ! printf '%s (commit %s)\n' "$version" "$(commit)" 2>/dev/null; then
        echo "rjoin: write failed" >&2
        return 1
    fi
}

# launch PROGRAM WORD..: runs the program in place of the shell.
launch() {
    case ${2-} in
    -V | --version)
        print_version "$@"
        exit
        ;;
    esac
    # Boxes lie in a few long lists, which take the least memory in one arena. Geometries of any kind lie in many short
    # ones, for which threads would wait at one arena.
    case " $* " in
    *[\ =]any\ *) arenas=2 ;;
    *) arenas=1 ;;
    esac
    export GLIBC_TUNABLES="${GLIBC_TUNABLES:-$tunables:glibc.malloc.arena_max=$arenas}"
    exec "$@"
}
