# Read by ./test, ./steps, ./bench, host/memcheck and host/lookups: what they need beside the machine's base system, and how they get it.
# Whoever reads it has a function `say`.

# The Debian packages of a tool. The Rattle kit is in none.
packages_of() { # TOOL
    case $1 in
    rt) ;;
    awk) echo mawk ;;
    cc) echo gcc libc6-dev ;;
    cmp) echo diffutils ;;
    find) echo findutils ;;
    lmdb) echo liblmdb-dev ;;
    valgrind) echo valgrind libc6-dbg ;;
    *) echo "$1" ;;
    esac
}

# Whether a tool is there, with the files that it does nothing without.
is_there() { # TOOL
    case $1 in
    # cc names the file alone where it has not found it
    cc) command -v cc >/dev/null && case $(cc -print-file-name=crt1.o) in /*) ;; *) false ;; esac ;;
    lmdb) command -v cc >/dev/null && case $(cc -print-file-name=liblmdb.so) in /*) ;; *) false ;; esac ;;
    # on Debian it does not start without the C library's symbols
    valgrind) command -v valgrind >/dev/null && valgrind --quiet true >/dev/null 2>&1 ;;
    *) command -v "$1" >/dev/null ;;
    esac
}

# Leaves in `missing` those of the tools that are not there, and in `packages` what Debian has them in.
look() { # TOOL..
    missing='' packages=''
    for tool; do
        is_there "$tool" && continue
        missing="$missing $tool"
        found=$(packages_of "$tool")
        packages="$packages${found:+ $found}"
    done
}

# Sees to it that the tools are there. What is missing is installed where that may be done: by root, on a machine with
# apt-get; it is told on standard error. Where something stays missing, `lacks` says so in one line, and this fails.
need() { # TOOL..
    look "$@"
    lacks='' install="apt-get install -y --no-install-recommends$packages"
    if [ -n "$packages" ] && [ "$(id -u)" = 0 ] && command -v apt-get >/dev/null; then
        say "not found:$missing; installing: $install" >&2
        { apt-get update -qq && DEBIAN_FRONTEND=noninteractive $install -qq; } </dev/null >&2 ||
            say "apt-get has failed" >&2
        look "$@"
        install="apt-get install -y --no-install-recommends$packages"
    fi
    [ -n "$missing" ] || return 0
    lacks="not found:$missing"
    [ -z "$packages" ] || lacks="$lacks; run as root: $install"
    case "$missing " in *' rt '*) lacks="$lacks (rt is of the Rattle kit: put it on PATH)" ;; esac
    return 1
}
