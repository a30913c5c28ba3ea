# shellcheck shell=bash
# What bin/trace and bin/cases share. They source it; it is no command by itself. Each of them runs a program of this
# repository on one file: here the arguments are judged, and the program is built where it is missing or older than its
# sources.

# A descriptor that is closed stays unusable, but is not free: the shell would take it for its own pipes.
{ : 3<&0; } 2>/dev/null || exec 0>/dev/null
{ : 3>&1; } 2>/dev/null || exec 1</dev/null
root=$(readlink -f -- "$(dirname "${BASH_SOURCE[0]}")/../..")

# prepare NAME EXAMPLE ARGUMENT..: the program NAME is built, `program` is its file, and standard input is what it is to
# run on. That is the EXAMPLE where no file is named and standard input is a terminal. The function `explain` prints the
# help, but for what it says of building.
prepare() {
    local name=$1 example=$2 file building=
    shift 2
    case $#:${1-} in
        1:-h | 1:--help)
            explain
            cat <<'END'

The program is built when it is first run, and again when its sources have
changed. The first build proves the program and takes some minutes.
END
            exit 0
            ;;
        0:) if [ -t 0 ]; then file=$root/$example; else file=-; fi ;;
        1:- | 1:[!-]* | 1:) file=$1 ;;
        *)
            echo "usage: bin/$name [FILE]; bin/$name --help says more" >&2
            exit 2
            ;;
    esac
    if [ "$file" != - ] && { [ -d "$file" ] || [ ! -r "$file" ]; }; then
        echo "bin/$name: cannot read '$file'" >&2
        exit 1
    fi

    # What rt makes stands in the folders out/, which are no sources.
    program=$root/crates/$name/out/$name
    if [ ! -x "$program" ]; then
        building='the program is not built yet; it is proved first, which takes some minutes'
    elif [ "$root/crates.txt" -nt "$program" ] ||
        [ -n "$(find "$root/crates" -mindepth 2 -name out -prune -o -newer "$program" -print -quit)" ]; then
        building='the sources have changed; the program is proved and built again'
    fi
    if [ -n "$building" ]; then
        echo "bin/$name: $building" >&2
        # rt runs what it has built, here on no input: what the program prints then is dropped.
        (cd "$root/crates/$name" && rt run) </dev/null >/dev/null
        touch "$program"
    fi
    [ "$file" = - ] || exec <"$file"
}
