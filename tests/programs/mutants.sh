#!/bin/sh
# Can the tests of the programs fail? They are held against the model's own programs: as they are, when
# they must pass, and with one error put into a copy of a source at a time, when they must not. Run from
# the project's root.
#
# The errors stand in tests/programs/errors.sh, errors_told.sh and errors_wires.sh. As many are tried at a time as
# there are cores.
set -eu

cc=${CC:-gcc}
# The program itself: a wrapper of that name would be run for each error, and may take longer than Python.
python=$(python3 -c 'import sys; print(sys.executable)')
out=${TESTS_OUT:-target/tests}/mutants/programs
flags='-std=c11 -Itests/model -O1 -w'
programs='replay view draw compare search who state trace wires'

# What the list of errors sets, and how many errors of it were met.
model=
groups=
mutants=0

stop() {
    echo "mutants: $*" >&2
    exit 1
}

# parts PROGRAM: the model's sources that it is made of.
parts() {
    case $1 in
    replay) echo replay capture program model display pixels ;;
    view) echo view capture program model display pixels glass ;;
    draw) echo draw program compile plain list model display ;;
    compare) echo compare capture names program model display pixels ;;
    search) echo search program model display ;;
    who) echo who capture program model display pixels glass ;;
    state | trace) echo "$1" capture names program model display pixels ;;
    wires) echo wires wires_program program ;;
    esac
}

# link_program PROGRAM DIRECTORY CHANGED: the part that is changed is the directory's own, none if it is no part.
link_program() {
    objects=
    for part in $(parts "$1"); do
        if [ "$part" = "$3" ]; then
            objects="$objects $2/$part.o"
        else
            objects="$objects $out/objects/$part.o"
        fi
    done
    # shellcheck disable=SC2086
    "$cc" $objects -o "$2/$1"
}

# holds DIRECTORY GROUP...
holds() {
    directory=$1
    shift
    "$python" -B tests/programs/main.py --status "$directory" "$out/model" quick "$@"
}

build_model() {
    rm -rf "$out"
    mkdir -p "$out/objects" "$out/model" "$out/tried"
    for part in $programs wires_program capture names program compile plain list model display pixels glass; do
        # shellcheck disable=SC2086
        "$cc" $flags -c "tests/model/$part.c" -o "$out/objects/$part.o"
    done
    for program in $programs; do
        link_program "$program" "$out/model" none
    done
}

# taken NUMBER: whether this worker is the first one to come here. Its directory is `own` then.
taken() {
    own=$out/tried/$1
    mkdir "$own" 2>/dev/null
}

unchanged() {
    taken 0 || return 0
    holds "$out/model" >"$own/found" || stop "the tests fail on the unchanged programs"
}

# The programs with the changed part; those that do not have it are the model's.
build_mutant() {
    # shellcheck disable=SC2086
    "$cc" $flags -c "$own/$model.c" -o "$own/$model.o" || stop "$1: the changed source does not compile"
    for program in $programs; do
        case " $(parts "$program") " in
        *" $model "*) link_program "$program" "$own" "$model" ;;
        *) ln "$out/model/$program" "$own/$program" ;;
        esac
    done
}

# mutant NAME EDIT: the source `model`, changed by this sed script, must be found out by `groups`.
mutant() {
    mutants=$((mutants + 1))
    taken "$mutants" || return 0
    sed "$2" "tests/model/$model.c" >"$own/$model.c"
    if cmp -s "tests/model/$model.c" "$own/$model.c"; then
        stop "$1: the edit finds nothing to change in $model.c"
    fi
    build_mutant "$1"
    status=0
    # shellcheck disable=SC2086
    holds "$own" $groups >"$own/log" 2>&1 || status=$?
    if [ "$status" -ne 1 ] || ! grep -q '^programs: DIFFERENT' "$own/log" || grep -q 'no end after' "$own/log"; then
        cat "$own/log" >&2
        stop "$1: NOT found by the tests of the programs (exit $status)"
    fi
    printf 'found: %s (%s)\n' "$1" "$(sed -n '1s/^programs: DIFFERENT, //p' "$own/log")" >"$own/found"
}

# Each worker goes through the whole list and tries what no other has begun.
work() {
    unchanged
    # shellcheck source=tests/programs/errors.sh
    . tests/programs/errors.sh
    # shellcheck source=tests/programs/errors_told.sh
    . tests/programs/errors_told.sh
    # shellcheck source=tests/programs/errors_wires.sh
    . tests/programs/errors_wires.sh
    echo "$mutants" >"$out/mutants"
}

build_model
workers=
for _ in $(seq "$(nproc)"); do
    work &
    workers="$workers $!"
done
good=yes
for worker in $workers; do
    wait "$worker" || good=no
done
[ "$good" = yes ] || exit 1

read -r mutants <"$out/mutants"
for number in $(seq 0 "$mutants"); do
    cat "$out/tried/$number/found"
done
echo "mutants: $mutants errors put into the model's programs, all found"
