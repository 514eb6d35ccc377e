# Can the host tests fail? They are held against the model itself in the place of the library: as it
# is, when they must pass, and with one error put into a copy of it at a time, when they must not.
#
# This is the common part of the lists of errors. They set `tests`, the name of the tests, run from
# the project's root, and call
#
#   stand_in SOURCE...     builds these tests with the unchanged model as the library, and runs them
#   mutant NAME EDIT       the model changed by this sed script must be found out; `model` names the
#                          source that is changed
#   common_mutant NAME EDIT
#                          the same, with the error in the model, too: what the tests know by
#                          themselves must find it
#   header_mutant NAME SOURCE EDIT
#                          the same for the header that hosts include, as this source of the tests
#                          sees it
#   all_found              prints how many there were

cc=${CC:-gcc}
out=${TESTS_OUT:-target/tests}/mutants/$tests
flags='-Itests/model -Itests/host -Itests/host/compile'
header=include/pcf8820.h
parts='model display pixels four_chips glass pulses list plain compile wires'
mutants=0

stop() {
    echo "mutants: $*" >&2
    exit 1
}

compile() {
    # shellcheck disable=SC2086
    "$cc" -std=c11 -I"$(dirname "$header")" $flags "$@"
}

# as_library SOURCE OBJECT
as_library() {
    compile -O1 -w -include tests/host/stand_in.h -c "$1" -o "$2"
}

# link_tests CHANGED: that part of the library is the mutant. None, if it is no part.
link_tests() {
    changed=$1
    set --
    for part in $parts; do
        if [ "$part" = "$changed" ]; then
            set -- "$@" "$out/mutant.o"
        else
            set -- "$@" "$out/library/$part.o"
        fi
    done
    "$cc" "$out"/tests/*.o "$out"/model/*.o "$@" -o "$out/host"
}

stand_in() {
    rm -rf "$out"
    mkdir -p "$out/tests" "$out/model" "$out/library"
    for source in "$@"; do
        compile -O2 -c "$source" -o "$out/tests/$(basename "$source" .c).o"
    done
    for part in $parts; do
        compile -O2 -c "tests/model/$part.c" -o "$out/model/$part.o"
        as_library "tests/model/$part.c" "$out/library/$part.o"
    done
    link_tests none
    "$out/host" quick || stop "the tests fail on the unchanged model"
}

# change NAME EDIT FILE CHANGED
change() {
    sed "$2" "$3" >"$4"
    if cmp -s "$3" "$4"; then
        stop "$1: the edit finds nothing to change in $3"
    fi
}

# must_find NAME: the tests as they are linked now.
must_find() {
    status=0
    # The limit is of the processor's time: beside other work the clock says nothing.
    (ulimit -t 120 && exec "$out/host" quick) >"$out/log" 2>&1 || status=$?
    if [ "$status" -ne 1 ]; then
        cat "$out/log" >&2
        stop "$1: NOT found by the host tests (exit $status)"
    fi
    echo "found: $1 ($(sed -n '1s/^host tests: //p' "$out/log"))"
    mutants=$((mutants + 1))
}

mutant() {
    change "$1" "$2" "tests/model/$model.c" "$out/mutant.c"
    as_library "$out/mutant.c" "$out/mutant.o" || stop "$1: the changed model does not compile"
    link_tests "$model"
    must_find "$1"
}

# The model's object is kept, and put back.
common_mutant() {
    change "$1" "$2" "tests/model/$model.c" "$out/mutant.c"
    as_library "$out/mutant.c" "$out/mutant.o" || stop "$1: the changed model does not compile"
    mv "$out/model/$model.o" "$out/kept.o"
    compile -O1 -w -c "$out/mutant.c" -o "$out/model/$model.o"
    link_tests "$model"
    must_find "$1, in the model too"
    mv "$out/kept.o" "$out/model/$model.o"
}

# The object of that source is kept, and put back.
header_mutant() {
    object=$out/tests/$(basename "$2" .c).o
    mkdir -p "$out/include"
    change "$1" "$3" "$header" "$out/include/pcf8820.h"
    mv "$object" "$out/kept.o"
    (header=$out/include/pcf8820.h && compile -O2 -c "$2" -o "$object") || stop "$1: the changed header does not compile"
    link_tests none
    must_find "$1"
    mv "$out/kept.o" "$object"
}

all_found() {
    echo "mutants: $mutants errors put into the model of $tests, all found"
}
