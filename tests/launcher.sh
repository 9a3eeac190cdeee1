#!/usr/bin/env bash
# Tries the launcher `cilkm`. Most cases run a copy of it, in a folder of their own, over a stand-in for rt that proves
# nothing; the last ones run the launcher itself and the proved program, which `rt ci` or an earlier start has left.
# (Else it is proved and built first.)
# One line a case; the last line is 'N passed, M failed', and the status is 0 where M is 0.
set -u

top=$(cd "$(dirname "$0")/.." && pwd)
room=$(mktemp -d) || exit 1
trap 'rm -rf "$room"' EXIT
passed=0
failed=0

# --- The stand-in for rt -----------------------------------------------------------------------------------------

# Says, builds and leaves behind what `rt run` does, as STAND_IN tells, and notes each call in CALLS. `rt try` runs the
# sources and builds nothing.
mkdir "$room/bin"
cat >"$room/bin/rt" <<'END'
#!/usr/bin/env bash
set -u
made_from() { cat ../../crates.txt ../*/{src,specs,proofs}/*.* | cksum; }
echo "$*" >>"$CALLS"
if [ "${1-} ${2-}" = 'try --' ]; then
    shift 2
    [ "$STAND_IN" != endless ] || { echo 'run=no-answer proved=no' >&2 && exit 6; }
    echo "interpreted: $(cat src/main.rt)"
    printf '<%s>' "$@"
    cat
    echo 'run=ended status=3 runners=1 proved=no' >&2
    exit 3
fi
[ "${1-} ${2-}" = 'run --' ] || exit 2
shift 2
exec 3>&1 >&2 # the program's output is rt's, and rt's own lines go to standard error
sum=$(made_from)
text=$(cat src/main.rt)
if [ -x out/cilkm ] && [ "$(cat out/cilkm.stamp 2>/dev/null)" = "$sum" ]; then
    echo 'rt: nothing has changed since the last proved build, by out/cilkm.stamp, so nothing is checked now'
else
    rm -f out/cilkm.stamp
    mkdir -p out
    echo 'only=0 proved=0'
    for crate in base middle cilkm; do
        echo "rt: chose --jobs 2 for $crate"
        echo 'so far: 0 of 1 functions checked; the verdict comes last'
        case $STAND_IN in
            held) echo held >"$CALLS.held" && while [ -e "$CALLS" ] && [ ! -e "$CALLS.go" ]; do sleep 0.02; done ;;
            endless) sleep 60 & echo $$ $! >"$CALLS.processes" && wait ;;
            refused) echo 'logic=not-proved' && exit 1 ;;
        esac
        echo "fn $crate::first: proved"
        echo "crate $crate: modules loaded=1 checked=1"
        echo 'logic=proved functions=1'
    done
    case $STAND_IN in
        unlinked) echo 'rattle-link: no output' && exit 2 ;;
        half) echo 'half of a program' >out/cilkm && chmod +x out/cilkm && exit 2 ;;
    esac
    cat >out/cilkm.new <<PROGRAM
#!/usr/bin/env bash
echo 'made from: $text'
printf '<%s>' "\$@"
echo
cat
[ "\$*" = serial ] || exit 42
PROGRAM
    chmod +x out/cilkm.new
    mv out/cilkm.new out/cilkm
    [ "$(made_from)" != "$sum" ] || echo "$sum" >out/cilkm.stamp
fi
echo 'rt: running out/cilkm; to give it other input, run that file yourself'
out/cilkm "$@" >&3
END
chmod +x "$room/bin/rt"

# Makes a copy of the launcher over a skeleton of crates, in a folder of the case's name, and goes there.
fresh_clone() {
    local name
    copy=$room/$1
    mkdir -p "$copy/temporary"
    cd "$copy" || exit 1
    cp -p "$top/cilkm" .
    printf '%s\n' '# in any order' 'cilkm: middle base of_kit # the program' 'other: base' 'middle: base' 'base:' >crates.txt
    for name in base middle other cilkm; do
        mkdir -p "crates/$name"/{src,specs,proofs,must-fail}
        echo 'first text' >"crates/$name/src/main.rt"
        touch "crates/$name"/{specs,proofs}/Lib.antt "crates/$name/must-fail/wrong.edit"
    done
    export CALLS=$copy/calls TMPDIR=$copy/temporary STAND_IN=well
    : >"$CALLS"
}

# Runs a command over the stand-in; what it says is in `said`, what it prints in `printed`, and the status is its own.
start() {
    local status
    PATH=$room/bin:$PATH "$@" >"$copy/printed" 2>"$copy/said"
    status=$?
    printed=$(cat "$copy/printed")
    said=$(cat "$copy/said")
    return "$status"
}

# Starts the launcher in the background: the word is its input, and names the file of all that it says and prints.
start_beside() {
    PATH=$room/bin:$PATH ./cilkm serial < <(echo "$1") >"$1" 2>&1 &
}

# --- What a case holds to ----------------------------------------------------------------------------------------

# Fails the case where the second word, which `what` names, is not the third.
is() {
    [ "$2" = "$3" ] && return
    printf '    %s is not as it should be\n    wanted: %s\n    found:  %s\n' "$1" "$3" "$2"
    exit 1
}

# Fails the case where a text does not have the given part.
has() {
    [[ $2 == *"$3"* ]] && return
    printf '    %s has no: %s\n    it is: %s\n' "$1" "$3" "$2"
    exit 1
}

calls_are() {
    is 'the number of calls of rt' "$(wc -l <"$CALLS")" "$1"
}

# Starts once, and wants status 0 and the program that was made from the given text.
runs_made_from() {
    start ./cilkm serial <<<'a source'
    is 'the status' "$?" 0
    is 'the output' "$printed" "made from: $1
<serial>
a source"
}

# Starts once, and wants status 70, no output and the given line of rt's.
is_refused_with() {
    start ./cilkm serial <<<'a source'
    is 'the status' "$?" 70
    is 'the output' "$printed" ''
    has 'what is said' "$said" "$1"
    has 'what is said' "$said" 'cilkm: the program could not be proved and built'
    is 'the temporary folder' "$(ls temporary)" ''
}

# Waits until the given command passes, for at most ten seconds.
until_passes() {
    local _
    for _ in {1..200}; do
        "$@" && return
        sleep 0.05
    done
    echo "    not so after ten seconds: $*"
    exit 1
}

# Whether none of the processes is left. (One that ended, but that nobody asked about yet, is shown as a zombie.)
have_ended() {
    local it
    for it in "$@"; do
        grep -q '^State:[[:space:]]*[^Z[:space:]]' "/proc/$it/status" 2>/dev/null && return 1
    done
    return 0
}

# --- The cases ---------------------------------------------------------------------------------------------------

a_fresh_clone_builds_and_runs() {
    start ./cilkm other 'two  words' '' '*' < <(printf 'standard input\nto its end')
    is 'the status' "$?" 42
    is 'the output' "$printed" 'made from: first text
<other><two  words><><*>
standard input
to its end'
    calls_are 1
    runs_made_from 'first text'
    is 'what is said' "$said" ''
    calls_are 1
}

the_build_tells_each_crate() {
    runs_made_from 'first text'
    is 'what is said' "$(sed -E 's/[0-9]+ minutes and [0-9]+ seconds/so long/' <<<"$said")" 'cilkm: proving and building the program; from nothing this takes twenty minutes or longer
cilkm: (`cilkm --try COMMAND ..` has the interpreter of the kit run small programs at once, unproved)
cilkm: 1 of 3: base
cilkm: 2 of 3: middle
cilkm: 3 of 3: cilkm
cilkm: that took so long'
}

a_try_builds_nothing() {
    start ./cilkm --try other 'two  words' <<<'a source'
    is 'the status' "$?" 3
    is 'the output' "$printed" 'interpreted: first text
<other><two  words>a source'
    has 'what is said' "$said" unproved
    is 'the number of lines said' "$(wc -l <<<"$said")" 1
    is 'the temporary folder' "$(ls temporary)" ''
    [ ! -e crates/cilkm/out ] || is 'the folder out/' there 'not there'
}

a_try_without_end_ends_with_70() {
    STAND_IN=endless
    start ./cilkm --try serial <<<'a source'
    is 'the status' "$?" 70
    has 'what is said' "$said" 'run=no-answer'
    is 'the temporary folder' "$(ls temporary)" ''
}

an_edited_source_is_built() {
    runs_made_from 'first text'
    echo 'second text' >crates/cilkm/src/main.rt
    runs_made_from 'second text'
    echo '# a line more' >>crates.txt
    runs_made_from 'second text'
    rm crates/base/proofs/Lib.antt
    runs_made_from 'second text'
    calls_are 4
}

a_touched_source_is_asked_for_once() {
    runs_made_from 'first text'
    touch crates/middle/src/main.rt crates/base/specs/Lib.antt
    runs_made_from 'first text'
    calls_are 2
    runs_made_from 'first text'
    calls_are 2
}

other_files_build_nothing() {
    runs_made_from 'first text'
    mkdir docs
    touch docs/page.md crates/cilkm/must-fail/{wrong,more}.edit crates/cilkm/stdin crates/base/out.rt
    runs_made_from 'first text'
    calls_are 1
}

an_edit_during_a_build_is_built_next() {
    STAND_IN=held
    start_beside one
    until_passes test -s "$CALLS.held"
    echo 'second text' >crates/cilkm/src/main.rt
    touch "$CALLS.go"
    wait
    has 'the output of the first start' "$(cat one)" 'made from: first text'
    runs_made_from 'second text'
    calls_are 2
}

two_starts_build_once() {
    local first
    STAND_IN=held
    start_beside one
    first=$!
    until_passes test -s "$CALLS.held"
    start_beside two
    until_passes grep -qs '^cilkm: waiting for another start' two
    touch "$CALLS.go"
    wait "$!"
    is 'the status of the second start' "$?" 0
    has 'the output of the second start' "$(cat two)" $'made from: first text\n<serial>\ntwo'
    wait "$first"
    is 'the status of the first start' "$?" 0
    has 'the output of the first start' "$(cat one)" $'made from: first text\n<serial>\none'
    calls_are 1
}

a_running_program_bars_no_build() {
    mkfifo input
    PATH=$room/bin:$PATH ./cilkm serial <input >one 2>&1 &
    exec 3>input
    until_passes grep -qs '^made from' one
    touch crates/base/src/main.rt
    start_beside two
    until_passes grep -qs '^made from' two
    calls_are 2
    echo one >&3
    exec 3>&-
    wait
    has 'the output of the first start' "$(cat one)" $'<serial>\none'
}

a_failed_proof_ends_with_70() {
    STAND_IN=refused
    is_refused_with 'logic=not-proved'
    STAND_IN=well
    runs_made_from 'first text'
    STAND_IN=refused
    echo 'second text' >crates/cilkm/src/main.rt
    is_refused_with 'logic=not-proved'
    is_refused_with 'logic=not-proved'
    calls_are 4
}

a_failed_link_ends_with_70() {
    runs_made_from 'first text'
    echo 'second text' >crates/cilkm/src/main.rt
    STAND_IN=unlinked
    is_refused_with 'rattle-link: no output'
    is_refused_with 'rattle-link: no output'
    STAND_IN=half
    is_refused_with 'logic=proved'
    STAND_IN=well
    runs_made_from 'second text'
    calls_are 5
}

through_symbolic_links() {
    mkdir -p 'a folder/deeper'
    ln -s ../../cilkm 'a folder/deeper/one'
    ln -s deeper/one 'a folder/two'
    cd / || exit 1
    start "$copy/a folder/two" serial <<<'a source'
    is 'the status' "$?" 0
    has 'the output' "$printed" 'made from: first text'
}

# Stops a start in an endless build by the signal, and wants the status; nothing may be left that runs or lies about.
is_stopped_by() {
    local launcher processes
    STAND_IN=endless
    rm -f "$CALLS.processes"
    set -m # else the start would ignore INT
    start_beside one
    launcher=$!
    set +m
    until_passes test -s "$CALLS.processes"
    read -ra processes <"$CALLS.processes"
    kill "-$1" "$launcher"
    until_passes have_ended "$launcher"
    wait "$launcher"
    is "the status after $1" "$?" "$2"
    until_passes have_ended "${processes[@]}"
    is 'the temporary folder' "$(ls temporary)" ''
}

a_stopped_start_ends_its_build() {
    is_stopped_by TERM 143
    is_stopped_by HUP 129
    is_stopped_by INT 130
    STAND_IN=well
    runs_made_from 'first text'
    [[ $said != *waiting* ]] || is 'what is said' "$said" 'no word of waiting'
}

a_stopped_wait_leaves_the_build() {
    local first
    STAND_IN=held
    start_beside one
    first=$!
    until_passes test -s "$CALLS.held"
    start_beside two
    until_passes grep -qs waiting two
    kill -TERM "$!"
    wait "$!"
    is 'the status of the second start' "$?" 143
    touch "$CALLS.go"
    wait "$first"
    is 'the status of the first start' "$?" 0
    calls_are 1
}

help_builds_nothing() {
    local word
    start ./cilkm --help </dev/null
    is 'the status' "$?" 0
    is 'what is said' "$said" ''
    for word in serial 70 usage memory; do
        has 'the help' "$printed" "$word"
    done
    calls_are 0
    start ./cilkm serial --help </dev/null
    is 'the status' "$?" 42
    calls_are 1
}

the_example_has_its_value() {
    printed=$(./cilkm serial <examples/first.cilk)
    is 'the status' "$?" 0
    is 'the output' "$printed" 'value 14'
}

a_folder_as_input_is_a_failed_read() {
    printed=$(./cilkm serial <.)
    is 'the status' "$?" 5
    is 'the output' "$printed" 'read'
}

a_full_device_is_a_failed_write() {
    ./cilkm serial <examples/first.cilk >/dev/full
    is 'the status' "$?" 6
}

# --- The run -----------------------------------------------------------------------------------------------------

# Tries a case in a shell of its own.
try() {
    local name=${2//_/ }
    if ("$1" "$2" && "$2"); then
        passed=$((passed + 1))
        echo "launcher: $name ... ok"
    else
        failed=$((failed + 1))
        echo "launcher: $name ... FAILED"
    fi
}

at_the_top() {
    cd "$top" || exit 1
}

over_the_stand_in=(
    a_fresh_clone_builds_and_runs
    the_build_tells_each_crate
    a_try_builds_nothing
    a_try_without_end_ends_with_70
    an_edited_source_is_built
    a_touched_source_is_asked_for_once
    other_files_build_nothing
    an_edit_during_a_build_is_built_next
    two_starts_build_once
    a_running_program_bars_no_build
    a_failed_proof_ends_with_70
    a_failed_link_ends_with_70
    through_symbolic_links
    a_stopped_start_ends_its_build
    a_stopped_wait_leaves_the_build
    help_builds_nothing
)
with_the_program=(
    the_example_has_its_value
    a_folder_as_input_is_a_failed_read
    a_full_device_is_a_failed_write
)
for it in "${over_the_stand_in[@]}"; do
    try fresh_clone "$it"
done
for it in "${with_the_program[@]}"; do
    try at_the_top "$it"
done
echo "$passed passed, $failed failed"
[ "$failed" -eq 0 ]
