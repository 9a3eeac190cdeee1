#!/usr/bin/env bash
# Runs the built program on each row of the tables in tests/answers/, and compares what it prints and its status. CILKM may
# name the program in place of the launcher; words behind the script's name are tables to run in place of all.
# One line a row that fails; the last line is 'N passed, M failed', and the status is 0 where M is 0.
#
# A line of a table:
#     # ..                             a remark
#     let NAME TEXT                    TEXT stands for @{NAME} from here on; a second line of the same NAME goes on
#     WORDS: INPUT => STATUS ANSWER    the words, standard input, the status, and what is printed but for its last line feed
# In a TEXT, an INPUT and an ANSWER stands \n for a line feed, and likewise \r, \t, \xHH and \\. In an INPUT @{N TEXT} stands
# for TEXT so many times. Among the words '' is an empty one, and \x20 a space. In place of an ANSWER @bytes N says how
# many bytes are printed.
set -u
export LC_ALL=C

top=$(cd "$(dirname "$0")/.." && pwd)
program=${CILKM:-$top/cilkm}
passed=0
failed=0
text= # what a function below gives
declare -A names

# Gives a text so many times: it is doubled until it is long enough.
repeat() {
    local length=$(($1 * ${#2}))
    text=$2
    while [ "${#text}" -lt "$length" ]; do
        text+=$text
    done
    text=${text:0:length}
}

# Gives what a text of a table stands for, as a text for `printf %b`.
expand() {
    local rest=$1 done= body
    while [[ $rest == *'@{'* ]]; do
        done+=${rest%%'@{'*}
        rest=${rest#*'@{'}
        body=${rest%%'}'*}
        rest=${rest#*'}'}
        if [[ $body =~ ^[0-9]+' ' ]]; then
            repeat "${body%% *}" "${body#* }"
        else
            text=${names[$body]}
        fi
        done+=$text
    done
    text=$done$rest
}

# Runs the program on one row.
try() {
    local words=() word input answer status wanted said
    for word in ${1%%: *}; do
        [ "$word" != "''" ] || word=
        printf -v word '%b' "$word"
        words+=("$word")
    done
    input=${1#*: }
    answer=${input##* => }
    expand "${input% => *}"
    input=$text
    status=${answer%% *}
    answer=${answer#* }
    if [[ $answer == '@bytes '* ]]; then
        said=$(printf '%b' "$input" | "$program" ${words[@]+"${words[@]}"} | wc -c; echo "${PIPESTATUS[1]}")
        wanted="${answer#* }"$'\n'$status
    else
        expand "$answer"
        said=$(printf '%b' "$input" | "$program" ${words[@]+"${words[@]}"}; echo "${PIPESTATUS[1]}")
        printf -v wanted '%b\n%s' "$text" "$status"
    fi
    [ "$said" = "$wanted" ]
}

run_table() {
    local line name number=0
    names=()
    while IFS= read -r line; do
        number=$((number + 1))
        case $line in
        '' | '#'*) ;;
        'let '*)
            name=${line#let }
            text=${name#* }
            name=${name%% *}
            names[$name]=${names[$name]-}$text
            ;;
        *)
            if try "$line"; then
                passed=$((passed + 1))
            else
                failed=$((failed + 1))
                printf 'answers: %s line %s: %.200s ... FAILED\n' "${1##*/}" "$number" "$line"
            fi
            ;;
        esac
    done <"$1"
}

if [ "$#" -eq 0 ]; then
    set -- "$top"/tests/answers/*.txt
fi
set -f # the words of a row are no patterns of files
for table in "$@"; do
    run_table "$table"
done

echo "$passed passed, $failed failed"
[ "$failed" = 0 ] && [ "$passed" -gt 0 ]
