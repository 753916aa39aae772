#!/bin/sh
# Runs the README's first command and compares what it prints with what the README says, from the top and from another
# folder; then runs the program as its users may get it wrong, and compares the status and both streams. Then the jobs of the
# tutorial, each command of the pages, tools/why.py, and an installation. What a missing tool would run is skipped with a word.
# It needs nothing of a network. Where ./qtc finds no program that is newer than its sources, it builds it first.
set -eu
cd "$(dirname "$0")/.."
top=$PWD
other=$(mktemp -d)
trap 'rm -rf "$other"' EXIT
mkdir -p "$other/examples"
cp -R examples/first "$other/examples/first"

# has TOOL: whether the tool of the repository is there, and Python 3 where it needs that; a word where it is skipped
has() {
    if [ ! -e "$1" ]; then
        echo "first run: skipped $1, which is missing"
    elif [ "${1%.py}" != "$1" ] && ! command -v python3 >/dev/null; then
        echo "first run: skipped $1, as python3 is missing"
    else
        return 0
    fi
    return 1
}

compare() {
    if ! cmp -s "$2" "$3"; then
        echo "first run: $1 differs" >&2
        diff "$2" "$3" >&2 || true
        exit 1
    fi
}

./qtc run examples/first/lines.job >"$other/got"
compare "the report from the top" examples/first/lines.out "$other/got"
(cd "$other" && "$top/qtc" run examples/first/lines.job >got)
compare "the report from another folder" examples/first/lines.out "$other/got"

# ends NAME STATUS OUT ERR WORD..: what the words end with, print and say
ends() {
    name=$1 status=$2
    printf '%s' "$3" >"$other/out"
    printf '%s' "$4" >"$other/err"
    shift 4
    got=0
    (cd "$other" && "$top/qtc" "$@" >got.out 2>got.err) || got=$?
    if [ "$got" -ne "$status" ]; then
        echo "first run: $name ended with $got and not with $status" >&2
        exit 1
    fi
    compare "what is printed of $name" "$other/out" "$other/got.out"
    compare "what is said of $name" "$other/err" "$other/got.err"
}

usage='qtc: usage: run [--workers N] JOB, check JOB, sample [--workers W] N
'
printf 'job a\ninput lines t\nmap samE\n' >"$other/departs.job"
printf 'job a\ninput lines missing.txt\nmap same\n' >"$other/missing.job"
printf 'job a\ninput lines \\xff.txt\nmap same\n' >"$other/no_text.job"
printf 'job a\ninput lines numbers.txt\nmap number\n' >"$other/failed.job"
printf '12\nx\n' >"$other/numbers.txt"
printf 'job a\ninput lines numbers.txt\nmap same\nreduce count\n' >"$other/later.job"

ends "no words" 2 '' "$usage"
ends "an unknown command" 2 '' "$usage" walk departs.job
ends "a job file that is wrong" 3 '' 'qtc: bad job file: line 3 code 1
' run departs.job
ends "a job file that isn't there" 4 '' 'qtc: read fault
' run nowhere.job
ends "a text that isn't there" 4 '' 'qtc: read fault
' run missing.job
ends "a text whose name is no UTF-8" 4 '' 'qtc: read fault
' run no_text.job
ends "a job file whose name is no UTF-8" 4 '' 'qtc: read fault
' run "$(printf '\377.job')"
ends "a job that fails" 1 'job a failed 1 x
' '' run failed.job
ends "a job that isn't run yet" 8 '' 'qtc: not yet
' run later.job
ends "a job file that is checked" 0 'workers 4
job a
input lines numbers.txt
map number
blocks 16
priority 0
' '' check failed.job

# A standard output that is full, and one that nobody reads on.
if [ -w /dev/full ]; then
    got=0
    ./qtc run examples/first/lines.job >/dev/full 2>"$other/got.err" || got=$?
    printf 'qtc: write fault\n' >"$other/err"
    compare "what is said of a full output" "$other/err" "$other/got.err"
    if [ "$got" -ne 5 ]; then
        echo "first run: a full output ended with $got and not with 5" >&2
        exit 1
    fi
fi
seq 1 400000 >"$other/many.txt"
printf 'job a\ninput lines many.txt\nmap same\n' >"$other/many.job"
mkfifo "$other/pipe"
(head -c 10 <"$other/pipe" >/dev/null) &
got=0
(cd "$other" && "$top/qtc" run many.job >pipe 2>got.err) || got=$?
wait
printf 'qtc: write fault\n' >"$other/err"
compare "what is said of a closed output" "$other/err" "$other/got.err"
if [ "$got" -ne 5 ]; then
    echo "first run: a closed output ended with $got and not with 5" >&2
    exit 1
fi

# A text that comes through a pipe, which two jobs name.
printf 'job a\ninput lines /dev/stdin\nmap same\njob b\ninput lines /dev/stdin\nfilter longer 1\n' >"$other/piped.job"
printf 'job a finished 2\nx\nyz\njob b finished 1\nyz\n' >"$other/out"
printf 'x\nyz\n' | ./qtc run "$other/piped.job" >"$other/got.out"
compare "the report of a pipe" "$other/out" "$other/got.out"
./qtc run /dev/stdin <examples/first/lines.job >"$other/got.out"
compare "the report of a job file that is a pipe" examples/first/lines.out "$other/got.out"

# Each job file of the tutorial, with its own output where it has one.
for job in examples/tutorial/*.job; do
    if [ -e "${job%.job}.out" ]; then
        ./qtc run "$job" </dev/null >"$other/got.out" 2>&1 || true
        compare "the report of $job" "${job%.job}.out" "$other/got.out"
    fi
done
if has examples/tutorial/make_log.py; then
    python3 examples/tutorial/make_log.py >"$other/access.log"
    compare "the tutorial's log, made anew" examples/tutorial/access.log "$other/access.log"
fi

# says NAME STATUS LINE JOB: that tools/why.py ends with the status with which the run ends too, and prints the line
says() {
    got=0
    (cd "$other" && "$top/tools/why.py" "$4" >got.out 2>&1) || got=$?
    ran=0
    (cd "$other" && "$top/qtc" run "$4" >/dev/null 2>&1) || ran=$?
    if [ "$got" -ne "$2" ] || [ "$ran" -ne "$2" ] || ! grep -qF -e "$3" "$other/got.out"; then
        echo "first run: why.py of $1 ended with $got, the run with $ran, and it said" >&2
        cat "$other/got.out" >&2
        exit 1
    fi
}
if has tools/why.py; then
    printf 'job a\ninput lines big.txt\nmap length\n' >"$other/big.job"
    truncate -s 67108865 "$other/big.txt"
    printf 'job a\ninput files f g h i j\nmap length\n' >"$other/files.job"
    (cd "$other" && truncate -s 67108864 f g h i)
    printf x >"$other/j"
    printf 'job a\ninput pieces 1 p\nmap length\njob b\ninput pieces 1 p\nmap length\n' >"$other/pieces.job"
    truncate -s 4194305 "$other/p"
    mkdir -p "$other/folder"
    printf 'job a\ninput lines folder\nmap same\n' >"$other/folder.job"
    says "a good file" 0 'nothing here refuses a run' many.job
    says "a text that isn't there" 4 "missing.txt: can't be read: No such file or directory" missing.job
    says "a name that is no UTF-8" 4 "its name isn't UTF-8" no_text.job
    says "a folder" 4 "folder: can't be read: Is a directory" folder.job
    says "a bad job file" 3 "code 1: a word isn't known" departs.job
    says "a fold" 8 "job a: \`reduce count\` isn't run yet" later.job
    says "a text of a byte too much" 7 'big.txt: 67,108,865 bytes, more than 67,108,864' big.job
    says "texts of a byte too much" 7 'j: with those before it 268,435,457 bytes, more than 268,435,456' files.job
    says "items too many" 7 'job b: with the jobs before it 8,388,610 items, more than 8,388,608' pieces.job
    rm -f "$other/big.txt" "$other/f" "$other/g" "$other/h" "$other/i"
fi

# What is installed runs, and is taken away again.
if has tools/install.sh; then
    tools/install.sh "$other/prefix" >"$other/got.out"
    "$other/prefix/bin/qtc" run examples/first/lines.job >"$other/got"
    compare "the report of the installed program" examples/first/lines.out "$other/got"
    if has tools/why.py; then
        "$other/prefix/bin/qtc-why" examples/first/lines.job >"$other/got.out"
    fi
    tools/install.sh --uninstall "$other/prefix" >"$other/got.out"
    if [ -n "$(find "$other/prefix" -type f)" ]; then
        echo "first run: uninstalling left a file" >&2
        exit 1
    fi
fi

if has tools/pages.py; then
    tools/pages.py --run
fi
if has tools/using.py; then
    tools/using.py
fi
echo "first run: the report is examples/first/lines.out, and every other end is as it should be"
