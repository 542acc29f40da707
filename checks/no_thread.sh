#!/bin/sh
# Shows that a run, a script and a hashing of many pages end, and answer why, where the system refuses to start a thread:
# the very first one, and one that comes after threads which were started.
#
#     checks/no_thread.sh [FOLDER]
#
# FOLDER has the programs page_bench and pageshare, by default out/ at the repository's top, where `make no-thread` leaves
# them. Nothing is built here.
#
# A new thread's stack is as large as `ulimit -s` says, and can't be had where `ulimit -v` leaves less room. Unlike a
# limit on the number of threads, this binds the root user too.
#
# Prints "ok" (status 0), or what went wrong (status 1).

folder=${1:-$(dirname "$0")/../out}

fail() {
    printf '%s\n' "$@"
    exit 1
}

# The output of a program with stacks of $1 KiB beside $2 KiB of memory in all. One that doesn't end is stopped.
limited() {
    stack=$1 memory=$2
    shift 2
    (ulimit -s "$stack" && ulimit -v "$memory" && exec timeout 60 "$@") 2>&1
}

# The statuses from 124 on are those of a program that was stopped, crashed or wasn't found.
check_ended() {
    [ "$1" -lt 124 ] || fail "$2: it did not end by itself (status $1), and printed:" "$text"
}

# A script of so many guests, each of which stores to its page.
script() {
    guests=$(seq 0 $(($1 - 1)))
    printf 'pageshare script 1\nframes %d\npages%s\nring 1\njournal %d\n' "$1" "$(printf ' %.0s1' $guests)" $((2 * $1))
    for guest in $guests; do printf '%d store 0 0 41\n' "$guest"; done
    printf 'end %d\n' "$1"
}

for name in page_bench pageshare; do
    [ -x "$folder/$name" ] || fail "there is no program $folder/$name"
done

# Whole runs, of one guest and then of more.
mix='guests, a proposal in 16'

text=$(timeout 60 "$folder/page_bench" run 2>&1)
check_ended $? 'a run without a limit'
case $text in
*'no thread'*) fail 'a thread was refused without a limit:' "$text" ;;
esac

text=$(limited 1000000 500000 "$folder/page_bench" run)
check_ended $? 'a run without room for a thread'
case $text in
*"1 $mix: no thread"*"64 $mix: no thread"*) ;;
*) fail 'a run without room for a thread printed:' "$text" ;;
esac

# The run of one guest goes well, and there is no room for eight.
text=$(limited 200000 1000000 "$folder/page_bench" run)
check_ended $? 'a run with room for some threads'
case $text in
*"1 $mix: "[0-9]*"8 $mix: no thread"*) ;;
*) fail 'a run with room for some threads printed:' "$text" ;;
esac

# Scripts. The engine writes the fault's line and nothing else.
for form in run 'run --journal'; do
    # shellcheck disable=SC2086
    text=$(script 1 | limited 1000000 500000 "$folder/pageshare" $form)
    status=$?
    check_ended $status 'a script without room for a thread'
    [ "$status $text" = '1 fault run: no-thread' ] || fail 'a script without room for a thread printed:' "$status $text"
    # shellcheck disable=SC2086
    text=$(script 1 | limited 200000 1000000 "$folder/pageshare" $form)
    status=$?
    check_ended $status 'a script of one guest'
    case "$status $text" in
    0*fault*) fail 'a script of one guest was refused beside room for some threads:' "$text" ;;
    0*) ;;
    *) fail 'a script of one guest printed:' "$status $text" ;;
    esac
    # shellcheck disable=SC2086
    text=$(script 8 | limited 200000 1000000 "$folder/pageshare" $form)
    status=$?
    check_ended $status 'a script with room for some threads'
    [ "$status $text" = '1 fault run: no-thread' ] || fail 'a script with room for some threads printed:' "$status $text"
done

# Hashes by one worker, which is the calling thread, by two, which start one more, and by four.
text=$(limited 1000000 500000 "$folder/page_bench" hash 64)
check_ended $? 'hashes without room for a thread'
case $text in
*'one worker: '[0-9]*'two workers: no thread'*'four workers: no thread'*) ;;
*) fail 'hashes without room for a thread printed:' "$text" ;;
esac

text=$(limited 300000 500000 "$folder/page_bench" hash 64)
check_ended $? 'hashes with room for one thread'
case $text in
*'two workers: '[0-9]*'four workers: no thread'*) ;;
*) fail 'hashes with room for one thread printed:' "$text" ;;
esac

echo ok
