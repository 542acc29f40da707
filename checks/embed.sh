#!/bin/sh
# Builds what C and Rust link, and runs the examples and tests of it, each as far as this machine can.
#
#     checks/embed.sh [LIBRARY]
#
# LIBRARY is libpageshare.a, by default out/libpageshare.a at the repository's top, which `make embed` builds; one in a folder v3 is
# only run where the processor has AVX2. All that is built here goes to out/embed. CC, CXX and CARGO name other programs than cc,
# c++ and cargo. The C programs run under valgrind, or with the address sanitizer where there is no valgrind. With FULL=1 one more
# test serves 4,294,967,295 requests, which takes a minute or two, one more makes 1,000 domains under the checker, and one lends
# 3,000,000 pages of 100 clients.
#
# Prints a line for each part, and what was left out. It ends at the first part that fails, and each part has SECONDS. The last line is
# "N passed, M failed, K skipped", of these parts (status 0 where none failed, else 1). With NOTHING_LEFT_OUT=1 what was left out for
# want of a package that Debian has counts as failed.

SECONDS_OF_PART=300
passed=0 lacking=0 skipped=0

top=$(cd "$(dirname "$0")/.." && pwd)
library=${1:-$top/out/libpageshare.a}
built=$top/out/embed
flags='-O2 -g -Wall -Wextra -Wconversion -Werror'
checker=

close() {
    echo "$passed passed, $lacking failed, $skipped skipped"
    [ "$lacking" = 0 ] || exit 1
    exit 0
}

fail() {
    printf '%s\n' "$@"
    lacking=$((lacking + 1))
    close
}

# Says that a part passed.
good() {
    passed=$((passed + 1))
    echo "$1"
}

# Leaves out part $1 for want of package $2 of Debian, if there is one that has it.
leave_out() {
    skipped=$((skipped + 1))
    echo "left out: $1${2:+ (Debian\'s $2)}"
    if [ "${NOTHING_LEFT_OUT:-}" = 1 ] && [ -n "${2:-}" ]; then
        case $(LC_ALL=C apt-cache policy "$2" 2> /dev/null) in
        *'Candidate: ('* | '') ;;
        *)
            lacking=$((lacking + 1))
            echo "nothing may be left out here: there is a package $2"
            ;;
        esac
    fi
}

has() {
    command -v "$1" > /dev/null 2>&1
}

# Compiles C source $1 (without its suffix) to a program of that name, with the library, or with $2.
compile() {
    # shellcheck disable=SC2086
    ${CC:-cc} -std=c11 -D_POSIX_C_SOURCE=200809L $flags -I"$top/lib/include" -o "$built/$(basename "$1")" "$top/$1.c" "${2:-$library}" ||
        fail "$1.c does not compile"
}

# Runs a program, which must print the text $2.
run() {
    # shellcheck disable=SC2086
    text=$(timeout $SECONDS_OF_PART $checker "$built/$1") || fail "$1 failed:" "$text"
    [ "$text" = "$2" ] || fail "$1 printed:" "$text"
    good "$1: as it should be"
}

# Runs a program with these words natively, where under valgrind it would take minutes. It must print "ok".
run_natively() {
    program=$1
    shift
    [ "$(timeout $SECONDS_OF_PART "$built/$program" "$@")" = ok ] || fail "$program $* failed"
    good "$program $*: as it should be"
}

# Runs cargo with these words in bounded time.
run_cargo() {
    timeout $SECONDS_OF_PART "${CARGO:-cargo}" "$@"
}

[ -f "$library" ] || fail "there is no library $library"
case $library in
*v3/*)
    if ! grep -qw avx2 /proc/cpuinfo; then
        leave_out 'all, since this processor lacks what the library was built for'
        close
    fi
    ;;
esac
mkdir -p "$built"
folder=$(cd "$(dirname "$library")" && pwd)

if ! has "${CC:-cc}"; then
    leave_out 'all of C, since there is no C compiler' gcc
else
    if has valgrind; then
        checker='valgrind -q --leak-check=full --error-exitcode=9'
    elif printf 'int main(void){return 0;}' | ${CC:-cc} -fsanitize=address,undefined -x c -o "$built/probe" - 2> /dev/null; then
        flags="$flags -fsanitize=address,undefined"
        leave_out 'valgrind; the address sanitizer stands in for it' valgrind
    else
        leave_out 'valgrind and the address sanitizer' valgrind
    fi
    for source in examples/three_share examples/lend checks/embed/calls checks/embed/whole_pages checks/embed/region checks/embed/refused_memory \
        checks/embed/journal examples/domain checks/embed/domain_calls checks/embed/domain_memory; do
        compile "$source"
    done
    run three_share "$(cat "$top/checks/embed/three_share.out")"
    run calls ok
    run whole_pages ok
    run region ok
    run_natively region 1048576
    run lend "$(cat "$top/checks/embed/lend.out")"
    compile checks/embed/names
    run names ok
    run refused_memory ok
    run domain "$(cat "$top/checks/embed/domain.out")"
    run domain_memory ok
    run domain_calls ok
    # (the program beside the checker has 100 runs)
    run_natively domain_calls 1000
    if [ -f "$folder/libpageshare_host.a" ]; then
        compile checks/embed/host_calls "$folder/libpageshare_host.a"
        run host_calls ok
    else
        leave_out "the calls of a host, since there is no $folder/libpageshare_host.a"
    fi
    if [ -n "${FULL:-}" ]; then
        # shellcheck disable=SC2086
        ${CC:-cc} -std=c11 -O2 -I"$top/lib/include" -o "$built/full_count" "$top/checks/embed/full_count.c" "$library" || fail 'full_count.c does not compile'
        run_natively full_count
        # shellcheck disable=SC2086
        text=$($checker "$built/domain_calls" 1000 1000) || fail 'domain_calls 1000 1000 failed:' "$text"
        good 'domain_calls 1000 1000: as it should be'
        # shellcheck disable=SC2086
        ${CC:-cc} -std=c11 -O2 -I"$top/lib/include" -o "$built/domain_full" "$top/checks/embed/domain_calls.c" "$library" || fail 'domain_calls.c does not compile'
        run_natively domain_full full
    fi
    if has "${CXX:-c++}"; then
        # shellcheck disable=SC2086
        ${CXX:-c++} -std=c++11 $flags -I"$top/lib/include" -o "$built/cpp" "$top/checks/embed/cpp.cpp" "$library" ||
            fail 'the header does not compile as C++'
        run cpp ok
    else
        leave_out 'C++, since there is no compiler for it' g++
    fi
fi

if has "${CARGO:-cargo}"; then
    checker=
    export CARGO_TARGET_DIR="$built/cargo" PAGESHARE_LIB_DIR="$folder" CARGO_NET_OFFLINE=true
    cd "$top/lib/rust" || exit 1
    run_cargo test --quiet > "$built/cargo.log" 2>&1 || fail "$(cat "$built/cargo.log")" 'the tests of lib/rust failed'
    good 'lib/rust: its tests and the examples in its documents pass'
    if "${CARGO:-cargo}" clippy --version > /dev/null 2>&1; then
        run_cargo clippy --quiet --all-targets -- -D warnings > "$built/cargo.log" 2>&1 || fail "$(cat "$built/cargo.log")"
        export RUSTDOCFLAGS='-D warnings'
        run_cargo doc --quiet --no-deps > "$built/cargo.log" 2>&1 || fail "$(cat "$built/cargo.log")"
        good 'lib/rust: clippy and rustdoc have no warning'
    else
        leave_out 'clippy'
    fi
    debian=/usr/share/cargo/registry
    if [ -n "$(find "$debian" -maxdepth 1 -name 'vm-memory-0.10*' 2> /dev/null)" ]; then
        text=$(run_cargo run --quiet --manifest-path examples/vm-memory/Cargo.toml --config 'source.crates-io.replace-with="debian"' \
            --config "source.debian.directory=\"$debian\"" 2>&1) || fail "$text" 'its example vm-memory failed'
        [ "$text" = "$(cat "$top/checks/embed/vm-memory.out")" ] || fail "its example vm-memory printed:" "$text"
        good 'lib/rust: its example vm-memory prints what it should'
    else
        leave_out 'the example vm-memory' librust-vm-memory-dev
    fi
    text=$(run_cargo build --quiet --release --examples 2>&1) || fail "$text" 'its examples do not compile'
    text=$("$built/cargo/release/examples/three_share" 2>&1) || fail "$text" 'its example failed'
    [ "$text" = "$(cat "$top/checks/embed/three_share.out")" ] || fail "its example printed:" "$text"
    good 'lib/rust: its example prints what the C example does'
    text=$("$built/cargo/release/examples/domain" 2>&1) || fail "$text" 'its example of a domain failed'
    [ "$text" = "$(cat "$top/checks/embed/domain.out")" ] || fail "its example of a domain printed:" "$text"
    good 'lib/rust: its example of a domain prints what the C example does'
else
    leave_out 'all of Rust, since there is no cargo' cargo
fi
close
