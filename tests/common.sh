# shellcheck shell=sh disable=SC2034 # sourced; its variables are used by others
# Sourced by the scripts here and in ../examples and ../rust. Sets what depends on the machines:
#
#   ROOT         the root of the repository
#   MACHINE      the machine this runs on: x86-64, aarch64 or what uname says
#   TARGET       the machine that programs are built for. THX_TARGET names it: x86-64 (the default,
#                since the archive is for it), aarch64, or own for the machine this runs on
#   TRIPLE       the target's name among compilers
#   TARGET_CC, TARGET_CXX
#                compilers for the target
#   RUN          a command to put before a program of the target, or nothing
#   CARGO_TARGET the folder below cargo's target folder where programs are put
#   PLAIN_CPU, V3_CPU
#                the emulator's processors for the two archives, if the target is x86-64 and emulated
#
# and the variables by which cargo builds for the target and runs the result.

ROOT=$(cd "$(dirname "$(readlink -f "$0")")/.." && pwd)
: "${THX_LIB_DIR:=}"
# The scripts do not stay where they were started.
case $THX_LIB_DIR in
    '' | /*) ;;
    *) THX_LIB_DIR=$PWD/$THX_LIB_DIR ;;
esac

case $(uname -m) in
    x86_64 | amd64) MACHINE=x86-64 ;;
    aarch64 | arm64) MACHINE=aarch64 ;;
    *) MACHINE=$(uname -m) ;;
esac

TARGET=${THX_TARGET:-x86-64}
[ "$TARGET" = own ] && TARGET=$MACHINE
case $TARGET in
    x86-64)
        CPU=x86_64
        LOADER=/lib64/ld-linux-x86-64.so.2
        ;;
    aarch64)
        CPU=aarch64
        LOADER=/lib/ld-linux-aarch64.so.1
        ;;
    *)
        echo "programs are built for x86-64 or aarch64, not for $TARGET" >&2
        exit 2
        ;;
esac
TRIPLE=$CPU-unknown-linux-gnu

have() {
    command -v "$1" >/dev/null 2>&1
}

if [ "$MACHINE" = "$TARGET" ]; then
    TARGET_CC=${CC:-cc}
    TARGET_CXX=${CXX:-c++}
    RUN=
    CARGO_TARGET=
else
    TARGET_CC=$CPU-linux-gnu-gcc
    TARGET_CXX=$CPU-linux-gnu-g++
    RUN=qemu-$CPU
    # The target's C library: its own package's where that is there (Rust's library brings it), else
    # the cross compiler's. A loader of one and a library of the other end every program.
    QEMU_LD_PREFIX=/
    [ -e "$LOADER" ] || QEMU_LD_PREFIX=/usr/$CPU-linux-gnu
    CARGO_TARGET=$TRIPLE/
    CARGO_BUILD_TARGET=$TRIPLE
    # The emulator may hang where two threads change mappings at once.
    RUST_TEST_THREADS=1
    export QEMU_LD_PREFIX CARGO_BUILD_TARGET RUST_TEST_THREADS
    # The emulator's own choice of a processor has erms: with it the C library clears and copies longer
    # memory by one instruction, which is emulated byte by byte, at a thirtieth of the speed.
    PLAIN_CPU=qemu64
    V3_CPU=qemu64,+ssse3,+sse4.1,+sse4.2,+popcnt,+lahf-lm
    V3_CPU=$V3_CPU,+xsave,+avx,+avx2,+bmi1,+bmi2,+f16c,+fma,+movbe,+abm
    setting=CARGO_TARGET_$(echo "$TRIPLE" | tr 'a-z-' 'A-Z_')
    export "${setting}_LINKER=$TARGET_CC" "${setting}_RUNNER=$RUN"
fi

# Whether the Rust compiler found first has a standard library for the target.
have_rust_std() {
    have rustc && libdir=$(rustc --target "$TRIPLE" --print target-libdir 2>/dev/null) \
        && ls "$libdir"/libstd-*.rlib >/dev/null 2>&1
}

# Debian's own compiler, if the first one cannot build for the target.
if [ "$MACHINE" != "$TARGET" ] && ! have_rust_std && [ -x /usr/bin/rustc ]; then
    PATH=/usr/bin:$PATH
    export PATH
fi

# compiles COMPILER LANGUAGE: whether it makes a program, which takes a C library for the target.
compiles() {
    have "$1" && made=$(mktemp) || return 1
    echo 'int main(void) { return 0; }' | "$1" -x "$2" -o "$made" - 2>/dev/null
    compiled=$?
    rm -f "$made"
    return "$compiled"
}

# What stands between this machine and programs of the target; nothing if all is there.
missing_to_run() {
    [ -n "$RUN" ] || return 0
    have "$RUN" || echo "an emulator ($RUN)"
    [ -e "$QEMU_LD_PREFIX$LOADER" ] || echo "the C library of $TARGET"
}

missing_for_c() {
    compiles "$TARGET_CC" c || echo "a C compiler ($TARGET_CC)"
    missing_to_run
}

missing_for_cxx() {
    compiles "$TARGET_CXX" c++ || echo "a C++ compiler ($TARGET_CXX)"
    missing_to_run
}

missing_for_rust() {
    have cargo || echo "cargo"
    have_rust_std || echo "Rust's standard library for $TARGET"
    missing_for_c
}

# Whether the emulator has x86-64-v3. The loader of the target's C library tells.
emulates_v3() {
    QEMU_CPU=$V3_CPU "$RUN" "$QEMU_LD_PREFIX$LOADER" --help 2>/dev/null \
        | grep -q 'x86-64-v3 (supported'
}

# What stands between this machine and the archive for x86-64-v3; nothing if it runs here.
missing_for_v3() {
    missing_to_run
    if [ -n "$RUN" ]; then
        emulates_v3 || echo "an emulator that has x86-64-v3"
        return
    fi
    for flag in avx avx2 bmi1 bmi2 f16c fma movbe 'abm|lzcnt'; do
        grep '^flags' /proc/cpuinfo 2>/dev/null | grep -qwE "$flag" \
            || echo "a processor that has x86-64-v3 (no $flag)"
    done
}

# Programs of x86-64 run with either archive, where the emulator can.
if [ "$MACHINE" != "$TARGET" ] && [ "$TARGET" = x86-64 ] && [ -z "${QEMU_CPU:-}" ]; then
    QEMU_CPU=$PLAIN_CPU
    [ -n "$(missing_for_v3)" ] || QEMU_CPU=$V3_CPU
    export QEMU_CPU
fi

# prove_archive PROCESSOR FOLDER: has the kit prove what is missing and compile the archive for this sort of
# processor, and puts it into the folder.
prove_archive() (
    cd "$ROOT/crates/thonxiliko" && rt lib --cpu "$1" </dev/null \
        && mkdir -p "$2" && cp out/libthonxiliko.a "$2/libthonxiliko.a"
)

# Settles THX_LIB_DIR, the folder of the archive: as given, or below target/, brought up to date where
# the kit is there. Gives 1 and sets PROBLEM if there is no archive.
find_archive() {
    PROBLEM=
    if [ -z "$THX_LIB_DIR" ]; then
        make_archive || return 1
    fi
    if [ ! -f "$THX_LIB_DIR/libthonxiliko.a" ]; then
        PROBLEM="no libthonxiliko.a in $THX_LIB_DIR; 'rust/archive' makes it"
        return 1
    fi
    THX_LIB_DIR=$(cd "$THX_LIB_DIR" && pwd)
    export THX_LIB_DIR
}

make_archive() {
    if [ "$TARGET" = x86-64 ]; then
        THX_LIB_DIR=$ROOT/target/staticlib
        set -- rust/archive
    else
        THX_LIB_DIR=$ROOT/target/native/$TRIPLE
        set -- rust/native "$TRIPLE"
    fi
    if have rt && ! (cd "$ROOT" && "$@"); then
        PROBLEM="'$*' failed"
        return 1
    fi
}

# Settles THX_LIB_DIR and, if it was not given and the target is x86-64, V3_LIB_DIR too: the folder of the
# archive for x86-64-v3. Both are made anew from one source; where the kit is not there, one that stands
# beside another archive is not taken.
find_archives() {
    V3_LIB_DIR=
    if [ -z "$THX_LIB_DIR" ] && [ "$TARGET" = x86-64 ]; then
        THX_LIB_DIR=$ROOT/target/staticlib
        V3_LIB_DIR=$ROOT/target/native/x86-64-v3
        if have rt && ! "$ROOT/rust/native" x86-64-v3; then
            PROBLEM="'rust/native x86-64-v3' failed"
            return 1
        fi
    fi
    find_archive
}

# What stands between the tests and an archive for x86-64-v3 of the same source.
missing_of_v3() {
    beside=$(cat "$V3_LIB_DIR/beside" 2>/dev/null)
    [ "$beside" = "$(cksum <"$THX_LIB_DIR/libthonxiliko.a")" ] \
        || echo "both archives of one source ('rust/native x86-64-v3' makes them)"
}

# The folder of PostgreSQL's server programs, or nothing.
postgresql_bin() {
    in_path=$(command -v pg_checksums) && in_path=$(dirname "$in_path")
    # Debian keeps them beside each other by version; the newest comes first.
    for dir in $in_path \
        $(find /usr/lib/postgresql -maxdepth 2 -name bin 2>/dev/null | sort -t/ -k5,5Vr); do
        if [ -x "$dir/postgres" ] && [ -x "$dir/initdb" ] && [ -x "$dir/pg_ctl" ] \
            && [ -x "$dir/psql" ] && [ -x "$dir/pg_checksums" ] && [ -x "$dir/pg_amcheck" ]; then
            echo "$dir"
            return
        fi
    done
}
