#!/bin/bash
# The proved library against ordinary Rust and OpenSSL, and the stack its calls need: `make bench`. KD_LIB names another
# library.
# Where the machine is not an x86-64, times under the emulator mean nothing. Instructions are counted as well, on an x86-64 by valgrind.
set -euo pipefail
cd "$(dirname "$0")"
eval "$(./setup)"
KD_LIB=$(realpath "${KD_LIB:-../target/staticlib/libkombudeva.a}")
export KD_LIB
work=$(mktemp -d)
trap 'rm -rf "$work"' EXIT

cargo build --quiet --release -p bench
bench="${CARGO_TARGET_DIR:-target}/${CARGO_BUILD_TARGET:-}/release/bench"

# The instructions of a run of the benchmark with these arguments: counted by a plugin of the emulator, or by valgrind on an x86-64.
instructions() {
    if [ -z "$KD_RUN" ]; then
        valgrind --tool=cachegrind --cache-sim=no --cachegrind-out-file=/dev/null "$bench" "$@" 2>&1 > /dev/null |
            awk '/I *refs/ { gsub(",", "", $NF); print $NF }'
        return
    fi
    $KD_RUN -plugin "file=$work/count.so,out=$work/count" "$bench" "$@" > /dev/null
    cat "$work/count"
}

# For each version of a job what it costs beyond getting ready, with the ratio to the first and the ratio asked for.
counted() {
    local job=$1 asked=$2 ready plain='' version count
    shift 2
    ready=$(instructions "$job")
    for version; do
        count=$(($(instructions "$job" "$version") - ready))
        plain=${plain:-$count}
        awk -v job="$job" -v version="$version" -v count=$count -v plain="$plain" -v asked="$asked" 'BEGIN {
            printf "%-18s %-16s %12.0f %16.2f %7s\n", job, version, count, plain ? count / plain : 0,
                version !~ /-rust$/ && asked != "-" ? asked : "" }'
    done
}

# Bytes per second of OpenSSL on 16 KiB, under this OPENSSL_ia32cap.
openssl_speed() {
    OPENSSL_ia32cap=$1 openssl speed -evp sha256 -bytes 16384 -seconds 1 2> /dev/null |
        awk '/^sha256/ { sub("k", "", $NF); print $NF * 1000 }'
}

# One row for OpenSSL. The ratio, on an x86-64 only, is to plain Rust's MB/s on 16 KiB in the table above.
openssl_row() {
    awk -v name="$1" -v speed="$(openssl_speed "$2")" -v plain="$3" 'BEGIN {
        printf "%-18s %-16s %12.0f %8.0f %7s\n", "sha-16KiB", name, 16384 / speed * 1e9, speed / 1e6,
            plain == "" ? "" : sprintf("%.2f", plain / (speed / 1e6)) }'
}

openssl_rows() {
    local plain=''
    if [ "$(uname -m)" = x86_64 ]; then
        plain=$(awk '$1 == "sha-16KiB" && $2 == "plain-rust" { print $4 }' "$work/times")
        echo 'OpenSSL, in a process of its own:'
        openssl_row openssl '' "$plain"
        openssl_row 'no SHA-NI' ':~0x20000000' "$plain"
        openssl_row 'nor AVX, BMI' '~0x1000000000000000:~0x20000128' "$plain"
    else
        echo "OpenSSL of this $(uname -m), another kind of machine than the library's: no ratio"
        openssl_row openssl '' ''
    fi
}

lscpu | awk -F': *' '/^Model name/ && !seen++ { print $2 }'
echo "library $KD_LIB"
"${RUSTC:-rustc}" --version
[ -n "$KD_RUN" ] && echo "Times UNDER THE EMULATOR on $(uname -m): they say nothing about an x86-64"
printf '%-18s %-16s %12s %8s %7s %7s\n' job version ns MB/s ratio asked
$KD_RUN "$bench" | tee "$work/times"
if command -v openssl > /dev/null; then openssl_rows; fi
if [ -n "$KD_RUN" ] || command -v valgrind > /dev/null; then
    echo 'x86-64 instructions, counted by the emulator or by valgrind: they do not depend on the machine'
    [ -z "$KD_RUN" ] || gcc -shared -fPIC -O2 -Wall -Wextra -Werror bench/count.c -o "$work/count.so"
    printf '%-18s %-16s %12s %16s %7s\n' job version instructions ratio asked
    # shellcheck disable=SC2086
    $KD_RUN "$bench" jobs | while read -r line; do counted $line; done
fi
$KD_CC -O2 -Wall -Wextra -Werror -I ../include bench/stack.c "$KD_LIB" -o "$work/stack"
$KD_RUN "$work/stack"
