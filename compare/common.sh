# shellcheck shell=sh disable=SC2154
# What run, record and bench share. They set $root and $usage and source this file.

out=$root/target/compare
clock_lib=${CLOCK_LIB:-$root/target/staticlib/libclock.a}

fail() {
    printf '%s: %s\n' "$(basename "$0")" "$1" >&2
    exit 2
}

# Cuts the search out of the esp-hal tree $1, as published, and again with
# calculate_output_frequency put right.
extract() {
    module=$1/src/lcd_cam/mod.rs
    [ -f "$module" ] || fail "$1 is not an esp-hal source tree: it has no src/lcd_cam/mod.rs"
    mkdir -p "$out"
    sed -n '/^pub(crate) struct ClockDivider {$/,$p' "$module" >"$out/published.rs"
    [ -s "$out/published.rs" ] || fail "no struct ClockDivider in $module"

    # The published lines exchange div_b and div_a. Both must be there once, or
    # this is another search than the one that the edit is meant for.
    for line in 'let a = divider.div_b as u64;' 'let b = divider.div_a as u64;'; do
        [ "$(grep -cF "$line" "$out/published.rs")" = 1 ] ||
            fail "the line '$line' is not in $module exactly once"
    done
    sed -e 's/let a = divider\.div_b as u64;/let a = divider.div_a as u64;/' \
        -e 's/let b = divider\.div_a as u64;/let b = divider.div_b as u64;/' \
        "$out/published.rs" >"$out/corrected.rs"

    # The chip's usize has 32 bits. The index of a source and the length of a list
    # stay what they are.
    sed -e 's/\busize\b/u32/g' -e 's/Result<(u32, ClockDivider)/Result<(usize, ClockDivider)/' \
        "$out/corrected.rs" >"$out/narrow.rs"
}

# Proves and writes our static library where it is missing or older than its source.
need_clock_lib() {
    if [ -n "${CLOCK_LIB:-}" ]; then
        [ -f "$clock_lib" ] || fail "CLOCK_LIB names no file: $CLOCK_LIB"
        return
    fi
    if [ -f "$clock_lib" ] && [ -z "$(find "$root/crates/clock/src" "$root/crates/clock_c/src" -newer "$clock_lib")" ]; then
        return
    fi
    "$root/tools/clock-library" || fail "tools/clock-library failed"
}

# Builds src/$1.rs to $out/$1; further arguments go to rustc.
build() {
    program=$1
    shift
    COMPARE_OUT=$out rustc --edition 2024 -C opt-level=3 -C codegen-units=1 \
        --crate-name compare --crate-type rlib --out-dir "$out" "$root/compare/src/lib.rs"
    rustc --edition 2024 -C opt-level=3 -C codegen-units=1 \
        --crate-name "$program" --extern "compare=$out/libcompare.rlib" \
        -o "$out/$program" "$root/compare/src/$program.rs" "$@"
}

[ $# -ge 1 ] || {
    echo "usage: $usage" >&2
    exit 2
}
