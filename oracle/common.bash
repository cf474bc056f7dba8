# What run, faults, bench, profile and replay share. Sourced by them.

oracle=$(cd "$(dirname "${BASH_SOURCE[0]}")" && pwd)
root=$(dirname "$oracle")
name=oracle/$(basename "$0")

fail() {
    echo "$name: $1" >&2
    exit 2
}

# Each part is a file of the comparison.
check_part() {
    [[ $1 =~ ^[a-z_]+$ && -f $oracle/compare/src/parts/$1.rs ]] && return
    local parts=("$oracle"/compare/src/parts/*.rs)
    parts=("${parts[@]##*/}")
    fail "unknown part '$1'; the parts are: ${parts[*]%.rs}"
}

# The Rattle static library.
build_library() {
    local tool
    for tool in rt cargo; do
        command -v "$tool" >/dev/null || fail "$tool is not installed, or not on the PATH"
    done
    "$root/tools/library" || fail "the static library was not built"
}

# The library, then the Rust programs that link it.
build() {
    build_library
    cargo build --release --offline --locked --manifest-path "$oracle/Cargo.toml" \
        --target-dir "$oracle/target" || fail "the Rust was not built"
}
