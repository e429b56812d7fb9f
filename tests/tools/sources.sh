# shellcheck shell=bash
# Sourced by ./seatdesk and .ci/run, and called by tests/refusals: which sources an executable was proved and built from.
# Each function is to be called at the top of the repository.

# A sum that changes with each source of each crate.
sum_of_sources() {
    find crates.txt HANDLES crates/*/src crates/*/specs crates/*/proofs -type f -print0 2>/dev/null |
        LC_ALL=C sort -z | xargs -0 sha256sum | sha256sum
}

# stamp EXECUTABLE SUM: notes beside the executable that it was built from the sources of that sum.
stamp() {
    printf '%s\n' "$2" "$(sha256sum <"$1")" >"$1.built.new" && mv "$1.built.new" "$1.built"
}

# is_stamped EXECUTABLE: whether it is there, as it was stamped, and the sources are those of its stamp.
is_stamped() {
    local sources executable
    { read -r sources && read -r executable; } 2>/dev/null <"$1.built" || return
    [ -x "$1" ] && [ "$executable" = "$(sha256sum <"$1")" ] && [ "$sources" = "$(sum_of_sources)" ]
}
