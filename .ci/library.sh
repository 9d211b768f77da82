# shellcheck shell=sh
# Sourced, with `root` set to the repository's folder, by every script that
# links the library or runs the program. Finds cargo, names the library's three
# archives and the program, and proves and builds the archives, so that what is
# linked is what the sources say now. They are linked from where they are built
# whatever the environment says: BOARDTIME_LIB_DIR is for builds of rust/
# outside these scripts.

# A shell without a profile does not find cargo where its installer puts it.
command -v cargo >/dev/null || PATH=$PATH:${CARGO_HOME:-${HOME:-}/.cargo}/bin
CARGO_TARGET_DIR=${CARGO_TARGET_DIR:-$root/target/cargo}
export PATH CARGO_TARGET_DIR
unset BOARDTIME_LIB_DIR

# shellcheck disable=SC2034 # for the script that sources this
{
    keeper=$root/crates/boardtime_lib/out/libboardtime_lib.a
    uplink=$root/crates/boardtime_uplink/out/libboardtime_uplink.a
    dates=$root/crates/boardtime_dates/out/libboardtime_dates.a
    boardtime=$root/crates/boardtime/out/boardtime
}

# in_crate NAME WORDS...: rt in a crate's folder. Standard output is for what the
# scripts themselves print.
in_crate() {
    (cd "$root/crates/$1" && shift && rt "$@") >&2
}

# Proves and builds the program. What `rt run` runs has no input, and ends.
build_boardtime() {
    [ "${BOARDTIME_BUILT:-}" = "$root" ] || in_crate boardtime run </dev/null
}

# The gate, which has proved and built all of this, names its folder in
# BOARDTIME_BUILT for the scripts that it runs: two scripts that run at the same
# time would write what the other links.
if [ "${BOARDTIME_BUILT:-}" != "$root" ]; then
    in_crate boardtime_lib lib || exit 1
    in_crate boardtime_uplink lib || exit 1
    in_crate boardtime_dates lib || exit 1
fi
