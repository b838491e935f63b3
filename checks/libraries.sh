# shellcheck shell=bash disable=SC2034,SC2154
# Sourced by the checks of the C libraries, which set `room`.
# The libraries of crates.txt: those over held_heap have the calls of the short names, the others calls of their own.
mapfile -t libraries < <(sed -nE 's/^(norphuen\w*) staticlib:.* held_heap$/\1/p' crates.txt)
mapfile -t own_libraries < <(sed -nE '/ held_heap$/!s/^(norphuen\w*) staticlib:.*/\1/p' crates.txt)
# What puts a library under the short names, or chooses its part of release/tests/each.c; the moving one needs nothing.
declare -A uses=()
for name in "${libraries[@]:1}"; do uses[$name]=-DNPH_USE_${name#norphuen_}; done
for name in "${own_libraries[@]}"; do uses[$name]=-DEACH_${name#norphuen_}; done
for name in "${!uses[@]}"; do uses[$name]=${uses[$name]^^}; done
arm=(--target aarch64-unknown-linux-gnu)

# build_library NAME TO FLAG..: tools/build.py proves crates/NAME and builds its library, which is copied to TO. It is built
# once for all checks if CF_LIBRARIES names a folder, as in .ci/run.
build_library() {
  local name=$1 to=$2 kept
  shift 2
  kept=${CF_LIBRARIES:-$room}/$name$(printf '%s' "$@").built
  [ -e "$kept" ] || { tools/build.py "$name" "$@" && cp "crates/$name/out/lib$name.a" "$kept"; } >"$room/said" 2>&1 ||
    { tail -5 "$room/said" >&2; echo "checks/${0##*/}: tools/build.py $name $* fails" >&2; return 1; }
  cp "$kept" "$to"
}
