# shellcheck shell=bash
# Sourced by each check. `needs TOOL..` ends the check if a tool is missing: as failed, or if CF_SKIP is 1 as skipped.
needs() {
  local tool
  for tool in "$@"; do
    command -v "$tool" >/dev/null && continue
    echo "checks/${0##*/}: needs $tool, which is not here (.ci/run lists the packages); CF_SKIP=1 skips this check" >&2
    [ "${CF_SKIP-}" = 1 ] && exit 0
    exit 1
  done
}
