# shellcheck shell=bash
# Sourced by ./cf_tool, ./prove and .ci/run, which set `top`: what the tool is made from, and whether it is proved and built.
top=${top:?}
program=$top/crates/cf_tool/out/cf_tool
# Three lines, written once the program is proved and built: the sums of its sources and of itself, and the kit.
proof=$top/crates/cf_tool/out/proof
# What ./prove takes from scratch on four idle processors, as measured.
# shellcheck disable=SC2034
minutes=17

# The lines of crates.txt for the crates that the tool uses, its own last. crates.txt lists a crate above those that use it.
tool_crates() {
  awk -F: '!/^#/ && NF { name[++n] = $1; uses[n] = $2 }
    END { need["cf_tool"]; for (i = n; i; i--) if (name[i] in need) { split(uses[i], below, " "); for (j in below) need[below[j]] }
      for (i = 1; i <= n; i++) if (name[i] in need) print name[i] ":" uses[i] }' "$top/crates.txt"
}

# One sum of the tool's sources, by their contents: neither a touched file nor a change in another crate alters it.
sum_sources() (
  cd "$top" || exit
  mapfile -t folders < <(tool_crates | sed 's,^\([^:]*\):.*,crates/\1/src\ncrates/\1/specs\ncrates/\1/proofs,')
  { tool_crates; cat HANDLES; find "${folders[@]}" -type f -print0 2>/dev/null | LC_ALL=C sort -z | xargs -0 sha256sum; } | sha256sum
)

# The three lines of the file proof, as they are now. Without rt, the kit is the one that proved the tool.
state() {
  sum_sources
  sha256sum <"$program"
  rt version 2>/dev/null || sed -n 3p "$proof"
}

is_proved() { [ -x "$program" ] && [ -f "$proof" ] && [ "$(state)" = "$(<"$proof")" ]; }

# mark_proved SUM: marks the program as proved if its sources are still those of SUM, which was taken before the proof began.
mark_proved() { [ "$1" = "$(sum_sources)" ] && state >"$proof.new" && mv "$proof.new" "$proof"; }

# run COMMAND..: returns its status. The command ends when this script ends, even if a signal ends the script.
child=
run() {
  "${tied[@]}" "$@" <&0 &
  child=$!
  local status
  wait "$child"
  status=$? child=
  return "$status"
}
tied=(setpriv --pdeathsig TERM)
"${tied[@]}" true 2>/dev/null || tied=()
end_child() { [ -z "$child" ] || { kill "$child" && wait "$child"; } 2>/dev/null; }
trap 'end_child' EXIT
trap 'exit 129' HUP
trap 'exit 130' INT
trap 'exit 143' TERM
