# Sourced with `top` set: whether out/dos and out/dos-twin are the programs that were proved and built
# of the sources as they are. out/dos.stamp is as old as the look at these sources, and has their
# digest, or nothing.

# Sets `sources` to the folders and the file that the sources lie in.
find_sources() {
  mapfile -t sources < <(
    find "$top/crates" -mindepth 2 -maxdepth 2 \( -name src -o -name specs -o -name proofs \))
  sources+=("$top/crates.txt")
}

digest_of_sources() {
  local sources
  find_sources
  (cd "$top" && find "${sources[@]#"$top/"}" -type f -print0 | LC_ALL=C sort -z |
    xargs -0 sha256sum | sha256sum | cut -d ' ' -f 1)
}

# By times, and where these don't say so by the digest: after a branch and back all files are new.
is_current() {
  local sources stamp=$top/out/dos.stamp looked_at
  [ -x "$top/out/dos" ] && [ -x "$top/out/dos-twin" ] && [ -f "$stamp" ] || return 1
  find_sources
  [ "$(find "${sources[@]}" -newer "$stamp" -print -quit)" ] || return 0
  [ -s "$stamp" ] && looked_at=$(mktemp) || return 1
  if [ "$(cat "$stamp")" = "$(digest_of_sources)" ]; then
    touch -r "$looked_at" "$stamp" 2> /dev/null
    rm -f "$looked_at"
    return 0
  fi
  rm -f "$looked_at"
  return 1
}

# Before the sources are read to be proved: a source that is edited from here on is newer.
begin_stamp() {
  mkdir -p "$top/out" && : > "$top/out/dos.begun" && digest_of_sources > "$top/out/dos.start" &&
    touch -r "$top/out/dos.begun" "$top/out/dos.start" && rm "$top/out/dos.begun"
}

# Leaves the programs $1 and $2, which were proved and built since, where the launchers find them.
# Where the sources are others by now, their digest isn't kept.
keep_programs() {
  local start=$top/out/dos.start
  cp "$2" "$top/out/dos.new" && mv "$top/out/dos.new" "$top/out/dos-twin" || return 1
  cp "$1" "$top/out/dos.new" && mv "$top/out/dos.new" "$top/out/dos" || return 1
  if [ "$(cat "$start")" != "$(digest_of_sources)" ]; then
    : > "$top/out/dos.start.empty" && touch -r "$start" "$top/out/dos.start.empty" || return 1
    mv "$top/out/dos.start.empty" "$start" || return 1
  fi
  mv "$start" "$top/out/dos.stamp"
}
