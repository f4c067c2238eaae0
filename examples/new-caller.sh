#!/usr/bin/env bash
# Copies the crate `callers`, whose code the CALLING.md pages show, to a crate of another name, and lists it in crates.txt.
#
#   examples/new-caller.sh NAME
set -e
top="$(cd "$(dirname "$0")/.." && pwd)"
name="$1"
if [[ ! "$name" =~ ^[a-z][a-z0-9_]*$ ]] || [ $# -ne 1 ]; then
  echo "usage: new-caller.sh NAME, with a NAME of lowercase letters, digits and _" >&2
  exit 2
fi
if [ -e "$top/crates/$name" ] || grep -q "^$name:" "$top/crates.txt"; then
  echo "crates/$name is there already" >&2
  exit 1
fi
mkdir "$top/crates/$name"
for part in src specs proofs; do
  cp -r "$top/crates/callers/$part" "$top/crates/$name/$part"
done
find "$top/crates/$name" -type f -exec sed -i "s/Rattle\.callers\./Rattle.$name./" {} +
sed -n "s/^callers:/$name:/p" "$top/crates.txt" >>"$top/crates.txt"
echo "crates/$name: change it, then 'rt check' in its folder; the first check proves what it stands on" >&2
