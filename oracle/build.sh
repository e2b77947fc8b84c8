#!/bin/sh
# Builds the oracle from the original sources, which stay outside this repository.
#
#   oracle/build.sh SRC [LIBDIR]
#
# SRC is the folder of the original prompt.rs, prompt_history.rs, util.rs and command.rs. With LIBDIR the program is linked with
# LIBDIR/libscript.a, and can compare. It is built in the folder ORACLE_OUT, target/oracle by default.
set -eu
here=$(cd "$(dirname "$0")" && pwd)
out=${ORACLE_OUT:-$here/../target/oracle}

case $# in
1 | 2) ;;
*)
    sed -n '2,7s/^# \{0,1\}//p' "$0" >&2
    exit 2
    ;;
esac
sources=$(cd "$1" && pwd)
(cd "$sources" && sha256sum --quiet --check "$here/sources.sha256") || {
    echo "build.sh: these are not the sources of sapling-streampager 0.12.0" >&2
    exit 2
}

mkdir -p "$out"
out=$(cd "$out" && pwd)
rm -rf "$out/src"
cp -R "$here/src" "$out/src"
cp "$sources/command.rs" "$sources/util.rs" "$out/src/"
cat "$sources/prompt.rs" "$here/append/prompt.rs" >"$out/src/prompt.rs"
cat "$sources/prompt_history.rs" "$here/append/prompt_history.rs" >"$out/src/prompt_history.rs"

# Sums that wrap would pass unseen in the original, so they are checked. One unit keeps the compiler to one thread.
flags='--edition 2021 -C opt-level=3 -C codegen-units=1 -C overflow-checks=on'
externs=
for stand_in in termwiz unicode_width unicode_segmentation dirs; do
    rustc $flags --crate-type rlib --crate-name "$stand_in" --out-dir "$out" "$here/stand_ins/$stand_in.rs"
    externs="$externs --extern $stand_in=$out/lib$stand_in.rlib"
done

set -- "${2-}"
link=
if [ -n "$1" ]; then
    [ -f "$1/libscript.a" ] || {
        echo "build.sh: there is no $1/libscript.a" >&2
        exit 2
    }
    link="--cfg linked -L native=$(cd "$1" && pwd) -l static=script"
fi
rustc $flags --crate-name oracle --check-cfg 'cfg(linked)' $externs $link -o "$out/oracle" "$out/src/main.rs"
echo "$out/oracle"
