#!/usr/bin/env bash
# Proves espi_c and what it stands on, writes target/staticlib/libespi.a (rt lib), and keeps what that archive was compiled of: target/firmware/module.bc, and
# in target/firmware/words those with which the kit calls its clang. For that a folder elsewhere stands in for the kit's: links to all of it, but clang is a
# script, which keeps the module and then does what it was asked, and rt is a copy, since it takes what stands beside its own file. Whatever stood in target
# before goes first: a crate that is not proved leaves no archive.
set -eu
cd "$(dirname "$0")/../.."
out=$PWD/target/firmware
archive=crates/espi_c/out/libespi_c.a
kit=$(dirname "$(dirname "$(readlink -f "$(command -v rt)")")")
real=$kit/toolchain/bin/clang
[ -x "$real" ] || { echo "firmware: no clang in the kit's toolchain folder" >&2; exit 1; }

rm -rf "$out" target/staticlib/libespi.a
mkdir -p "$out" target/staticlib
made=$(mktemp -d)
trap 'rm -rf "$made"' EXIT

# The kit itself proves and compiles, so that all it has kept from earlier runs serves; then the stand-in, for which one crate is left.
(cd crates/espi_c && rt lib)
cp "$archive" "$made/libespi.a"

# Links to all that stands in a folder, but for some names.
links() { # FROM TO NAME..
    from=$1 to=$2
    shift 2
    mkdir -p "$to"
    for file in "$from"/*; do
        case " $* " in *" ${file##*/} "*) ;; *) ln -s "$file" "$to/" ;; esac
    done
}

stand=$made/kit
links "$kit" "$stand" bin toolchain
links "$kit/bin" "$stand/bin" rt rtlib.py
cp "$kit/bin/rt" "$kit/bin/rtlib.py" "$stand/bin/"
links "$kit/toolchain" "$stand/toolchain" bin
links "$kit/toolchain/bin" "$stand/toolchain/bin" clang
cat > "$stand/toolchain/bin/clang" << END
#!/bin/sh
last=
for word; do
    if [ "\$last" = ir ]; then cp "\$word" '$made/module.bc' && printf '%s\n' "\$@" > '$made/words'; fi
    last=\$word
done
exec '$real' "\$@"
END
chmod +x "$stand/toolchain/bin/clang"

(cd crates/espi_c && "$stand/bin/rt" lib > "$made/said") || { cat "$made/said" >&2; exit 1; }
[ -f "$made/module.bc" ] || { echo "firmware: the kit's clang was not given a module" >&2; exit 1; }
cmp "$archive" "$made/libespi.a"

# The kit's words, without the machine, the optimisation, the files and its C library.
skip=
while read -r word; do
    if [ -n "$skip" ]; then skip=; continue; fi
    case $word in
    -x | -o) skip=yes ;;
    --target=* | --sysroot=* | -march=* | -mcpu=* | -mabi=* | -O* | -fPIC | -c | *.bc) ;;
    *) printf '%s\n' "$word" ;;
    esac
done < "$made/words" > "$out/words"
echo "$real" > "$out/clang"
rt version > "$out/kit-version"
cp "$made/module.bc" "$out/module.bc"
cp "$archive" target/staticlib/libespi.a
