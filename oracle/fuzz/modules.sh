#!/bin/sh
# modules.sh FOLDER: builds the archives as tools/archives does and keeps in FOLDER the LLVM module of each, from which they are compiled.
# `rt lib` leaves none. The kit is used through a folder of links in which `clang` first copies the module that it is given.
set -eu
[ $# -eq 1 ] || { echo "modules.sh FOLDER" >&2; exit 2; }
mkdir -p "$1"
kept=$(cd "$1" && pwd)
cd "$(dirname "$0")/../.."
kit=$(dirname "$(dirname "$(readlink -f "$(command -v rt)")")")
# Outside the checkout: `rt ci` takes no links below it.
away=$(mktemp -d)
trap 'rm -rf "$away"' EXIT
links=$away/kit
mkdir -p "$links/bin" "$links/toolchain/bin"
link() { # FROM TO BUT..
    from=$1 to=$2
    shift 2
    for file in "$from"/*; do
        name=$(basename "$file")
        case " $* " in *" $name "*) ;; *) ln -s "$file" "$to/$name" ;; esac
    done
}
link "$kit" "$links" bin toolchain
# `rt` takes the kit in which its own file lies, past links, so it is copied.
link "$kit/bin" "$links/bin" rt rtlib.py
cp "$kit/bin/rt" "$kit/bin/rtlib.py" "$links/bin"
link "$kit/toolchain" "$links/toolchain" bin
link "$kit/toolchain/bin" "$links/toolchain/bin" clang
real=$kit/toolchain/bin/clang
cat >"$links/toolchain/bin/clang" <<WRAPPER
#!/bin/sh
for word in "\$@"; do
    case \$word in *.bc) cp "\$word" "$kept/module.bc" ;; esac
done
exec "$real" "\$@"
WRAPPER
chmod +x "$links/toolchain/bin/clang"
mkdir -p target/staticlib
for crate in exports strip_export_c; do
    name=${crate%_c}
    archive=target/staticlib/lib$name.a
    before=$(sha256sum "$archive" 2>/dev/null | cut -d' ' -f1)
    (cd "crates/$crate" && "$links/bin/rt" lib) >"$kept/$name.log" 2>&1 || { tail -5 "$kept/$name.log" >&2; exit 1; }
    mv "$kept/module.bc" "$kept/$name.bc"
    cp "crates/$crate/out/lib$crate.a" "$archive"
    after=$(sha256sum "$archive" | cut -d' ' -f1)
    if [ -z "$before" ]; then
        echo "$name: module kept; there was no archive before"
    elif [ "$before" = "$after" ]; then
        echo "$name: module kept; the archive is the one that was there before, byte for byte"
    else
        echo "$name: module kept; the archive is another than before"
    fi
done
echo "$real" >"$kept/clang"
