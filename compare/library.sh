# Builds libraries of this repository for this machine, or for another processor. Sourced by ./library, compare/run, bindings/try,
# controller/run and the examples' run, which have set root, the repository's folder, and have say, a message, and stop, a message
# and the end with status 2.
libraries=$root/target/staticlib

# Builds libraries/lib$1.a, for every x86-64 processor, if the crates or the kit have changed since it was last built; with a target,
# and words for the compiler, target/library/TARGET/lib$1.a for that, and if the words have changed. It is the library of the crate
# $1_c where there is one: a crate that others stand on is no static library. rt compiles for x86-64 and for aarch64. For another
# processor the module for x86-64 goes through the same compiler with another target, by a kit that differs in nothing but that.
library() {
    local target=${2-} into crate=$1 by from log kit='' rt=rt built flags=(--cpu=x86-64)
    into=$libraries
    [ -z "$target" ] || into=$root/target/library/$target
    [ ! -d "$root/crates/$1_c" ] || crate=$1_c
    by="$(rt version 2>/dev/null) ${*:2}"
    [ -f "$into/lib$1.a" ] && [ "$(cat "$into/$1.by" 2>/dev/null)" = "$by" ] && [ -z "$(find "$root/crates.txt" "$root"/crates/*/{src,specs,proofs} -newer "$into/lib$1.a" -print -quit 2>/dev/null)" ] && return
    command -v rt >/dev/null || stop "rt is missing: it is the command of the Rattle kit, which proves and builds lib$1.a"
    mkdir -p "$into" || stop "cannot write to $into"
    say "building lib$1.a${target:+ for $target}"
    if [ "$target" = aarch64-unknown-linux-gnu ]; then
        flags=(--target "$target")
    elif [ -n "$target" ]; then
        # not in the repository, where rt takes no links
        kit=$(mktemp -d) || stop "cannot write to the folder for temporary files"
        own_kit "$(dirname "$(rt doc)")" "$kit" --target="$target" "${@:3}"
        rt=$kit/bin/rt
    fi
    from=$root/crates/$crate/out/lib$crate.a
    log=$into/$1.log
    (cd "$root/crates/$crate" && "$rt" lib "${flags[@]}") </dev/null >"$log" 2>&1 && mv "$from" "$into/lib$1.a" && printf '%s\n' "$by" >"$into/$1.by"
    built=$?
    [ -z "$kit" ] || rm -rf "$kit"
    [ $built -ne 0 ] || return 0
    tail -n 20 "$log" >&2
    stop "lib$1.a was not built"
}

# $2 becomes links to all of the kit $1 but its clang, which is called with the words after them, and its rt, which takes the kit that
# it lies in, links followed
own_kit() {
    mkdir -p "$2/bin" "$2/toolchain/bin" || stop "cannot write to $2"
    ln -s "$1"/* "$2/" 2>/dev/null
    ln -s "$1/bin"/* "$2/bin/"
    ln -s "$1/toolchain"/* "$2/toolchain/" 2>/dev/null
    ln -s "$1/toolchain/bin"/* "$2/toolchain/bin/"
    rm "$2/toolchain/bin/clang" "$2/bin/rt" "$2/bin/rtlib.py" && cp "$1/bin/rt" "$1/bin/rtlib.py" "$2/bin/" || stop "the kit has another form than $2 would have"
    cat >"$2/toolchain/bin/clang" <<SCRIPT
#!/usr/bin/env bash
words=()
for word in "\$@"; do case \$word in --target=* | -march=* | -Werror) ;; *) words+=("\$word") ;; esac; done
exec "$1/toolchain/bin/clang" ${@:3} -Wno-override-module "\${words[@]}" 2>/dev/null
SCRIPT
    chmod +x "$2/toolchain/bin/clang"
}
