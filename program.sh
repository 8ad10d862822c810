# Builds and runs a program of this repository. Sourced by ./frames and ./recipe, which have set here, the repository's folder, and
# name, the command that was called.
say() { printf '%s: %s\n' "$name" "$*" >&2; }
stop() { say "$*"; exit 2; }

# Builds target/bin/$1 where it is missing or older than its source.
build() {
    local program log begun
    program=$here/target/bin/$1
    [ ! -x "$program" ] || [ -n "$(find "$here/crates.txt" "$here"/crates/*/src "$here"/crates/*/specs -newer "$program" -print -quit 2>/dev/null)" ] || return 0
    command -v rt >/dev/null || stop "rt is missing: it is the command of the Rattle kit, which proves and builds the program"
    say "proving and building the program, which takes some minutes the first time"
    log=$here/target/$1.log
    begun=$here/target/$1.begun
    mkdir -p "$here/target/bin" && : >"$begun" || stop "cannot write to $here/target"
    # rt also runs what it has built, here over no input: that run does not count, since it may lack the C library
    (cd "$here/crates/$1" && rt run </dev/null) 2>&1 | tee "$log" | sed -un "s/^rt: chose --jobs [0-9]* for \(.*\)$/$name: proving \1/p" >&2
    grep -q "^rt: running out/$1;" "$log" || { tail -n 20 "$log" >&2; stop "the program was not built"; }
    # a program that runs cannot be written to, but another can take its place
    cp "$here/crates/$1/out/$1" "$program.new" && touch -r "$begun" "$program.new" && mv "$program.new" "$program" || stop "cannot write to $here/target/bin"
}

# Runs target/bin/$1 from standard input to standard output, and ends with its status, 0, or 1 where a read or a write failed, which
# the program says on standard error. It is for x86-64 and takes the machine's C library: that it starts is tried first, over no input.
run() {
    local program=$here/target/bin/$1 said status
    said=$("$program" 2>&1 </dev/null) || stop "the program does not start on this machine: $said"
    { true 4<&0 && true 4>&1; } 2>/dev/null || { say "standard input or standard output is closed"; exit 1; }
    { said=$("$program" 2>&1 >&3 3>&-); } 3>&1
    status=$?
    [ -z "$said" ] || printf '%s\n' "${said#Error: }" >&2
    [ "$status" -le 1 ] || stop "the program ended with status $status"
    exit "$status"
}
