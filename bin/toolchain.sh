# Sourced from the root of the repository: how the library and the programs are built, and how C is compiled, linked and run.
# The kit does all of it, with its own C library, so that no other compiler is asked for. What it makes is for x86-64, as its own
# programs are: on another machine, such as an Arm one, whatever runs those there runs what is linked here.

library=crates/dirgewater/out/libdirgewater.a

# Sets rt, and the kit's folders; it may stand on no PATH, as in a fresh runner.
find_kit() {
    rt=$(command -v rt) || rt=/opt/rattle/bin/rt
    [ -x "$rt" ] || { echo "the Rattle kit is needed: no rt on PATH, and no $rt" >&2; return 1; }
    kit=$(dirname -- "$(dirname -- "$(readlink -f -- "$rt")")")
    tools=$kit/toolchain
    "$tools/bin/clang" --version >/dev/null 2>&1 || { echo "the kit at $kit has no compiler that runs on this machine, $(uname -m)" >&2; return 1; }
    runner=("$tools/lib/ld-linux-x86-64.so.2" --library-path "$tools/lib")
}

# Whether something that a crate is made of is newer. A folder is newer once a file in it was made or removed.
is_stale() { # BUILT
    [ ! -f "$1" ] ||
        [ -n "$(find crates.txt "$kit/KIT-ID" crates/*/src crates/*/specs crates/*/proofs -newer "$1" -print -quit 2>/dev/null)" ]
}

# Proves and builds what is missing or older than what it is made of. What rt says is shown if it fails.
need() { # CRATE BUILT COMMAND..
    local said
    is_stale "$2" || return 0
    said=$(cd -P -- "crates/$1" && "$rt" "${@:3}" 2>&1 </dev/null) || { printf '%s\n' "$said" >&2; return 1; }
    touch "$2" # where nothing of it had changed rt leaves it as old as it was
}

need_library() { need dirgewater "$library" lib; }

# Where a program lies; rt builds one when it runs it, here on no input.
program() { echo "crates/$1/out/$1"; } # NAME
need_program() { need "$1" "$(program "$1")" run; } # NAME

# Whether the library defines a function.
in_library() { grep -aqw -- "$1" "$library"; } # NAME

# Compiles one C file for x86-64. The machine's own headers are kept out, since they can be another processor's.
compile_c() { # OBJECT SOURCE FLAGS..
    mkdir -p "$(dirname -- "$1")"
    "$tools/bin/clang" --target=x86_64-unknown-linux-gnu -std=c11 -Wall -Wextra -Werror -O3 -fPIE \
        -nostdinc -isystem bin/libc "${@:3}" -c "$2" -o "$1"
}

# Links objects and the library. The linker speaks where all is well too, so it is shown only if it fails.
link_c() { # PROGRAM OBJECT..
    local said
    said=$("$kit/bin/rattle-link" --target x86_64-unknown-linux-gnu --toolchain "$tools" -o "$1" "${@:2}" "$library" 2>&1) ||
        { printf '%s\n' "$said" >&2; return 1; }
}

# Whether the machine runs what is linked by an emulator.
is_emulated() { [ "$(uname -m)" != x86_64 ]; }

# A linked program is run by the kit's loader, over the kit's C library.
run_c() { "${runner[@]}" "$@"; } # PROGRAM ARGUMENT..
