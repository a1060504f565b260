# What the runs of the library from C share, to be sourced by bash in the repository's root: the compiler's words, and
# build_library, which makes the static library if the contents of a source, the kit or the processor are others than when
# it was made. The script that sources this sets `built`, the folder for what it builds, and `name`, which opens its messages.
declare -F guard >/dev/null || . bin/script.sh
archive=target/staticlib/libzahupnik.a
seal=target/staticlib/libzahupnik.seal
sanitize=('-fsanitize=address,undefined' -fno-sanitize-recover=all)

compile() { # PROGRAM SOURCES AND OTHER WORDS FOR cc..
    cc -std=c11 -Wall -Wextra -Werror -O2 -Iinclude -o "$built/$1" "${@:2}" "$archive" || fail "$1 does not compile or link"
}
run() { # PROGRAM [ARGUMENTS..]
    "$built/$1" "${@:2}" || fail "$1 ended with $?"
}
sanitizes() { # whether cc and this machine have the sanitizers
    cc "${sanitize[@]}" -x c -o "$built/sanitized" - <<<'int main(void) { return 0; }' && "$built/sanitized"
}
functions() { # of what the header declares, or of what nm lists, the functions of zahupnik
    sed -nE 's/^(uint32_t|struct zahupnik_change|.* T) (zahupnik_[a-z_]+).*/\2/p' | sort
}
expose() { # FUNCTION SYMBOL ARCHIVE: writes a copy of the library in which a function of its own goes by a symbol that C can name
    need objcopy
    objcopy --redefine-sym "$1=$2" --globalize-symbol="$2" "$archive" "$3" || fail "objcopy does not take the library"
    nm "$3" | grep " T $2\$" >/dev/null || fail "the library has no function $1 by itself: the compiler has put it in line, or it has another name"
}
seal_of() { # SOURCES: the seal of the archive as it is, which this kit made for the processor from sources with this checksum
    printf '%s\n' "$(rt version)" "$processor" "$1" "$(contents "$archive")"
}
is_sealed() { # whether the archive is the one that the kit made last, from sources that are as they were
    [ -f "$archive" ] && [ -f "$seal" ] && [ "$(<"$seal")" = "$(seal_of "$(contents crates crates.txt)")" ]
}
seal() { # COMMAND..: makes the library, and is followed by the seal if it ends well
    local began
    began=$(contents crates crates.txt)
    rm -f "$seal"
    "$@" || return
    seal_of "$began" >"$seal.begun"
    mv "$seal.begun" "$seal"
}
make_library() { # in the repository's root
    (cd crates/zahupnik && rt lib "--cpu=$processor") && put_into_target crates/zahupnik/out/libzahupnik.a staticlib
}
build_library() {
    need rt cc nm
    [ "$(uname -m)" = x86_64 ] || fail "the static library is for x86-64, and this machine is $(uname -m)"
    mkdir -p "$built"
    is_sealed || {
        one_builds
        is_sealed || seal make_library >"$built/staticlib.log" 2>&1 || {
            cat "$built/staticlib.log" >&2
            fail "rt lib failed in crates/zahupnik"
        }
        has_built
    }
    diff <(functions <include/zahupnik.h) <(nm "$archive" | functions) >&2 ||
        fail "the functions that the header declares (<) and those that the library has (>) differ"
}
