# Runs a program of this repository, and proves and builds it first where it has to: what bin/channel, bin/store and bin/why do alike. Sourced
# by them, with `top` set to the repository's root, `name` to the program's name and `waits_for` to what a user at a terminal has to type.
# A program that rt does not link by itself has `sources`, `tools`, `made_with` and make_program of its own.
set -euo pipefail
. "$top/bin/script.sh"

sources=(crates crates.txt)
tools=(rt)
made_with=--cpu=$processor # words that go into what is built
make_program() { # in the repository's root. rt proves, builds and runs it, on nothing; its stamp says to rt that it is as it was left
    rm -f "crates/$name/out/$name.stamp"
    (cd "crates/$name" && rt run "$made_with" </dev/null >/dev/null) && put_into_target "crates/$name/out/$name" bin
}

program=$top/target/bin/$name
built=$top/target/$name.built # two checksums, of the sources when the last build that succeeded began and of the program, and `made_with`
log=$top/target/$name.log

# What may take long runs in the background and is waited for: bash acts on a signal only when the foreground is done, and on INT not
# even then.
end_by() { # NUMBER: of the signal
    trap '' HUP INT QUIT TERM
    end_started
    exit $((128 + $1))
}
contents_of() { # FILES AND FOLDERS of the repository..
    (cd "$top" && contents "$@" 2>/dev/null)
}
is_built() { # whether the program is the one that was built last, from sources that are as they were
    local kept=() found=()
    [ -x "$program" ] && [ -f "$built" ] || return
    mapfile -t kept <"$built"
    mapfile -t found < <(contents_of "${sources[@]}" && contents_of "target/bin/$name")
    [ "${kept[*]}" = "${found[*]} $made_with" ]
}
build() {
    local began
    need "${tools[@]}"
    [ "$(uname -m)" = x86_64 ] || fail "the program is for x86-64, and this machine is $(uname -m)"
    one_builds
    if ! is_built; then
        say "proving and building the program, which takes minutes the first time ($log has all of it)"
        began=$(contents_of "${sources[@]}") || fail "not all sources can be read: ${sources[*]/#/$top/}"
        (cd "$top" && make_program 2>&1 | tee "target/$name.log" | sed -un '/^rt: running /d; /^rt: /p') </dev/null >&2 &
        wait "$!" || fail "the program is not proved and built, so there is none to run: see $log"
        [ -x "$program" ] || fail "$program was not built: see $log"
        printf '%s\n' "$began" "$(contents_of "target/bin/$name")" "$made_with" >"$built.begun"
        mv "$built.begun" "$built"
    fi
    has_built
}
print_version() {
    local version
    version=$(sed -nE 's/^#define ZAHUPNIK_VERSION_(MAJOR|MINOR|PATCH) +([0-9]+).*/\2/p' "$top/include/zahupnik.h" | paste -s -d .)
    [[ $version =~ ^[0-9]+\.[0-9]+\.[0-9]+$ ]] || fail "include/zahupnik.h does not say which version it is"
    printf '%s %s\n' "$name" "$version"
}

main() {
    local message='' status=0
    trap 'end_by 1' HUP
    trap 'end_by 2' INT
    trap 'end_by 3' QUIT
    trap 'end_by 15' TERM
    take_arguments 0 '--version --build' "$@"
    case "${options[*]}" in
    '') ;;
    --version)
        print_version
        exit
        ;;
    --build)
        is_built || build
        exit
        ;;
    *) misused "one of '${options[*]}' alone" ;;
    esac
    # Where one is closed, a pipe of this script would take its number.
    { : 3<&0; } 2>/dev/null || fail "standard input is closed"
    { : 3>&1; } 2>/dev/null || fail "standard output is closed"
    is_built || build
    [ ! -t 0 ] || say "waiting for $waits_for"

    # Each program writes to standard error only if it failed, and then ends with 1. Behind what it says and a zero byte comes the status: bash
    # does not always know that of a process that it reads from.
    exec 3<&0 4>&1
    exec 5< <({
        "$program" <&3 2>&1 >&4 3<&- 4>&- || status=$?
        printf '\0%d\n' "$status"
    } 2>/dev/null)
    IFS= read -r -d '' message <&5 || :
    IFS= read -r status <&5 || fail "the program was killed"
    [ -z "$message" ] || {
        printf '%s' "$message" >&2
        exit 1
    }
    exit "$status"
}
