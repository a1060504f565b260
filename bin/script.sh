# What the scripts of this repository do alike: their help, arguments that they do not know, tools that are missing, contents and not dates,
# and that what a script has started ends with it. Sourced by bash; the script that does so sets `name`, which opens its messages. Sets `top`
# to the repository's root, `start` to the folder that the script was started in, and `script` to its file.
start=$PWD
script=${BASH_SOURCE[${#BASH_SOURCE[@]} - 1]}
top=${BASH_SOURCE[0]%/*}/..
[[ $script = /* ]] || script=$PWD/$script
[[ $top = /* ]] || top=$PWD/$top
while [[ $top = */bin/.. ]]; do top=${top%/bin/..}; done # it is shown to users

# What is not in every system, and what has it.
declare -A comes_from=(
    [rt]='the command of the Rattle kit that .ci/kit names, to prove and build with'
    [cc]="a C compiler, of Debian's gcc"
    [gcc]="of Debian's gcc"
    [make]="of Debian's make"
    [nm]="of Debian's binutils"
    [objcopy]="of Debian's binutils"
    [objdump]="of Debian's binutils"
    [readelf]="of Debian's binutils"
    [python3]="of Debian's python3"
    [awk]="of Debian's mawk"
    [git]="of Debian's git"
    [groff]="of Debian's groff-base"
    [pkg-config]="of Debian's pkgconf, or pkg-config"
)

say() { printf '%s: %s\n' "$name" "$*" >&2; }
fail() {
    say "$*"
    exit 1
}
need() { # TOOLS..: all of them are on the PATH
    local tool missing=()
    for tool; do
        command -v "$tool" >/dev/null || missing+=("$tool, ${comes_from[$tool]:?has no package}")
    done
    [ "${#missing[@]}" -eq 0 ] || fail "not on the PATH: $(printf '%s; ' "${missing[@]}")nothing was begun"
}

# The comment that opens a script is its help, and has its usage: the line that begins so, and those after it that are indented.
help() {
    local line
    {
        IFS= read -r line # names bash
        while IFS= read -r line && [[ $line = '#'* ]]; do
            line=${line#'#'}
            printf '%s\n' "${line# }"
        done
    } <"$script"
}
misused() { # WORDS: what is amiss with the arguments
    local line shown=''
    say "$*"
    while IFS= read -r line; do
        if [[ $line = usage:* ]]; then
            shown=yes
        elif [[ $line != '  '* ]]; then
            shown=''
        fi
        [ -z "$shown" ] || printf '%s\n' "$line" >&2
    done < <(help)
    exit 2
}
take_arguments() { # MOST OPTIONS WORDS..: of the words of a command line the options, in `options`, and the others, at most so many, in `words`
    local word most=$1 known=" $2 "
    options=() words=()
    for word in "${@:3}"; do
        if [ "$word" = --help ]; then
            help
            exit 0
        elif [[ $word = -* && $known = *" $word "* ]]; then
            options+=("$word")
        elif [[ $word = -* ]]; then
            misused "there is no option '$word'"
        elif [ "${#words[@]}" -eq "$most" ]; then
            misused "'$word' is one argument too many"
        else
            words+=("$word")
        fi
    done
}

contents() { # FILES AND FOLDERS..: a checksum over the names and the contents of all files there. No must-fail edit goes into what is built, and
    # what rt makes in a crate's out/ is no source
    find -L "$@" \( -name must-fail -o -name out \) -prune -o -type f -print0 | LC_ALL=C sort -z | xargs -0 -r b2sum -l 256 | b2sum -l 256
}

# The processor that all that is built is for: any of x86-64. Left to itself rt builds for x86-64-v2.
processor=x86-64

put_into_target() { # FILE FOLDER of target/, in the repository's root: in one step, so that nobody meets a part of it
    mkdir -p "target/$2" && cp -p "$1" "target/$2/.new" && mv -f "target/$2/.new" "target/$2/${1##*/}"
}

one_builds() { # waits until no other script builds, and holds the others off until has_built: what is built is put into target/ when it is whole
    { mkdir -p "$top/target" && : >>"$top/target/program.lock"; } || fail "cannot write to $top/target"
    exec 9>>"$top/target/program.lock"
    if ! command -v flock >/dev/null; then
        say "flock, of Debian's util-linux, is not on the PATH; start no second script before this one has built"
    elif ! flock -n 9; then
        say "waiting for another script, which is building"
        flock 9 &
        wait "$!"
    fi
}
has_built() { # the next may build
    exec 9>&-
}

end_started() { # kills all that this script has started, and what that has started; each is stopped first, so that it starts no more. It is the last
    # that a script does, and says nothing
    local file line parent more=yes
    local -A found=([$$]=yes)
    while [ -n "$more" ]; do
        more=''
        for file in /proc/[0-9]*/stat; do
            { IFS= read -r line <"$file"; } 2>/dev/null || continue # it has ended
            parent=${line##*) ? } # behind the name its state, then its parent
            if [ -n "${found[${parent%% *}]-}" ] && [ -z "${found[${line%% *}]-}" ]; then
                kill -STOP "${line%% *}" 2>/dev/null || continue
                found[${line%% *}]=yes more=yes
            fi
        done
    done
    unset "found[$$]"
    exec 2>/dev/null # bash would say of each that it was killed
    kill -KILL "${!found[@]}" || :
    wait || :
}
guard() { # WORDS..: has a second process go on with the script, its words these, and waits for it. All that it starts, and what it leaves in
    # the folder for temporary files, ends with this one: bash acts on a signal at once only while it waits, and on INT not even then.
    local status=0 room='' apart=()
    if [ "${guarded_by-}" = "$PPID" ]; then
        unset guarded_by
        return
    fi
    guard_ends() { # STATUS
        trap '' HUP INT QUIT TERM
        end_started
        rm -rf "$room"
        exit "$1"
    }
    trap 'guard_ends 129' HUP
    trap 'guard_ends 130' INT
    trap 'guard_ends 131' QUIT
    trap 'guard_ends 143' TERM
    room=$(mktemp -d -t zahupnik.XXXXXX) || fail "no temporary folder can be made"
    chmod 711 "$room" # rt runs programs as nobody, who has to come through
    # What bash starts in the background reads nothing and is deaf to INT and QUIT, unless it is told otherwise. In a session of its own it
    # gets no signal of the terminal, so that none of it ends before what it has started.
    ! command -v setsid >/dev/null || apart=(setsid)
    (trap - INT QUIT && cd "$start" && guarded_by=$$ TMPDIR=$room exec "${apart[@]}" "$BASH" "$script" "$@") <&0 &
    wait "$!" || status=$?
    guard_ends "$status"
}
