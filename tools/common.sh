# Shared by ./check, ./probe, ./bench and the tools: plain messages, missing packages, the toolchain, watching it, and running a proved program.
# A script that takes this file in has set `part` to what it is doing, in plain words, and goes no further where it cannot be read to its end:
#     . tools/common.sh && common_is_whole || { echo "FAILED in: reading tools/common.sh"; exit 1; }

judging='' edits='' # whatever the environment has

# fail [WORDS]: ends the script, and says in what it failed
fail() {
    failed=$part${*:+: $*}
    [ -n "$judging" ] || printf '%s\n' "$0: FAILED in: $failed" >&2
    exit 1
}

# A script that judges calls `judge` first. However it then ends, its last line on standard output is $verdict if that was set and nothing failed,
# and else says in what it failed. It may keep its files in $room, which goes with it.
judge() {
    judging=1 verdict='' failed='' room=''
    trap judged EXIT
}
judged() {
    local status=$?
    [ -z "$room" ] || rm -rf "$room"
    if [ "$status" -eq 0 ] && [ -n "$verdict" ] && printf '%s\n' "$verdict"; then exit 0; fi
    printf '%s\n' "FAILED in: ${failed:-$part}"
    [ "$status" -ne 0 ] || status=1
    exit "$status"
}

# need COMMAND PACKAGE: Debian's package, where the command is missing
need() {
    command -v "$1" >/dev/null 2>&1 && return 0
    command -v apt-get >/dev/null 2>&1 || fail "the command $1 is missing, and there is no apt-get to install $2 with"
    echo "installing $2, since $1 is missing" >&2
    { apt-get update -qq && DEBIAN_FRONTEND=noninteractive apt-get install -y -qq "$2"; } </dev/null >/dev/null 2>&1 || fail "could not install $2, which $1 is in"
    command -v "$1" >/dev/null 2>&1 || fail "$2 is installed, and there is still no $1"
}

# the toolchain, which no package has. The proofs hold in the logic that toolchain.txt pins, so another logic stops the work; another kit of that logic is
# said, and the work goes on
toolchain() {
    local wanted found logic form='^[^ ]+ logic ([0-9a-f]+)$'
    wanted=$(cat toolchain.txt) || fail "toolchain.txt cannot be read"
    [[ $wanted =~ $form ]] || fail "toolchain.txt has '$wanted', which is not of the form 'KIT logic NUMBER'"
    logic=${BASH_REMATCH[1]}
    command -v rt >/dev/null 2>&1 || fail "rt is missing: the Rattle toolchain has to be installed first (wanted: $wanted)"
    found=$(rt version) || fail "rt does not say its version"
    [[ $found =~ $form ]] || fail "rt says that it is '$found', which is not of the form 'KIT logic NUMBER'"
    [ "${BASH_REMATCH[1]}" = "$logic" ] || fail "the toolchain is '$found', and toolchain.txt asks for '$wanted': this is another logic"
    [ "$found" = "$wanted" ] || echo "the kit is '${found%% *}' and not '${wanted%% *}'; its logic is the same, so the work goes on" >&2
}

# watched LOG COMMAND ..: runs rt with its whole output in LOG, and says as it goes which crate is proved, which edit refused and which program run; the
# edits are counted up to $edits, if that is set. Gives back the command's status; where it is not 0, all of LOG that is not about a success is shown.
watched() {
    local log=$1 states
    shift
    "$@" </dev/null 2>&1 | tee "$log" | progress
    states=("${PIPESTATUS[@]}")
    if [ "${states[0]}" -ne 0 ]; then
        grep -v -e ': proved$' -e '^rt: [^ ]* proved$' -e '^rt: must-fail .*: refused, as it must be' -e '^rt: .* ran.*, and wrote what its file' \
            -e '^rt: .* is kept: ' -e '^rt: .*: trying its must-fail edits' -e '^rt: .*must-fail edits were tried' -e '^rt: chose ' -e '^checked ' -e '^== ' -e '^empty contracts: 0 ' -e '^statements ' -e '^axioms ' \
            -e '^logic' -e '^linked ' -e '^note: no function ' -e '^[0-9]* passed, [0-9]* failed$' "$log"
        return "${states[0]}"
    fi
    [ "${states[1]}" -eq 0 ] && [ "${states[2]}" -eq 0 ] || fail "the output could not be kept in $log, or not be shown"
}

# what watched says: plain lines; on a terminal the edits share one
progress() {
    local line count=0 open=''
    while IFS= read -r line || [ -n "$line" ]; do
        case $line in
        'rt: must-fail '*': refused, as it must be'*)
            count=$((count + 1)) line=${line#rt: must-fail }
            line="edit $count${edits:+ of $edits} refused: ${line%%.edit:*}"
            if [ -t 1 ]; then
                printf '\r\033[K%s' "$line"
                open=1
                continue
            fi
            ;;
        'rt: '*' is kept: '*) line="${line#rt: }" line="${line%% is kept: *} was proved before" ;;
        'rt: '*' proved' | 'rt: '*' ran'* | 'rt: must-fail '* | 'rt: '*'NOT PROVED'* | 'rt: '*FAILED*) line=${line#rt: } ;;
        *) continue ;;
        esac
        [ -z "$open" ] || echo
        open=''
        printf '%s\n' "$line" || return
    done
    [ -z "$open" ] || echo
}

# program NAME: where rt puts a proved program; proved NAME: run it
program() { echo "crates/$1/out/$1"; }
proved() { "$(program "$1")"; }

# built NAME LOG: proves the program NAME and what is below it, and builds it, where that was not done since the last change of a source, of a folder that
# has some, or of the toolchain that is asked for
built() {
    local made newer
    made=$(program "$1")
    if [ -x "$made" ]; then
        newer=$(find crates crates.txt toolchain.txt -name out -prune -o \( -path 'crates/*/*' -type d -o -name '*.rt' -o -name '*.antt' -o -name '*.txt' \) -newer "$made" -print) || newer=all
        [ -n "$newer" ] || return 0
    fi
    running() { (cd "crates/$1" && rt run); }
    watched "$2" running "$1"
}

# build_second: the second program, at target/second, where it is missing or older than its source
build_second() {
    local newer
    newer=$(find second -name '*.rs' -newer target/second 2>/dev/null) || newer=all
    if [ ! -x target/second ] || [ -n "$newer" ]; then
        need rustc rustc
        mkdir -p target || fail "there is no folder target, and it cannot be made"
        rm -f target/second
        rustc -O --edition 2021 second/main.rs -o target/second || fail "the second program does not compile"
    fi
}

# the last line: it is there only if all of the above is
common_is_whole() { true; }
