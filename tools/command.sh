# shellcheck shell=bash
# What the commands share: messages, options, the status that they end with. To be sourced by a bash script that has `set -eu` and defines
#   help          a function that prints the whole usage; its first paragraph is what a wrong call is shown
#   most          the most operands that the command takes, or nothing
#   name          the command's name if it has a version to print, or nothing
#   wrong_call    the status of a wrong call
#   option        a function that takes an option of the command's own, or fails; if the command has any. It is given the option and the
#                 words that follow, and sets `taken` to 2 where the next one belongs to it

# Whatever ends a command ends it with this status, which stays 3 (it could not be done) until the command has its answer.
status=3
trap 'exit "$status"' EXIT

# A line on standard error, under the name that the command was called by.
say() {
    printf '%s: %s\n' "$0" "$*" >&2 || true
}

fail() {
    say "$@"
    exit "$status"
}

# Prints a text on standard output.
put() {
    printf '%s\n' "$1" 2>/dev/null || fail "standard output cannot be written"
}

# Prints a text, which is all that was asked for.
answer() {
    put "$1"
    status=0
    exit "$status"
}

# Ends a wrong call, of which it has been said what is wrong.
end_wrong_call() {
    help | sed '/^$/,$d' >&2 || true
    status=$wrong_call
    exit "$status"
}

usage_error() {
    say "$@"
    end_wrong_call
}

# The version of the library and its commands.
version() {
    local header
    header=$(dirname "$(realpath "${BASH_SOURCE[0]}")")/../include/throttle_version.h
    sed -n 's/^#define THROTTLE_VERSION "\(.*\)"$/\1/p' "$header"
}

# Sets `operands` to the words that are no options. A single - is one, and so is every word behind --.
read_options() {
    operands=()
    while [ $# -gt 0 ]; do
        case $1 in
            --)
                shift
                operands+=("$@")
                break
                ;;
            -h | --help) answer "$(help)" ;;
            --version)
                [ -n "$name" ] || usage_error "unknown option $1"
                answer "$name $(version)"
                ;;
            -?*)
                taken=1
                [ "$(type -t option)" = function ] && option "$@" || usage_error "unknown option $1"
                shift $((taken - 1))
                ;;
            *) operands+=("$1") ;;
        esac
        shift
    done
    [ ${#operands[@]} -le "${most:-${#operands[@]}}" ] || usage_error "too many arguments"
}

# Makes the file that is the first operand standard input, or leaves that as it is where there is no operand or it is -. `input` is then
# what messages call it.
open_input() {
    input=${operands[0]--}
    if [ "$input" = - ]; then
        input="standard input"
        [ -e /dev/stdin ] || fail "$input is closed"
    else
        [ -e "$input" ] || fail "$input: no such file"
        [ -r "$input" ] || fail "$input: may not be read"
        exec <"$input" || fail "$input: cannot be opened"
    fi
    [ ! -d /dev/stdin ] || fail "$input: is a directory"
}
