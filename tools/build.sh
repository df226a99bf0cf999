# shellcheck shell=bash
# The programs and archives of this repository: where they are, whether they are up to date, and how they are proved and built, by one
# command at a time. Nothing else knows this. To be sourced by a bash script that has `set -eu` and a function `fail`, which says what is
# wrong and ends the script.
#   need_program NAME [FILE]    sets `product` to the path of the program NAME, which is built if it must be; to FILE if that is given
#   need_archive NAME [FILE]    the same of the archive libNAME.a, which the crate NAME_c makes
#   need_c_program NAME ARCHIVE...
#                               the same of the program in C of programs/NAME, over these archives
#   lock_target                 waits until no other process builds, and keeps others from it until
#   unlock_target
# Its variables are root, target, lock_file, lock, product, made, record, crate, verb, members, needs and parts.
# rt leaves what it makes in the crate's folder out/, from where a build that ended well copies it to target/.
# A product that is up to date is taken as it is, without the lock and without rt. It is up to date if the crates that it is made of have
# the files that they had when its last build began, each with the size and the time that it had then. If it was put into target/ by hand, it
# is up to date if it is newer than each of these files and of the folders they are in. A program in C is made of its sources, the headers
# and the archives. A build that did not end well makes nothing up to date. rt itself does not know this lock.

root=$(dirname "$(dirname "$(realpath "${BASH_SOURCE[0]}")")")
target=$root/target
# Beside target/ and not in it, as target/ may be removed at any time.
lock_file=$root/target.lock

declare -A needs=()

# For each product there are in target/, under the name `record`: .out, what its build printed; .begun, the files as they were when a build
# began that has not ended well; .files, the files as they were when the build began that made the product.
need_program() {
    crate=$1
    verb=run
    made=$root/crates/$crate/out/$crate
    product=$target/bin/$1
    record=$target/${1//_/-}
    need_product "$@"
}

need_archive() {
    crate=$1_c
    verb=lib
    made=$root/crates/$crate/out/lib$crate.a
    product=$target/staticlib/lib$1.a
    record=$target/lib$1
    need_product "$@"
}

need_c_program() {
    local name=$1 archive archives=()
    shift
    for archive; do
        need_archive "$archive"
        archives+=("${product#"$root/"}")
    done
    product=$target/programs/$name
    record=$target/${name//_/-}
    parts=("programs/$name" include "${archives[@]}")
    is_compiled && return
    command -v "${CC:-gcc}" >/dev/null || fail "the C compiler ${CC:-gcc} is not installed"
    lock_target
    is_compiled || compile "programs/$name" "${archives[@]}"
    unlock_target
}

need_product() {
    if [ $# -gt 1 ]; then
        [ -f "$2" ] || fail "$2: no such file"
        product=$(realpath -- "$2")
        return
    fi
    is_up_to_date && return
    command -v rt >/dev/null || fail "the Rattle toolchain (rt) is not installed"
    lock_target
    is_up_to_date || build
    unlock_target
}

is_up_to_date() {
    local found
    find_members "$crate"
    find_parts
    [ -e "$product" ] && [ ! -e "$record.begun" ] || return 1
    if has_record; then
        is_as_recorded
    else
        found=$(newer_than_product) && [ -z "$found" ]
    fi
}

# The product is of the build that the record is of, which ended well.
has_record() {
    [ -e "$product" ] && [ ! -e "$record.begun" ] && [ -e "$record.files" ] && [ ! "$product" -nt "$record.files" ]
}

is_compiled() {
    has_record && is_as_recorded
}

is_as_recorded() {
    local found
    found=$(list_files) && [ "$found" = "$(<"$record.files")" ]
}

# Sets `members` to the crates that a crate is made of, itself among them, in the order of crates.txt, and `needs` to what each crate
# depends on. What crates.txt does not list is a library of the toolchain. A name may have words behind it, as `staticlib`.
find_members() {
    local line name rest queue=("$1") listed=()
    local -A seen=()
    needs=()
    while IFS= read -r line || [ -n "$line" ]; do
        line=${line%%#*}
        read -r name rest <<<"${line%%:*}" || true
        [ -z "$name" ] || { needs[$name]=${line#*:} && listed+=("$name"); }
    done <"$root/crates.txt"
    while [ ${#queue[@]} -gt 0 ]; do
        name=${queue[0]}
        queue=("${queue[@]:1}")
        if [ -n "${needs[$name]+listed}" ] && [ -z "${seen[$name]:-}" ]; then
            seen[$name]=yes
            # The dependencies are separate words.
            # shellcheck disable=SC2206
            queue+=(${needs[$name]})
        fi
    done
    members=()
    for name in "${listed[@]}"; do
        [ -z "${seen[$name]:-}" ] || members+=("$name")
    done
    [ ${#members[@]} -gt 0 ] || fail "crates.txt does not list $1"
}

# Sets `parts` to what the members are proved and compiled from: src/, specs/ and proofs/ of each, and nothing that is beside these.
find_parts() {
    local name part
    parts=(crates.txt)
    for name in "${members[@]}"; do
        for part in src specs proofs; do
            [ ! -d "$root/crates/$name/$part" ] || parts+=("crates/$name/$part")
        done
    done
}

# Every file of the parts, with its size and its time.
list_files() {
    (cd "$root" && find "${parts[@]}" -type f -printf '%p %s %T@\n' | LC_ALL=C sort)
}

# Something that changed after the product did: a file or folder of the parts, or a crate's own folder, as a part of it came or went.
newer_than_product() {
    (cd "$root" && find "${parts[@]}" -newer "$product" -print -quit &&
        find "${members[@]/#/crates/}" -maxdepth 0 -newer "$product" -print -quit)
}

# The lock goes away with the processes that have it: this one and those that it starts. So a build whose command was killed keeps it
# until it ends.
lock_target() {
    command -v flock >/dev/null || fail "flock is not installed (it is in Debian's package util-linux)"
    { exec {lock}>>"$lock_file"; } 2>/dev/null || fail "$lock_file cannot be written"
    if ! flock --nonblock "$lock"; then
        printf '%s: another command is building; waiting until it has ended\n' "$0" >&2 || true
        flock "$lock" || fail "$lock_file cannot be locked"
    fi
}

unlock_target() {
    exec {lock}>&-
}

# Before a build: a file for what it prints, and the record of the files.
begin_build() {
    mkdir -p "$target" 2>/dev/null || fail "$target cannot be made"
    { : >"$record.out"; } 2>/dev/null || fail "$record.out cannot be written"
    { list_files >"$record.begun"; } 2>/dev/null || fail "$record.begun cannot be written"
}

# After one that ended well. The record is not older than the product.
end_build() {
    touch "$record.begun"
    mv "$record.begun" "$record.files"
}

build() {
    local output=$record.out shown=${product#"$root/"}
    begin_build
    printf '%s: proving and building %s, %d crates; the first time this takes minutes\n' "$0" "$shown" ${#members[@]} >&2 || true
    if ! (set -o pipefail && prove_and_build </dev/null 2>&1 | follow "$output"); then
        tail -n 5 "$output" >&2
        fail "$shown was not proved and built; $output has the whole output"
    fi
    [ -f "$made" ] || fail "rt has not built $shown"
    mkdir -p "${product%/*}"
    { cp "$made" "$product.new" && mv "$product.new" "$product"; } || fail "$shown cannot be written"
    end_build
}

# Proves the crate and all below it, each as soon as what it depends on is proved, RT_JOBS at a time: if that is not set, as many as there are
# processors, and at most four. Then rt builds over these proofs; of a program that is the command that runs it too, here on empty input.
prove_and_build() {
    local jobs=${RT_JOBS:-}
    [ -n "$jobs" ] || { jobs=$(nproc) && ((jobs <= 4)) || jobs=4; }
    cd "$root/crates/$crate" && rt all check --jobs "$jobs" && rt "$verb"
}

# Compiles the sources of a folder and links them with archives: compile FOLDER ARCHIVE...
compile() {
    local output=$record.out shown=${product#"$root/"} options=(-std=c11 -Wall -Wextra -O2 -Iinclude)
    begin_build
    mkdir -p "${product%/*}"
    printf '%s: compiling %s\n' "$0" "$shown" >&2 || true
    if ! (cd "$root" && "${CC:-gcc}" "${options[@]}" "$1"/*.c "${@:2}" -o "$shown.new") </dev/null >"$output" 2>&1; then
        tail -n 5 "$output" >&2
        fail "$shown was not compiled; $output has the whole output"
    fi
    mv "$product.new" "$product"
    end_build
}

# Copies what rt prints to a file, and says on standard error how many crates are proved: on a terminal in one line, elsewhere in a line
# for each number. In the first three seconds it says nothing, as a build that has nothing to prove takes little longer.
# rt all prints a crate's name, as `== NAME`, and what its proof said, once that has ended; `== summary` is behind the last.
follow() {
    local line='' piece name='' proved=0 shown='' began=$SECONDS ended=0
    while ((ended == 0 || ended > 128)); do
        # A status above 128 means that a second passed; what was read of a line by then is kept.
        ended=0
        IFS= read -r -t 1 piece || ended=$?
        line+=$piece
        if ((ended == 0)) || { ((ended == 1)) && [ -n "$line" ]; }; then
            printf '%s\n' "$line" || return
            case $line in
                '== summary') name='' ;;
                '== '*) name=${line#== } proved=$((proved + 1)) ;;
                logic=not-proved*) [ -z "$name" ] || { name='' proved=$((proved - 1)); } ;;
            esac
            line=
        fi
        if ((SECONDS - began >= 3)) && [ "$shown" != "$proved" ]; then
            shown=$proved
            show_progress "$proved"
        fi
    done >"$1" || return
    [ -z "$shown" ] || [ ! -t 2 ] || echo >&2
}

show_progress() {
    local before='' after=$'\n'
    if [ -t 2 ]; then
        before=$'\r' after=
    fi
    printf '%s%s: %d of %d crates proved%s' "$before" "$0" "$1" ${#members[@]} "$after" >&2 || true
}
