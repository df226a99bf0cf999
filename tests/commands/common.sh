# shellcheck shell=bash
# What the tests of the commands share. They run in a copy of the tree with what is built, so that the caller's tree is left as it is, except
# that programs and archives are built there if they must be. `tree` is the copy's path, and the current folder.
set -eu
export LC_ALL=C
source_tree=$(realpath "$(dirname "${BASH_SOURCE[0]}")/../..")
. "$source_tree/tools/build.sh"
real_rt=$(command -v rt)
part=$(basename "$0")
failed=0

note() {
    echo "$part: $*"
    failed=1
}

fail() {
    echo "$part: $*" >&2
    exit 1
}

# Ends a test with its last line, if nothing failed.
finish() {
    [ "$failed" -eq 0 ] || exit 1
    echo "$part: $*"
}

# Copies a crate, and of its folder out/ the library, which rt takes as it is: linked where that can be, as rt never writes into its files.
copy_crate() {
    local from=$source_tree/crates/$1 to=$tree/crates/$1 part
    mkdir -p "$to/out"
    for part in "$from"/*; do
        [ "$part" = "$from/out" ] || cp -a "$part" "$to"
    done
    [ ! -d "$from/out/rlib" ] || cp -al "$from/out/rlib" "$to/out" 2>/dev/null || cp -a "$from/out/rlib" "$to/out"
}

# Makes the copy. What rt makes of a program or an archive is there, as a build left it.
copy_tree() {
    # How many crates the programs and the archive are made of.
    need_program check_log
    crates=${#members[@]}
    export crates
    need_program plan_settings
    planner_crates=${#members[@]}
    need_archive throttle
    archive_crates=${#members[@]}
    need_archive plan
    need_archive probes
    need_archive hash_rows
    need_archive log
    need_archive cut_down
    # Outside the caller's tree, in which rt ci wants no other sources.
    work=$(mktemp -d)
    trap 'rm -rf "$work"' EXIT
    tree=$work/tree
    export tree
    mkdir -p "$tree/target"
    local name
    for name in "$source_tree"/crates/*/; do
        copy_crate "$(basename "$name")"
    done
    for name in check-log cut-log plan-settings test crates.txt programs tools include samples examples bench docs; do
        cp -a "$source_tree/$name" "$tree"
    done
    for name in bin staticlib; do
        cp -a "$source_tree/target/$name" "$tree/target"
    done
    for name in check_log plan_settings; do
        cp -a "$source_tree/target/bin/$name" "$tree/crates/$name/out"
    done
    for name in throttle plan probes hash_rows log cut_down; do
        cp -a "$source_tree/target/staticlib/lib$name.a" "$tree/crates/${name}_c/out/lib${name}_c.a"
    done
    find "$source_tree/target" -maxdepth 1 -name '*.files' -exec cp -a {} "$tree/target" \;
    cd "$tree"
}

# Puts an rt in front of the toolchain's, which notes each call in the file `calls`, behind the folder that it is called in, and then does as
# the variable RT says, which is a piece of shell: `keep` prints of `rt all` the lines of the checker's crates, whose proofs are kept, and
# leaves what is made as it is; `real` calls the toolchain. A build calls `rt all check` in a crate's folder, and then `rt run` or `rt lib`.
plant_rt() {
    calls=$work/calls
    export calls real_rt
    : >"$calls"
    mkdir -p "$work/planted"
    cat >"$work/planted/rt" <<'END'
#!/usr/bin/env bash
set -eu
echo "${PWD##*/} $*" >>"$calls"
keep() {
    [ "${words%% *}" = all ] || return 0
    for ((i = 1; i <= crates; i++)); do echo "== crate_$i"; done
    echo "== summary"
}
words=$*
real() { "$real_rt" "$@"; }
eval "${RT:-keep}"
END
    chmod +x "$work/planted/rt"
    PATH=$work/planted:$PATH
}

# A folder of links to the programs that the commands need, without those that are named: PATH=$(path_without rt) COMMAND
path_without() {
    local folder name
    folder=$(mktemp -d "$work/path.XXXXXX")
    for name in bash cat cp dirname find flock grep mkdir mv nproc realpath rm rt sed sort tail touch; do
        [[ " $* " == *" $name "* ]] || ln -s "$(command -v "$name")" "$folder/$name"
    done
    echo "$folder"
}

# Runs a command and looks at its status and its standard output, which is a file's content: expect STATUS FILE COMMAND...
# The file - stands for nothing. Afterwards $work/found and $work/errors have what was printed.
expect() {
    local wanted=$1 output=$2 found=0
    [ "$output" != - ] || output=/dev/null
    shift 2
    "$@" >"$work/found" 2>"$work/errors" || found=$?
    if [ "$found" -ne "$wanted" ] || ! cmp -s "$output" "$work/found"; then
        note "status $found for status $wanted, or another output: $*"
        cat "$work/found" "$work/errors"
    fi
}

# The last command has said this on standard error: said TEXT
said() {
    grep -qF -- "$1" "$work/errors" || {
        note "it is not said: $1"
        cat "$work/errors"
    }
}

# As many builds as are named have called rt since this was last asked: called COUNT WHAT
called() {
    local found
    found=$(grep -cvE ' (run|lib)$' "$calls") || true
    : >"$calls"
    [ "$found" -eq "$1" ] || note "rt was called by $found builds and not by $1: $2"
}
