# shellcheck shell=bash
# The examples, and the launcher.

# Each example has the files before, the words, the output, the status, and those files that are others afterwards. One
# that is like another one, which its file `like` names, has the words of that, and its files before but for its own.
example() {
    local of=$1 first=$1 words
    begin "the example ${of#"$top/examples/"}"
    [[ ! -e $of/like ]] || first=${of%/*}/$(<"$of/like")
    cp "$first"/before/* .
    [[ $first == "$of" ]] || cp "$of"/before/* .
    cp ./* ../want
    [[ ! -d $of/after ]] || cp "$of"/after/* ../want
    mapfile -t words <"$first/words"
    run "${words[@]}" >../out
    ends "$(<"$of/status")" "$(<"$of/output")"
    finish
}

# The launcher finds the program through a symbolic link and runs it in the folder of its caller.
launcher() {
    begin 'the launcher'
    change
    ln -s "$top/harmony" ../link
    ../link sync "${SLOTS[@]}" >../out 2>../err
    status=$?
    ends 0 agreed
    finish
}

# Whether the system lets a program have the stack that the launcher asks for.
allows_stack() {
    local most
    most=$(ulimit -H -s)
    [[ $most == unlimited || $most -ge 1048576 ]]
}

# The launcher gives the program the stack that the deepest tree needs, through a lens that has as many terms in one another
# as may be, and calls itself at each level.
launcher_gives_stack() {
    begin 'the stack that the launcher gives'
    local open close
    open=$(repeated 198 'xfork({},{},id,%.0s')
    close=$(repeated 198 ')%.0s')
    files "$OLD" deepest "$OLD" deepest deepest deepest
    with lensA "$(tree_lens "$EVERY_NODE"$'\nlens self R R = '"${open}map(call(self))$close" 'call(self)')"
    program=$top/harmony changes=${changes:+$top/harmony-changes} sync
    ends 0 agreed
    finish
}

# fresh_clone FOLDER: a copy of this clone as it is where nothing was built
fresh_clone() {
    mkdir "$1"
    (
        shopt -s nullglob
        cd "$top" && cp -r --parents crates/*/{src,specs,proofs}/ harmony{,-changes} release crates.txt "$1"
    )
}

# Without a toolchain the launcher runs the released program where that is made of what stands there.
released() {
    begin 'the released program'
    change
    fresh_clone "$scratch/case/fresh"
    under=(env PATH=/usr/bin:/bin)
    program=$scratch/case/fresh/harmony sync
    ends 0 agreed
    finish
}

# With another source it runs nothing, and says why.
changed_source() {
    begin 'a released program of other sources'
    no_change
    fresh_clone "$scratch/case/fresh"
    printf '// Changed.\n' >>../fresh/crates/harmony/src/main.rt
    under=(env PATH=/usr/bin:/bin)
    program=$scratch/case/fresh/harmony sync
    [[ $(<../err) == 'harmony: the program of release/ is not made of what stands here'* ]] || fault 'it tells nothing'
    : >../err
    ends 70 ''
    finish
}

# Whether a clone without anything built has a program to run.
has_release() {
    fresh_clone "$scratch/fresh"
    "$scratch/fresh/release/program" >/dev/null && ! PATH=/usr/bin:/bin command -v rt >/dev/null
}

mapfile -t examples < <(find "$top/examples" -name output -printf '%h\n' | sort)
for of in "${examples[@]}"; do
    example "$of"
done
if [[ -z ${HARMONY:-} ]]; then
    launcher
    if has_release; then
        released
        changed_source
    else
        skip 'the released program' 'it is not made of what stands here'
    fi
    if allows_stack; then
        launcher_gives_stack
    else
        skip 'the stack that the launcher gives' 'the system allows less'
    fi
else
    skip 'the launcher' 'HARMONY names another program'
    skip 'the stack that the launcher gives' 'HARMONY names another program'
fi
