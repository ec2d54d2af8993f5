# Which program the launcher runs: the one that was proved in this checkout, or that of dist/.
#
# Sourced by `tiger` and by `scripts/dist`, with `here`, the top of the checkout. What is decided rests on sums: of all
# that `rt` reads to build the program, and of the program. What was decided is noted with the time, and looked at again
# where any time isn't as it was: a source newer than the note, or a program newer or older than it was then.
#
# Summing all sources takes a tenth of a second and the program some milliseconds, more than a start, so times are looked
# at first, and alone to see whether sums have to be taken again. A source that is written with its old time isn't seen, nor
# is an edited specification or proof, which changes no program: `--prove`, the gate and `scripts/dist` take sums always.

out=$here/crates/tg_cli/out
built=$out/tg_cli
stamp=$out/tiger.stamp
dist=$here/dist
shipped=$dist/tiger-x86_64-linux
note=$out/tiger.note
same=$out/tiger.same

sum_of() {
    sum=$(sha256sum <"$1" 2>/dev/null) && echo "${sum%% *}"
}

# The sum of all that `rt` reads of this repository to build the program.
sum_of_sources() {
    (cd "$here" && find crates.txt HANDLES crates/*/src crates/*/specs crates/*/proofs -type f | LC_ALL=C sort |
        xargs sha256sum | sha256sum | cut -c 1-64)
}

# Whether there are sources and a kit that could prove them: an installed launcher has none.
can_prove() {
    [ -f "$here/crates.txt" ] && command -v rt >/dev/null
}

# What dist/SOURCES has under a name.
shipped_of() {
    while read -r key value; do
        [ "$key" != "$1" ] || echo "$value"
    done 2>/dev/null <"$dist/SOURCES"
}

# Whether the note of the last decision still holds. Nothing here starts a process: this is most of the time that a start
# takes. A folder is newer where a file in it was added, removed or replaced, as git and editors do.
is_noted() {
    [ -f "$note" ] && read -r kind _ <"$note" || return 1
    case $kind in
    proved) program=$built ;;
    shipped) program=$shipped ;;
    kitless) program=$shipped && ! can_prove || return 1 ;;
    *) return 1 ;;
    esac
    [ -x "$program" ] && [ ! "$program" -nt "$same" ] && [ ! "$program" -ot "$same" ] || return 1
    for source in "$stamp" "$dist/SOURCES" "$dist/SHA256SUMS" "$here/crates.txt" "$here"/crates/*/src \
        "$here"/crates/*/specs "$here"/crates/*/src/*; do
        [ ! "$source" -nt "$note" ] || return 1
    done
}

# Whether the program that was built here is what its sources and its stamp say; else `why`.
is_built() {
    [ -x "$built" ] && [ -f "$stamp" ] && read -r of its _ <"$stamp" || return 1
    if [ "$of" != "$sources" ]; then
        why="the sources have changed since the program was proved here"
    elif [ "$its" != "$(sum_of "$built")" ]; then
        why="the program in crates/tg_cli/out isn't the one that was proved here"
    else
        kind=proved program=$built
        return 0
    fi
    return 1
}

# Whether dist/ holds the program that it says, for this machine; else `why`.
is_whole() {
    if [ ! -f "$shipped" ] || [ ! -f "$dist/SHA256SUMS" ] || [ ! -f "$dist/SOURCES" ]; then
        why=${why:-"dist/ has no program"}
    elif ! read -r its _ <"$dist/SHA256SUMS" || [ "$its" != "$(sum_of "$shipped")" ]; then
        why="dist/tiger-x86_64-linux is damaged, as dist/SHA256SUMS tells (git checkout dist puts it back)"
    elif [ "$(uname -sm)" != "Linux x86_64" ]; then
        why="the program of dist/ is for Linux on x86_64, and this is $(uname -sm)"
    elif "$shipped" </dev/null >/dev/null 2>&1; [ $? -ne 64 ]; then
        why="the program of dist/ doesn't start here (it needs glibc 2.34)"
    else
        return 0
    fi
    return 1
}

# Whether dist/ was built from these sources by this kit.
fits() {
    [ "$(shipped_of sources)" = "$sources" ] && [ "$(shipped_of kit)" = "$(rt version 2>/dev/null)" ]
}

# Decides, and notes it. Without the kit the program of dist/ answers whatever the sources are. Where none may, `why`.
decide() {
    program= kind= why= sources= before=
    read -r _ before 2>/dev/null <"$note"
    [ ! -f "$here/crates.txt" ] || { mkdir -p "$out" && echo >"$note.$$"; } 2>/dev/null
    { [ ! -x "$built" ] || [ ! -f "$stamp" ]; } && ! can_prove || sources=$(sum_of_sources)
    if ! is_built; then
        is_whole || return
        kind=shipped program=$shipped
        if ! can_prove; then
            kind=kitless
        elif ! fits; then
            program= why=${why:-"the sources aren't those of the program of dist/"}
            return 1
        fi
    fi
    keep_note
}

# Notes what was decided, and says once which program of dist/ it is. Where nothing can be noted, nothing is said.
keep_note() {
    commit=$(shipped_of commit)
    if [ -f "$note.$$" ] && echo "$kind ${commit:--}" >"$note.now.$$" && touch -r "$note.$$" "$note.now.$$" &&
        touch -r "$program" "$same.$$" && mv "$same.$$" "$same" && mv "$note.now.$$" "$note"; then
        [ "$kind" = proved ] || [ "$before" = "$commit" ] || [ -n "$is_silent" ] ||
            echo "tiger: the program of dist/, proved at $commit; ./tiger --prove proves it here" >&2
    fi
}

find_program() {
    is_noted && return
    decide
    status=$?
    rm -f "$note.$$" "$note.now.$$" "$same.$$"
    return $status
}
