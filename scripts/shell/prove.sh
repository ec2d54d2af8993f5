# Proves the program's crates side by side, each as soon as those that it stands on are proved, and builds the program.
#
# Sourced by `tiger --prove`. Lines on standard error tell how far that is; the build's own output goes to tiger.log, each
# crate's when it is done. A build that is interrupted goes on where it was. Of two that begin at once one builds and the
# other waits. How long each crate took goes to tiger.times, from which the next build tells how long is left.
#
# Each crate is proved by a call of its own. One call for the program reads the sources of all crates before it proves the
# first, which takes minutes and 7 GB of memory. `rt` keeps the folders of a crate and of all below it to itself while it
# works, so each call gets a folder of its own, of links to the files. Each has one job: with four `tg_driver` took 11
# minutes and 17 of the processors, with one 10.6 of each; with two `tg_translate` took 24 and 25, with one 15.4 of each.
# (The gate takes 5.6 for `tg_driver`: it keeps no work of a crate, and libraries made so are read faster by those above.)

log=$here/tiger.log
times=$here/tiger.times

# The program's crates, a line each: the GiB that its check takes, its name, and all that stand below it. Those with more
# code on the way from them up to the program come first, since they decide how long the whole takes.
plan() {
    wc -c "$here"/crates/*/src/* | awk '
        function join(crate, names, all, count, i) {
            count = split(names, all, " ")
            for (i = 1; i <= count; i++)
                if (index(whole[crate] " ", " " all[i] " ") == 0) whole[crate] = whole[crate] " " all[i]
        }
        function visit(crate, names, count, i) {
            if (!(crate in below) || crate in seen) return
            seen[crate]
            count = split(below[crate], names, " ")
            for (i = 1; i <= count; i++) if (names[i] in below) {
                visit(names[i])
                join(crate, whole[names[i]] " " names[i])
            }
            order[++crates] = crate
        }
        FILENAME == "-" { bytes[parts[split($0, parts, "/") - 2]] += $1; next }
        /^[a-z]/ { split($0, words, "[ :]"); sub("^[^:]*:", ""); below[words[1]] = $0 }
        END {
            visit("tg_cli")
            for (i = crates; i > 0; i--) {
                crate = order[i]
                way = 1 + bytes[crate] + above[crate]
                count = split(whole[crate], names, " ")
                for (k = 1; k <= count; k++) if (above[names[k]] < way) above[names[k]] = way
                print way, (crate == "tg_translate" ? 6 : 4) " " crate whole[crate]
            }
        }' - "$here/crates.txt" | sort -rn | cut -d ' ' -f 2-
}

# How many GiB of memory may be taken.
memory() {
    cat /proc/meminfo /sys/fs/cgroup/memory.max 2>/dev/null | awk '
        $1 == "MemAvailable:" { room = $2 * 1024 }
        NF == 1 && $1 + 0 && $1 + 0 < room { room = $1 + 0 }
        END { print int(room / 2 ^ 30) }'
}

# Moves what was made of a crate beside the others back to where it belongs.
take_back() {
    [ ! -d "$side/crates/$crate/out" ] || { rm -rf "$here/crates/$crate/out" &&
        mv "$side/crates/$crate/out" "$here/crates/$crate/out"; } && rm -rf "$side"
}

# Makes a folder in which a crate can be proved beside others, of links to its files and to those of all below it: two
# commands of `rt` never work in one folder at once. An interrupted build's work goes on in it.
stage() {
    take_back && mkdir -p "$side/crates" && cp "$here/HANDLES" "$side" || return
    for low in $crate $below; do
        mkdir -p "$side/crates/$low/out" && grep "^$low:" "$here/crates.txt" >>"$side/crates.txt" || return
        for part in src specs proofs; do
            [ ! -d "$here/crates/$low/$part" ] || cp -lR "$here/crates/$low/$part" "$side/crates/$low" || return
        done
    done
    for low in $below; do
        cp -lR "$here/crates/$low/out/rlib" "$side/crates/$low/out" || return
    done
    [ ! -d "$here/crates/$crate/out" ] || { rmdir "$side/crates/$crate/out" &&
        mv "$here/crates/$crate/out" "$side/crates/$crate/out"; }
}

# Proves a crate over those below it, which are proved, and tells the builder how that ended. By one job: with more the
# largest crates took more of the processors, and longer. The program is built where it is, and run with no words, which
# it answers by its usage and status 64.
prove() {
    crate=$1 verb=lib right=0 side=$out/beside/$1
    shift
    below=$*
    [ "$crate" != tg_cli ] || verb=run right=64 side=$here
    [ "$side" = "$here" ] || stage >"$out/$crate.log" 2>&1 || { echo "failed $crate" >&8; return; }
    (cd "$side/crates/$crate" && exec rt $verb --jobs 1) </dev/null >"$out/$crate.log" 2>&1 8>&- &
    trap "kill $!; exit 1" TERM
    wait $!
    [ $? -eq $right ] && { [ "$side" = "$here" ] || take_back; } && echo "proved $crate" >&8 || echo "failed $crate" >&8
}

# Wakes the builder each second, as long as there is one (a process that ended has no exe).
tick() {
    while sleep 1 && [ -e "/proc/$$/exe" ]; do
        echo tick >&8
    done
}

# Which crates come next, each with its GiB: all that they stand on is proved, and processors and memory are left.
choose() {
    next= most=$processors left=$room
    for job in $at_work; do
        gigabytes=${job#*:*:}
        most=$((most - 1)) left=$((left - ${gigabytes%:*}))
    done
    while read -r gigabytes crate below; do
        case $proved in *" $crate "*) continue ;; esac
        case $at_work in *" $crate:"*) continue ;; esac
        for low in $below; do
            case $proved in *" $low "*) ;; *) continue 2 ;; esac
        done
        most=$((most - 1)) left=$((left - gigabytes))
        [ "$most" -ge 0 ] && { [ "$left" -ge 0 ] || [ -z "$at_work$next" ]; } || return 0
        next="$next $crate:$gigabytes"
    done <<ROWS
$plan
ROWS
}

# Begins the crates that come next. Each that is at work is kept with its process, its GiB and the second of its begin.
begin() {
    choose
    for job in $next; do
        crate=${job%:*}
        prove "$crate" $(echo "$plan" | sed -n "s/^[0-9]* $crate //p") >/dev/null 2>&1 &
        at_work="$at_work $crate:$!:${job#*:}:$(date +%s)"
    done
    foresee
}

# Takes a crate from those at work, its output into the log, and its seconds into the table.
end() {
    others=
    for job in $at_work; do
        if [ "${job%%:*}" = "$1" ]; then took=$(($(date +%s) - ${job##*:})); else others="$others $job"; fi
    done
    at_work=$others
    cat "$out/$1.log" >>"$log" && rm "$out/$1.log"
    [ "$how" != proved ] || echo "$1 $took" >>"$times.new"
}

# When the build will end, in seconds of the clock, by the table of the last one: no sooner than the longest chain of
# crates that isn't proved, nor than the sum over the processors. Nothing where there is no table.
foresee() {
    ends=
    [ -s "$times" ] || return 0
    ends=$(echo "$plan" | awk -v proved="$proved" -v at_work="$at_work" -v now="$(date +%s)" -v processors="$processors" '
        FILENAME != "-" { took[$1] = $2; all += $2; count++; next }
        { crates[++n] = $2; below[$2] = $0 }
        END {
            jobs = split(at_work, job, " ")
            for (i = 1; i <= jobs; i++) { split(job[i], parts, ":"); spent[parts[1]] = now - parts[4] }
            for (i = n; i > 0; i--) if (index(proved, " " crates[i] " ") == 0) {
                crate = crates[i]
                left[crate] = (crate in took ? took[crate] : all / count) - spent[crate]
                if (left[crate] < 0) left[crate] = 0
                sum += left[crate]
            }
            # from the program down: the way of a crate is its own time and the longest way of those that stand on it
            do {
                changed = 0
                for (i = 1; i <= n; i++) {
                    crate = crates[i]
                    if (!(crate in left)) continue
                    if (way[crate] < left[crate]) { way[crate] = left[crate]; changed = 1 }
                    lows = split(below[crate], low, " ")
                    for (k = 3; k <= lows; k++) if (low[k] in left && way[low[k]] < way[crate] + left[low[k]]) {
                        way[low[k]] = way[crate] + left[low[k]]
                        changed = 1
                    }
                }
            } while (changed)
            for (crate in way) if (way[crate] > most) most = way[crate]
            if (sum / processors > most) most = sum / processors
            print int(now + most)
        }' "$times" -)
}

# How long is left, or how long it has taken where no table tells.
minutes() {
    now=$(date +%s)
    if [ -z "$ends" ]; then
        echo "$(((now - begun) / 60)) min so far"
    elif [ "$ends" -le $((now + 59)) ]; then
        echo "about a minute left"
    else
        echo "$(((ends - now) / 60)) min left"
    fi
}

# A bar of 20 places.
bar() {
    filled=$((20 * $1 / $2)) marks= at=0
    while [ $at -lt 20 ]; do
        if [ $at -lt $filled ]; then marks="$marks#"; else marks="$marks."; fi
        at=$((at + 1))
    done
    echo "[$marks]"
}

# Tells how far the build is: on a terminal in one line that is written over and over, else where a crate was proved
# since the last time, so that one that takes less than a second isn't told.
tell_progress() {
    set -- $proved
    [ -t 2 ] || [ "$told" != $# ] || return 0
    told=$# names=
    for job in $at_work; do
        names="$names ${job%%:*}"
    done
    line="$(bar $told "$crates") $told of $crates crates proved, $(minutes), at work:$names"
    if [ -t 2 ]; then printf '\rtiger: %-71.71s' "$line" >&2; else echo "tiger: $line" >&2; fi
}

# Ends what is at work.
stop() {
    for job in $ticker $at_work; do
        job=${job#*:}
        kill "${job%%:*}" 2>/dev/null
    done
    wait
    [ ! -t 2 ] || echo >&2
}

# Proves the crates and builds the program. The sources are summed before and after: what changes meanwhile isn't built.
build() {
    : >"$log"
    : >"$times.new"
    echo "tiger: proving and building the program; the first time this takes up to an hour on four processors, 4 GB of memory for each and 12 GB of disk, see $log" >&2
    plan=$(plan) processors=$(nproc) room=$(memory) begun=$(date +%s)
    proved=' ' at_work= failed= told= crates=$(echo "$plan" | wc -l)
    rm -f "$out/tiger.ends"
    mkfifo "$out/tiger.ends" && exec 8<>"$out/tiger.ends" && rm "$out/tiger.ends" || return
    tick >/dev/null 2>&1 9>&- &
    ticker=$!
    trap 'stop; exit 130' INT TERM HUP
    begin
    while [ -z "$failed" ] && [ -n "$at_work" ] && read -r how crate <&8; do
        case $how in
        tick) tell_progress ;;
        proved) proved="$proved$crate " && end "$crate" && begin ;;
        failed) failed=$crate && end "$crate" ;;
        esac
    done
    stop
    trap - INT TERM HUP
    exec 8>&-
    [ -z "$failed" ] && [ -x "$built" ]
}

# Tells the program's sum beside that of dist/, and fails where they differ though both are of these sources by this kit.
compare() {
    its=$(sum_of "$built") other= commit=$(shipped_of commit)
    read -r other _ 2>/dev/null <"$dist/SHA256SUMS"
    if [ -z "$other" ]; then
        echo "tiger: proved and built; its sum is $its, and dist/ has no program" >&2
    elif [ "$its" = "$other" ]; then
        echo "tiger: proved and built; its sum is $its, as that of dist/" >&2
    elif fits; then
        fail 1 "proved and built; its sum is $its, and that of dist/ is $other, though both are of these sources"
    else
        echo "tiger: proved and built; its sum is $its, and dist/ is of other sources, those of $commit" >&2
    fi
}

# Has the program proved and built, by this call or by another that is at it.
prove_all() {
    for tool in rt flock; do
        command -v "$tool" >/dev/null ||
            fail 69 "--prove takes $tool, and that isn't on the PATH (rt is the command of rattle-kit-13)"
    done
    { mkdir -p "$out" && echo >>"$out/tiger.lock" && echo >>"$log"; } 2>/dev/null ||
        fail 69 "--prove writes to $here, and that can't be written to"
    exec 9>"$out/tiger.lock"
    if ! flock -n 9; then
        echo "tiger: another build is at work, see $log" >&2
        flock 9
    fi
    sources=$(sum_of_sources)
    if ! is_built; then
        build || fail 69 "the build failed${failed:+ at $failed}, see $log"
        [ "$sources" = "$(sum_of_sources)" ] ||
            fail 69 "the sources changed while they were proved; ./tiger --prove proves the rest"
        echo "$sources $(sum_of "$built") launcher" >"$stamp.new" && mv "$stamp.new" "$stamp" && rm -f "$note"
        mv "$times.new" "$times"
    fi
    compare
}
