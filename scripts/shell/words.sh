# What the launcher says of words: its pages, written from two tables, and what is wrong with words that ask for nothing.
#
# Sourced by `tiger`. All of it is done by the shell alone, and no program is needed.

# Of each mode its operand, what it does, what it takes, a call, and how it ends.
modes='check|FILE|tells the first fault of a Tiger source|explain|examples/fault.tig|with 0 where the source is accepted, else with 65
run|FILE|compiles a source and runs it|heap stack steps watch fold explain|examples/merge.tig <examples/merge.in|with the code of the program modulo 256, 65 at a fault of the source, 101 to 110 at an end by a fault
show|FILE|tells what each stage makes of each function|fold explain out|examples/sum.tig|with 0 where it is told, 65 at a fault of the source
build|FILE|writes the MIPS assembly text of a source|fold explain out|examples/sum.tig -o sum.s|with 0 where the text is written, 65 at a fault of the source
bare|FILE|writes the text for a machine with delayed branches|fold explain out|examples/sum.tig -o sum.s|with 0 where the text is written, 65 at a fault of the source
alloc|FILE|tells the steps of the register allocator|fold explain out|examples/sum.tig|with 0 where they are written, 65 at a fault of the source
exec|FILE|assembles a text and runs it|heap stack steps watch bare|examples/hello.s|with the code of the program modulo 256, 65 at a fault of the text, 101 to 111 at an end by a fault
format|FILE|writes a source in its one layout|explain out|examples/crooked.tig|with 0 where the source is written, 65 at a fault of tokens or grammar
gen|N|makes a source of N functions, 1 to 1000, and runs it|heap stack steps fold|10|with the code of the program modulo 256'
# Of each option its value, what it is for, and the least, the most and what it is where it is left out.
options='heap|BYTES|the heap of the simulated machine, a multiple of 4|4|268435456|16777216
stack|BYTES|the stack of the simulated machine, a multiple of 4|65536|268435456|67108864
steps|COUNT|the most steps that a run takes|1|4611686018427387904|1000000000'
# Words that other programs have for a mode.
others='compile build
fmt format
interpret run
simulate exec
asm exec'

# A row of a table, by its first field, in the variables that are named.
row() {
    name=$1 rows=$2
    shift 2
    while IFS='|' read -r "$@"; do
        eval "[ \"\$$1\" != \"\$name\" ]" || return 0
    done <<ROWS
$rows
ROWS
    return 1
}

is_mode() { row "$1" "$modes" its operand does takes call ends; }

# All modes, a line each.
page() {
    printf 'tiger MODE FILE [--heap BYTES] [--stack BYTES] [--steps COUNT] [--watch] [--fold] [--bare]\n    [--explain] [--gnu] [-o OUT]\n\n'
    while IFS='|' read -r its operand does takes call ends; do
        printf '  %-12s %-55s ./tiger %s %s\n' "$its $operand" "$does" "$its" "$call"
    done <<ROWS
$modes
ROWS
    printf '\n'
    page_of_options 'heap stack steps watch fold bare explain out gnu'
    cat_lines <<'REST'

FILE may be -, the standard input. What is asked for without a MODE:

  help MODE, MODE --help    what a mode does and takes
  --version                 version, commit and kit, and which program answers
  --prove                   proves all crates and builds the program here; an hour, with the kit

docs/USAGE.md has the limits, the statuses and the lines on standard error. scripts/try runs a mode before anything is
proved, scripts/caret tells faults with their line and their cure, scripts/spim runs what SPIM and MARS accept.
REST
}

cat_lines() {
    while IFS= read -r line; do printf '%s\n' "$line"; done
}

# The lines of the options that are named.
page_of_options() {
    for option in $1; do
        case $option in
        watch) printf '  %-15s run and exec tell on standard error what the run fetched\n' --watch ;;
        fold) printf '  %-15s build, bare, run, show, alloc and gen fold the trees before they go on\n' --fold ;;
        bare) printf '  %-15s exec runs a machine with delayed branches, unwatched\n' --bare ;;
        explain) printf '  %-15s what explains a fault of a source stands behind its line; not in exec and gen\n' --explain ;;
        out) printf '  %-15s build, bare, show, alloc and format write OUT, where they end with 0, in place of standard output\n' '-o OUT' ;;
        gnu) printf '  %-15s FILE:LINE:COLUMN: stands before a fault, as it does on a terminal\n' --gnu ;;
        *)
            row "$option" "$options" its value is_for least most absent
            printf '  %-15s %s: %s to %s; %s where it is left out\n' "--$its $value" "$is_for" "$least" "$most" "$absent"
            ;;
        esac
    done
}

# What one mode does and takes.
page_of() {
    is_mode "$1" || return
    printf 'tiger %s %s' "$its" "$operand"
    for option in $takes gnu; do
        case $option in
        watch | fold | bare | explain | gnu) printf ' [--%s]' "$option" ;;
        out) printf ' [-o OUT]' ;;
        steps) printf ' [--steps COUNT]' ;;
        *) printf ' [--%s BYTES]' "$option" ;;
        esac
    done
    printf '\n\n  %s\n  ends %s\n\n  ./tiger %s %s\n\n' "$does" "$ends" "$its" "$call"
    page_of_options "$takes gnu"
    printf '\ndocs/USAGE.md has more of it.\n'
}

# Whether a word is nearly another: one letter more, less or other, two that changed places, or one begins with the other.
is_near() {
    case $2 in "$1"*) [ ${#1} -lt 2 ] || return 0 ;; esac
    case $1 in "$2"*) return 0 ;; esac
    head= tail=$2
    while :; do
        rest=${tail#?} first=${tail%"${tail#?}"}
        after=${rest#?} other=${rest%"${rest#?}"}
        case $1 in "$head"?"$tail" | "$head"?"$rest" | "$head$rest" | "$head$other$first$after") return 0 ;; esac
        [ -n "$tail" ] || return 1
        head=$head$first tail=$rest
    done
}

# The word that another is likely meant for, in `near`.
nearest() {
    near=
    while IFS=' ' read -r word mode; do
        [ "$word" != "$1" ] || near=$mode
    done <<ROWS
$others
ROWS
    for word in check run show build bare alloc exec format gen help; do
        [ -n "$near" ] || ! is_near "$1" "$word" || near=$word
    done
}

# Notes the first thing that is wrong with the words.
blame() { wrong=${wrong:-$1}; }

# A number of decimal digits without zeros in front, in `plain`.
strip() {
    plain=$1
    while [ ${#plain} -gt 1 ] && [ "${plain#0}" != "$plain" ]; do plain=${plain#0}; done
}

# Whether a number is at most another, both without zeros in front. Each may be too long for the shell: of two that are as
# long, what stands before the last nine digits is compared first.
is_at_most() {
    [ ${#1} -eq ${#2} ] || { [ ${#1} -lt ${#2} ]; return; }
    front=${1%?????????} front_of_most=${2%?????????}
    [ "$front" -eq "$front_of_most" ] || { [ "$front" -lt "$front_of_most" ]; return; }
    [ "1${1#"$front"}" -le "1${2#"$front_of_most"}" ]
}

# Looks at the value of an option of numbers.
look_at_value() {
    row "$1" "$options" its value is_for least most absent
    case $given in *" $1 "*) blame "--$1 stands twice" ;; esac
    given="$given$1 "
    case $2 in '' | *[!0-9]*)
        blame "--$1 takes a number in decimal digits, $least to $most, and '$2' isn't one"
        return
        ;;
    esac
    strip "$2"
    if [ ${#2} -gt 20 ]; then
        blame "--$1 takes up to 20 digits"
    elif ! is_at_most "$plain" "$most" || ! is_at_most "$least" "$plain"; then
        blame "--$1 takes $least to $most, and not $2"
    elif [ "$1" != steps ] && [ $((plain % 4)) -ne 0 ]; then
        blame "--$1 takes a multiple of 4, and not $2"
    fi
}

# Looks at how many functions `gen` is to make.
look_at_count() {
    case $1 in '' | *[!0-9]*) blame "gen takes how many functions, 1 to 1000, and '$1' is no number" ;; *)
        strip "$1"
        { is_at_most "$plain" 1000 && is_at_most 1 "$plain"; } || blame "gen takes 1 to 1000 functions, and not $1"
        ;;
    esac
}

# Looks at the words as a whole: mode, operand and flags.
look_at_all() {
    [ -z "$option" ] || blame "$option has no value"
    [ "$mode" != show ] || [ "$given" = ' ' ] || blame 'show takes no size and no steps'
    [ -z "$has_third" ] || blame "one file at a time: $second, and not $third besides"
    [ -z "$is_watched" ] || [ "$mode" = run ] || [ "$mode" = exec ] ||
        blame "--watch is a flag of run and exec, and not of $mode"
    [ -z "$is_bare" ] || [ "$mode" = exec ] || blame "--bare is a flag of exec, and not of $mode"
    [ -z "$is_bare" ] || [ -z "$is_watched" ] || blame '--watch and --bare exclude each other'
    case ${is_folded:+$mode} in check | exec | format) blame "--fold is a flag of build, bare, run, show, alloc and gen, and not of $mode" ;; esac
    case ${is_explained:+$mode} in exec | gen) blame "--explain is a flag of check, build, bare, run, alloc, show and format, and not of $mode" ;; esac
    if [ -z "$has_second" ]; then
        if [ "$mode" = gen ]; then blame 'gen takes how many functions, 1 to 1000'; else blame "$mode takes a file"; fi
    elif [ "$mode" = gen ]; then
        look_at_count "$second"
    fi
}
