#!/usr/bin/env bash
# Runs a program of this repository, and ends with its status. `./hmmrun.sh --help` has the words.
#
#   ./hmmrun.sh WORD .. [FILE]            the proved program; it is proved and built first if something has changed
#   ./hmmrun.sh --quick WORD .. [FILE]    the unproved one; it is compiled first if something has changed
#   ./hmmrun.sh --ready WORD .. [FILE]    the proved one if it is built, or else the unproved one; never proves
#
# Words are looked at before anything is built. What this script says itself goes to standard error. The program is
# hmmrun; with `--program NAME` first it is that of the crate NAME, as hmmraces.sh, hmmwithout.sh, hmmview.sh,
# hmmjudge.sh, hmmtrace.sh and hmmevents.sh call it.
set -u
top=$(cd "$(dirname "$(realpath "${BASH_SOURCE[0]}")")" && pwd)
logic=dac8208d650f15bf              # of the kits that prove this repository
name=hmmrun
if [ "${1-}" = --program ]; then
    name=$2
    shift 2
fi
if [ "$name" = hmmtrace ]; then     # a trace of a report is made by a program of its own
    given=()
    for word in "$@"; do
        if [ "$word" = --of-report ]; then name=hmmevents; else given+=("$word"); fi
    done
    set -- "${given[@]}"
fi
crate=$top/crates/$name
program=$crate/out/$name
self=$name.sh
installed=no                        # of a package (tools/release.sh): the proved programs lie in bin/, and nothing is built
if [ -x "$top/bin/$name" ]; then
    program=$top/bin/$name
    self=$name
    installed=yes
fi
built=$program.built                # the sum of what the proved program was made from
quick=$crate/out/quick/$name        # the unproved one, with its sum in $quick.built
rules='compare compare-sequence entry-right mmap-lock own-device begin-waits begin-first set-sequence erase erase-all
erase-in-time own-events own-sequence own-entries stop-at-detach write-entry detach-waits copy-all clear set-moved
set-right set-unless-invalidated drop-lost take-from-there evict-first withdraw-first wait-for-locked exclusive-waits
look-again tell-first end-last fork-narrows fault-looks-again bring-home freeze-others freeze-first fresh-looks-again
fresh-right back-right lock-page put-back drop-unnamed'     # hmmwithout takes one of them
trace_rules=${rules%% tell-first*}   # those that hmmtrace judges: events have no bytes
trace_rules=${trace_rules/copy-all clear /}

say() { echo "$self: $*" >&2; }

fail() {
    say "$*"
    exit 70
}

# What is done without each rule: a sentence a rule, of the tables of docs/BROKEN.md.
rule_sentences() {
    awk -F ' *[|] *' '
        $2 == "RULE" && $3 ~ /^The .* without it$/ {
            if (on++) print ""
            sub(/ without it$/, "", $3)
            print (on == 1 ? "RULE is one of these" : "or one of these") "; without it t" substr($3, 2) "\n"
            in_table = 1
            next
        }
        !/^[|]/ { in_table = 0 }
        in_table && $2 ~ /^`/ { gsub(/`/, "", $2); printf "  %-23s %s\n", $2, $3 }' "$top/docs/BROKEN.md"
}

# What each program takes, a line for each word.

words_hmmrun() {
    cat <<'END'
  replay               reads a script: its report
  threads              reads a script: the report of a run in which each actor goes from a thread of its own
  race                 reads a script: as threads, but the schedule's turns come first
  generate N           a script of 4,000 operations that is drawn from the number N
  trial N              a summary of that script's run
  upgrade              reads a script: its text in version 2 of the language
  check                reads a report: `legal N`, or `bad L` for its first line that no legal report has there
  peek P ADDR LEN      reads a script: as threads, and what these bytes of process P were meanwhile
  advise               reads a script: how often the CPU and the device accessed each page, and which pages to move
  why                  reads a report: for each load, the entries that its bytes came from
END
}

words_hmmraces() {
    cat <<'END'
  (no word)            reads a script: every outcome of its race
  --table              the same as a table: a column for each answer that differs, a row for each outcome
  --script N           the whole script with the schedule of outcome N
  --expect CONDITION ..    whether each condition holds, such as 'none a0 loaded m0 0x10000 41'; status 1 if one fails
  --expect-file LINES  the same of each line of the file LINES that is neither blank nor a comment, as `# ..` is
  --strict             with --expect or --expect-file: goes through all outcomes, and a line of a condition that is in
                       none of them counts as a condition that fails, unless the condition says so itself
  MOST, --most MOST    gives up beyond MOST states, and not beyond 1,000,000
  --progress           says every five seconds how long it has searched, and in how much memory; so on a terminal
END
}

words_hmmwithout() {
    cat <<END
  RULE                 reads a script: a shortest race in which a driver without this rule does what it must not do
  right                the same of the right driver, of which there is no such race
  --all                a line for each of these drivers
  --answers            judges answers alone, and not the whole protocol
  --holds              after the race its few holds: where an actor waits for which entry of another one
  --most MOST          gives up beyond MOST states, and not beyond 100,000, or 20,000 for each driver of --all
  --progress           says every five seconds how long it has searched, and in how much memory; so on a terminal

END
    rule_sentences
}

words_hmmview() {
    cat <<'END'
  (no word)            reads a report: one page of HTML that shows it, of at most 20,000 rows
  FROM TO              the same of the rows FROM to TO-1
END
}

words_hmmjudge() {
    cat <<'END'
  (no word)            reads a report: `legal N`, or its first bad line, what is wrong with it and what was due instead
  --standing           the same; after `legal N` also what is due to each actor
  --all                the same; of a bad report also which rules the later entries break
END
}

words_hmmevents() {
    cat <<'END'
  (no word)            reads a report: the trace of its history, which hmmtrace judges
END
}

words_hmmtrace() {
    cat <<END
  (no word)            reads a trace of a driver: a line for each rule, whether it is kept, broken, or not tested
  FILE FILE ..         reads several traces: the same of each, and then a line for each rule that joins them
  --expect RULE ..     before these: status 10 if no rule is broken, and one of these is not tested
  --of-report          reads a report: the trace of its history (the program hmmevents)
  --script RULE        reads nothing: a script, and a shortest race of it in which a driver without this rule goes
                       wrong, if one is stored

RULE is one of
$trace_rules.
END
}

usage() {
    local takes='WORD ..' several
    [ "$name" = hmmtrace ] && several=' ..'
    [ "$name" = hmmraces ] &&
        takes='[MOST] [--table | --script N | [--strict] (--expect CONDITION .. | --expect-file LINES)]'
    [ "$name" = hmmwithout ] && takes='RULE [--holds] | right [--holds] | --all [--answers] [--most MOST]'
    [ "$name" = hmmview ] && takes='[FROM TO]'
    [ "$name" = hmmjudge ] && takes='[--standing | --all]'
    [ "$name" = hmmtrace ] && takes='[--expect RULE .. | --script RULE | --of-report]'
    [ "$name" = hmmevents ] && takes=
    if [ "$installed" = yes ]; then
        cat <<END
usage: $name ${takes:+$takes }[FILE${several:-}]

$("words_$name")

What is read is FILE, or standard input. A FILE whose name is a number is given as ./NAME. The program is the proved
one. --path writes the name of its file, --version the commit. Pages and examples: $top/docs, $top/examples.
END
        return
    fi
    cat <<END
usage: ./$name.sh [--quick | --ready] ${takes:+$takes }[FILE${several:-}]

$("words_$name")

What is read is FILE, or standard input. A FILE whose name is a number is given as ./NAME.

  --quick              an unproved build of the program, which is compiled once and kept until a source changes
  --ready              the proved program if it is built, or else as --quick; nothing is proved
  --path               writes the name of the program's file, which is built first as is due; nothing is run
  --version            the commit, and the kit that it needs
  --help, -h           this text

With no such word it is the proved program. If it is not built yet it is proved first, which takes 20 minutes or more.
END
    case $name in
        hmmwithout) echo 'docs/BROKEN.md explains the rules; docs/TUTORIAL.md scripts. All tools: docs/TOOLS.md.' ;;
        hmmview) echo 'docs/VIEW.md explains a page; docs/REPORT.md each line of a report.' ;;
        hmmjudge) echo 'docs/JUDGE.md explains what is said; docs/REPORT.md each line of a report.' ;;
        hmmtrace | hmmevents) echo 'docs/TRACE.md explains what is read and said; docs/BROKEN.md the rules.' ;;
        *) echo 'Scripts: docs/TUTORIAL.md; tools/hmm.py explains one that is refused. All tools: docs/TOOLS.md.' ;;
    esac
}

# The word of the second argument and those after it that is nearest to the first, if one is near.
nearest() {
    printf '%s\n' "$@" | awk '
        function least(x, y) { return x < y ? x : y }
        function steps(a, b, i, j, d, same) {
            for (i = 0; i <= length(a); i++) d[i, 0] = i
            for (j = 0; j <= length(b); j++) d[0, j] = j
            for (i = 1; i <= length(a); i++) for (j = 1; j <= length(b); j++) {
                same = substr(a, i, 1) == substr(b, j, 1)
                d[i, j] = least(least(d[i - 1, j] + 1, d[i, j - 1] + 1), d[i - 1, j - 1] + !same)
                if (i > 1 && j > 1 && substr(a, i, 1) == substr(b, j - 1, 1) && substr(a, i - 1, 1) == substr(b, j, 1))
                    d[i, j] = least(d[i, j], d[i - 2, j - 2] + 1)
            }
            return d[length(a), length(b)]
        }
        NR == 1 { given = $0; best = 3; next }
        { n = steps(given, $0); if (n < best) { best = n; found = $0 } }
        END { if (found != "") print "; did you mean `" found "`?" }'
}

refuse() {
    say "$*"
    echo >&2
    usage >&2
    exit 2
}

no_file() {
    say "$*"
    exit 2
}

is_number() { [[ $1 =~ ^(0|[1-9][0-9]{0,19})$ ]] && { [ ${#1} -lt 20 ] || [[ ! $1 > 18446744073709551615 ]]; }; }

need_numbers() {
    local word
    for word in "$@"; do
        [[ ! $word =~ ^[apm][0-9]+$ ]] || refuse "\`$word\`: its number alone, \`${word:1}\`"
        is_number "$word" || refuse "\`$word\` is no number below 2^64 (decimal digits, no leading zero)"
    done
}

# That an option has a number after it.
need_number_of() {
    [ $# -ge 2 ] || refuse "\`$1\` takes ${takes_number[$1]}"
    is_number "$2" || refuse "\`$1\` takes ${takes_number[$1]}, and \`$2\` is none"
}
declare -A takes_number=([--most]='the number of states that a search may have' [--script]='the number of an outcome')

need_bytes() {
    need_numbers "$1" "$3"
    [ ${#1} -le 2 ] && [ "$1" -le 31 ] || refuse "process $1: processes are 0 to 31"
    [ ${#3} -le 3 ] && [ "$3" -ge 1 ] && [ "$3" -le 256 ] || refuse "length $3: 1 to 256 bytes"
    [[ $2 =~ ^0x(0|[1-9a-f][0-9a-f]{0,11})$ ]] ||
        refuse "\`$2\` is no address below 2^48: 0x and hexadecimal digits in lower case, such as 0x10000"
    [ $(($2 + $3)) -le $((1 << 48)) ] || refuse "the bytes end beyond 2^48"
}

is_rule() { grep -qxF -e "$1" <<<"$(printf '%s\n' $rules)"; }

# How many states a search of hmmraces or hmmwithout may have, in `most`.
set_most() {
    [ ${#most[@]} -eq 0 ] || refuse 'one number at most: MOST'
    need_numbers "$1"
    most=("$1")
}

# What hmmraces is to write of the outcomes, in `asked`.
set_asked() {
    [ ${#asked[@]} -eq 0 ] || refuse "\`${asked[0]}\` or \`$1\`, one of them"
    asked=("$@")
}

# The conditions that these words begin with, in `conditions`.
read_conditions() {
    conditions=()
    case ${1-} in
        some | none | every)
            local words=()
            while [ $# -gt 0 ] && [[ $1 != -* ]] && [ ! -e "$1" ]; do
                words+=("$1")
                shift
            done
            [ ${#words[@]} -gt 1 ] || words+=(a0 loaded p0 0x10000 41)
            refuse "each condition is one word, in quotes: --expect '${words[*]}'" ;;
    esac
    while [[ ${1-} = *' '* ]] && [ ! -e "$1" ]; do
        conditions+=("$1")
        shift
    done
    [ ${#conditions[@]} -gt 0 ] ||
        refuse 'a condition begins with `some`, `none` or `every`, in quotes: --expect '"'none a0 loaded p0 0x10000 41'"
}

# Of the words of hmmraces, in any order: the number of states, and what is to be written. Leaves them in `words`, and
# the others in `rest`.
read_race_words() {
    local most=() strict=() asked=() conditions
    while [ $# -gt 0 ]; do
        case $1 in
            --most)
                need_number_of "$@"
                set_most "$2"
                shift ;;
            --table) set_asked "$1" ;;
            --strict) strict=("$1") ;;
            --script)
                need_number_of "$@"
                set_asked "$1" "$2"
                shift ;;
            --expect)
                read_conditions "${@:2}"
                set_asked "$1" "${conditions[@]}"
                shift ${#conditions[@]} ;;
            --expect-file)
                [ $# -ge 2 ] || refuse '`--expect-file` takes a file, a condition in each line; `#` begins a comment'
                [ -e "$2" ] || no_file "there is no file $2"
                [ -r "$2" ] && [ ! -d "$2" ] || no_file "the file $2 may not be read"
                mapfile -t conditions < <(tr -d '\r' <"$2" | grep -v '^[[:space:]]*\(#\|$\)')
                [ ${#conditions[@]} -gt 0 ] || no_file "the file $2 has no condition"
                set_asked --expect "${conditions[@]}"
                shift ;;
            *) [[ $1 =~ ^[0-9]+$ ]] && set_most "$1" || rest+=("$1") ;;
        esac
        shift
    done
    [ ${#strict[@]} -eq 0 ] || [ "${asked[0]-}" = --expect ] ||
        refuse '`--strict` goes with `--expect` or `--expect-file`'
    words=("${most[@]}" "${strict[@]}" "${asked[@]}")
}

# Which driver hmmwithout is asked about, in `rule`.
set_rule() {
    [ "$rule" = "${rule#--}" ] && [ "$1" = "${1#--}" ] || [ -z "$rule" ] || refuse '`--all` or one rule, not both'
    [ -z "$rule" ] || refuse "one rule at a time: \`$rule\` or \`$1\`"
    rule=$1
}

# Refuses words of hmmwithout that have no rule.
refuse_no_rule() {
    local given
    given=$(printf '%s\n' right --all $rules)
    [ $# -ge 1 ] || refuse 'which rule?'
    [ ! -f "$1" ] || refuse "a rule is missing before the file: \`compare $1\`, say, or \`--all $1\`"
    [[ $1 != *[+,]* ]] || refuse "\`$1\`: one rule at a time"
    [ "$1" != none ] || refuse 'there is no rule `none`; the right driver is `right`'
    refuse "there is no rule \`$1\`$(nearest "$1" $given)"
}

# Of the words of hmmwithout, in any order: a rule, and what is asked of it. Leaves them in `words`, and the others in
# `rest`.
read_rule_words() {
    local rule= most=() asked=() holds=()
    while [ $# -gt 0 ]; do
        case $1 in
            --most)
                need_number_of "$@"
                set_most "$2"
                shift ;;
            --answers)
                [ ${#asked[@]} -eq 0 ] || refuse "\`$1\` is there twice"
                asked=("$1") ;;
            --holds)
                [ ${#holds[@]} -eq 0 ] || refuse "\`$1\` is there twice"
                holds=("$1") ;;
            --all | right) set_rule "$1" ;;
            *)
                if is_rule "$1"; then set_rule "$1"
                elif is_number "$1"; then refuse "\`$1\`: \`--most $1\` is how many states a search may have"
                else rest+=("$1"); fi ;;
        esac
        shift
    done
    [ -n "$rule" ] || refuse_no_rule "${rest[@]}"
    [ ${#most[@]} -gt 0 ] || most=("$([ "$rule" = --all ] && echo 20000 || echo 100000)")
    [ "$rule" != --all ] || [ ${#holds[@]} -eq 0 ] || refuse '`--holds` goes with one rule'
    words=("$rule" "${holds[@]}" "${asked[@]}" --most "${most[@]}")
}

is_trace_rule() { grep -qxF -e "$1" <<<"$(printf '%s\n' $trace_rules)"; }

# Writes a script, and its stored shortest race in which a driver without this rule goes wrong. If none is stored, it is
# the script that docs/BROKEN.md names, and it is said how its race is searched.
write_script() {
    local without script entries
    is_trace_rule "$1" || refuse "there is no rule \`$1\`$(nearest "$1" $trace_rules)"
    for without in "$top"/examples/broken/*.without "$top"/examples/races/*.without; do
        [ "$(head -n 1 "$without")" = "$1" ] || continue
        script=${without%.without}
        say "${script#"$top"/}.hmm, and then ${script#"$top"/}.shortest"
        cat "$script.hmm" && echo && cat "$script.shortest"
        exit
    done
    read -r script entries < <(awk -F '|' -v rule=" \`$1\` " '$2 == rule { print $6, $7; exit }' "$top/docs/BROKEN.md")
    script=examples/broken/$script.hmm
    [ "$entries" = — ] && say "$script; no race of it was found in which that driver goes wrong" ||
        say "$script; its race is not stored: ./hmmwithout.sh --quick $1 $script"
    cat "$top/$script"
    exit
}

# Several traces as one text, each after a line that names it. One that is such a list already stays as it is.
join_traces() {
    local one
    for one in "$@"; do
        [ "$(head -c 6 "$one")" = 'trace ' ] || printf 'trace %s\n' "${one//$'\n'/ }"
        cat "$one"
    done
}

check_traces() {
    local one
    for one in "$@"; do
        [ -e "$one" ] || ! is_trace_rule "$one" ||
            refuse "\`$one\` is a rule; \`--expect $one\` asks whether it was tested, and all are judged"
        [ -e "$one" ] || no_file "there is no file $one"
        [ -f "$one" ] && [ -r "$one" ] || no_file "the file $one may not be read"
        [ ! -s "$one" ] || [ "$(tail -c 1 "$one" | wc -l)" -eq 1 ] || no_file "the last line of $one has no line feed"
    done
}

# Runs the program on several traces, and says which file a bad line is in.
run_traces() {
    local said status
    { said=$("$1" "${words[@]}" 2>&1 >&3 < <(join_traces "${files[@]}")); status=$?; } 3>&1
    [ -z "$said" ] || printf '%s\n' "$said" >&2
    [[ $said =~ ^hmmtrace:\ trace\ ([0-9]+)\ line ]] && say "trace ${BASH_REMATCH[1]}: ${files[BASH_REMATCH[1] - 1]-}"
    exit "$status"
}

# Of the words of hmmtrace: the rules that are to be tested. A word after them that is no rule is a file; if there are
# several, they are left in `files`. Leaves the words in `words`, and the number of those that it has looked at in
# `taken`.
read_trace_words() {
    local all=$#
    if [ "${1-}" = --script ]; then
        [ $# -eq 2 ] || refuse '`--script` takes a rule'
        write_script "$2"
    elif [ "${1-}" = --expect ]; then
        words=("$1")
        shift
        while [ $# -gt 0 ] && is_trace_rule "$1"; do
            words+=("$1")
            shift
        done
        if [ ${#words[@]} -eq 1 ] || { [ $# -gt 0 ] && [ "$1" != - ] && [ ! -e "$1" ]; }; then
            [ $# -gt 0 ] && [ ! -e "$1" ] || refuse '`--expect` takes a rule, or several'
            refuse "there is no rule \`$1\`$(nearest "$1" $trace_rules)"
        fi
    fi
    if [ $# -gt 1 ] && [[ $1 != -?* ]]; then
        check_traces "$@"
        files=("$@")
        shift $#
    fi
    taken=$((all - $#))
}

# Refuses a word of hmmrun that it has not: it may be one of another program.
refuse_word() {
    local other=
    [ ! -f "$1" ] || refuse "a word is missing before the file: \`replay $1\`, say"
    case $1 in
        run) refuse 'there is no word `run`; `replay` runs a script by its schedule, and `threads` from real threads' ;;
        outcomes | races | --table | --script | --strict | --expect | --expect-file | --most) other=hmmraces ;;
        judge | --all | --standing) other=hmmjudge ;;
        view | page) other=hmmview ;;
        without | rule | --answers) other=hmmwithout ;;
        trace) other=hmmtrace ;;
        -v | -V) refuse_option "$1" ;;
    esac
    [ -z "$other" ] || refuse "there is no word \`$1\`; $(sibling "$other") does that"
    refuse "there is no word \`$1\`$(nearest "$1" replay threads race generate trial upgrade check peek \
        advise why --quick --ready --path --help --version)"
}

# How another program is called from here.
sibling() { [ "$installed" = yes ] && echo "$1" || echo "./$1.sh"; }

# Of the words of hmmrun: the first, and those that it takes. Leaves them in `words`, and the others in `rest`.
read_run_words() {
    local takes
    [ $# -gt 0 ] || refuse 'which word?'
    case $1 in
        replay | threads | race | upgrade | check | advise | why) takes=0 ;;
        generate | trial)
            [ $# -eq 2 ] || refuse "\`$1\` takes one number, and no file"
            need_numbers "$2"
            takes=1 ;;
        peek)
            [ $# -ge 4 ] && [ ! -f "$4" ] || refuse '`peek` takes three words: P ADDR LEN'
            need_bytes "${@:2:3}"
            takes=3 ;;
        *) refuse_word "$1" ;;
    esac
    words=("${@:1:takes + 1}")
    rest=("${@:takes + 2}")
}

# Of the words of hmmjudge, hmmview and hmmevents, in any order: their options and numbers. Leaves these in `words`, and
# the others in `rest`.
read_report_words() {
    local word
    for word in "$@"; do
        case $name:$word in
            hmmjudge:--standing | hmmjudge:--all)
                [ ${#words[@]} -eq 0 ] || refuse '`--standing` or `--all`, one of them'
                words=("$word") ;;
            hmmjudge:[0-9]*) is_number "$word" && refuse 'no word but --standing or --all, and FILE'; rest+=("$word") ;;
            hmmevents:[0-9]*) is_number "$word" && refuse 'no word, but FILE'; rest+=("$word") ;;
            *)
                if [ "$name" = hmmview ] && [[ $word =~ ^[0-9]+$ ]]; then
                    need_numbers "$word"
                    words+=("$word")
                else
                    rest+=("$word")
                fi ;;
        esac
    done
    [ "$name" != hmmview ] || [ ${#words[@]} -eq 0 ] || [ ${#words[@]} -eq 2 ] || refuse 'two numbers: FROM TO'
}

# Refuses an option that the program has not.
refuse_option() {
    local other=
    case $1 in
        -v | -V) refuse "there is no \`$1\` here; did you mean \`--version\`?" ;;
        --answers | --holds) other=hmmwithout ;;
        --table | --strict | --expect-file) other=hmmraces ;;
        --standing) other=hmmjudge ;;
        --of-report) other=hmmtrace ;;
        --script | --expect) [ "$name" = hmmtrace ] || other=hmmraces ;;
        --all) [ "$name" = hmmraces ] && other=hmmwithout ;;
    esac
    [ -z "$other" ] || [ "$other" = "$name" ] || refuse "there is no \`$1\` here; $(sibling "$other") has it"
    refuse "there is no \`$1\` here$(nearest "$1" --quick --ready --help --version \
        $([ "$name" = hmmjudge ] && echo --standing --all) \
        $([ "$name" = hmmraces ] && echo --table --script --strict --expect --expect-file --most --progress) \
        $([ "$name" = hmmtrace ] && echo --expect --script --of-report) \
        $([ "$name" = hmmwithout ] && echo --all --answers --most --progress))"
}

# Refuses a file that is not there: what was meant may be a word of another program, or a condition.
refuse_missing() {
    if [ "$name" = hmmraces ] && is_rule "$1"; then
        refuse "\`$1\` is a rule; $(sibling hmmwithout) takes it"
    elif [ "$name" = hmmraces ] && [[ $1 =~ ^(some|none|every)(\ |$) ]]; then
        refuse "a condition comes after \`--expect\`, in quotes: --expect '$1'"
    fi
    no_file "there is no file $1"
}

# Refuses words that are more than a file.
refuse_many() {
    local word
    [ "$name" != hmmraces ] || for word in "${rest[@]}"; do
        [ -e "$word" ] || refuse_missing "$word"
    done
    [ ! -f "${rest[0]}" ] || [ ! -f "${rest[1]}" ] || refuse "one file at a time: \`${rest[0]}\` or \`${rest[1]}\`"
    refuse "too many words: \`${rest[*]:1}\`"
}

# Looks at the words, and leaves those of the program in `words` and the file to read in `file`.
read_words() {
    local rest=() taken word
    words=() file= files=()
    case $name in
        hmmraces) read_race_words "$@" ;;
        hmmwithout) read_rule_words "$@" ;;
        hmmrun) read_run_words "$@" ;;
        hmmtrace)
            read_trace_words "$@"
            rest=("${@:taken + 1}")
            is_number "${rest[0]-}" && refuse 'no word but --expect and --script, and FILE' ;;
        *) read_report_words "$@" ;;
    esac
    for word in "${rest[@]}"; do
        case $word in -?*) refuse_option "$word" ;; esac
    done
    [ ${#rest[@]} -le 1 ] || refuse_many
    file=${rest[0]--}
    [ "$file" = - ] || [ -e "$file" ] || refuse_missing "$file"
    [ ! -d "$file" ] || no_file "$file is a folder"
    [ -r "$file" ] || [ "$file" = - ] || no_file "the file $file may not be read"
}

does_read() { case ${words[0]-} in generate | trial) return 1 ;; esac; }

# Whether it is seen without reading that standard input is empty.
reads_nothing() {
    [ ${#files[@]} -eq 0 ] || return 1
    [ /dev/stdin -ef /dev/null ] || { [ -f /dev/stdin ] && [ ! -s /dev/stdin ]; }
}

# What a build is made from.

# The crates that the program stands on, with itself.
crates_below() {
    awk -v want="$name" '
        { sub(/#.*/, ""); if (split($0, half, ":") == 2) { split(half[1], head, " "); uses[head[1]] = half[2] } }
        function visit(crate, deps, n, i) {
            if (seen[crate]++ || !(crate in uses)) return
            print crate
            n = split(uses[crate], deps, " ")
            for (i = 1; i <= n; i++) visit(deps[i])
        }
        END { visit(want) }' "$top/crates.txt"
}

# A sum of the files in these folders of those crates, and of the words after `:`.
sum_of() {
    local crate folder folders=() inner=()
    while [ "$1" != : ]; do
        inner+=("$1")
        shift
    done
    for crate in $(crates_below); do
        for folder in "${inner[@]}"; do
            [ -d "$top/crates/$crate/$folder" ] && folders+=("crates/$crate/$folder")
        done
    done
    (cd "$top" && find "${folders[@]}" -type f | LC_ALL=C sort | xargs -d '\n' sha256sum && echo "$@" && crates_below) |
        sha256sum | cut -d ' ' -f 1
}

is_fresh() { [ -x "$1" ] && [ -e "$1.built" ] && [ "$(cat "$1.built")" = "$2" ]; }
is_quick_fresh() { is_fresh "$quick" "$(sum_of src : quick)"; }
is_proved_fresh() {
    [ "$installed" = no ] || return 0
    [ -x "$program" ] && [ -e "$built" ] && [ "$(cat "$built")" = "$(sum_of src specs : proved)" ]
}

# Waits until no other run builds the same, and keeps the rest out until this one is done or `unlock` is called.
lock() {
    command -v flock >/dev/null || return 0
    mkdir -p "$(dirname "$1")"
    exec 9>>"$1" || fail "$1 may not be written"
    flock -n 9 || { say "another run is building it; waiting for that one"; flock 9; }
}

unlock() { exec 9>&-; }

# What the kit says of itself: the file that `rt version` prints, or else `rt version`.
kit_here() {
    local rt
    rt=$(command -v rt) || { echo none; return; }
    cat "$(dirname "$(dirname "$(realpath "$rt")")")/KIT-ID" 2>/dev/null || timeout 10 rt version 2>/dev/null | head -n 1
}

# Whether the kit can prove this repository. It takes no second, and comes before any build.
check_kit() {
    local here
    here=$(kit_here)
    [ "$here" != none ] || fail 'there is no `rt` on the PATH; it comes with the Rattle kit (README.md, "Install").
Without a kit, tools/reference/cli.py replays a short script, by a program in Python that nobody has proved'
    case " $here " in
        *" logic $logic "*) return ;;
    esac
    here="the kit here is \`${here:-one that does not say its version}\`; the proofs need one with logic $logic"
    [ -n "${HMMRUN_ANY_KIT-}" ] && { say "$here; it is tried all the same"; return; }
    fail "$here. To try it all the same: HMMRUN_ANY_KIT=1 ./$name.sh .."
}

reads_script() {
    case $name:${words[0]-} in
        hmmraces:* | hmmwithout:* | hmmrun:replay | hmmrun:threads | hmmrun:race | hmmrun:upgrade | hmmrun:peek | \
            hmmrun:advise) return 0 ;;
    esac
    return 1
}

begins_exactly() {
    local first
    read -r first <"$1"
    [[ $first =~ ^hmm\ [12]$ ]]
}

# Why a script is refused: by the rules of exact ones, or of those for people.
explain() {
    if begins_exactly "$1"; then
        "$top/tools/hmm.py" --explain "$1" | tail -n +2 >&2
        "$top/tools/hmm.py" "$1" >/dev/null 2>&1 &&
            say 'without its first line it is a script for people, which is run too (docs/SCRIPT.md)'
    else
        "$top/tools/hmm.py" "$1" >/dev/null
    fi
}

# Why a condition of hmmraces is refused.
explain_conditions() {
    local at
    for at in "${!words[@]}"; do
        [ "${words[at]}" != --expect ] || { "$top/tools/conditions.py" "$1" "${words[@]:at + 1}" >&2; return; }
    done
}

# How more states are allowed to a search that was cut and has not answered.
say_more_states() {
    local at most=1000000
    for at in "${!words[@]}"; do
        [ "${words[at]}" != --most ] || most=${words[at + 1]}
    done
    [ "$name" = hmmwithout ] || ! is_number "${words[0]}" || most=${words[0]}
    [ "$most" -ge 1000000 ] || say "\`--most $((most < 100000 ? most * 10 : 1000000))\` allows more; here it was $most"
}

# Says of a script or a report that is given as a trace what makes one of it.
explain_no_trace() {
    if grep -q '^history$' "$1"; then
        say 'this is a report; `--of-report` writes the trace of its history'
    else
        say "this is a script; \`$(sibling hmmrun) replay\` writes its report, and \`--of-report\` the trace of that"
    fi
}

# Says of a report that is not legal which is the first line whose position is not the next one.
say_gap() {
    awk '
        /^history$/ { on = 1; next }
        on && $1 ~ /^[0-9]+$/ && $1 != at {
            printf "line %d has position %s where %d is due: ", NR, $1, at
            print ($1 > at ? "an event before it is missing" : "an event is there twice")
            exit
        }
        on { at++ }' "$1"
}

# If this is a script for people, and not one that begins as an exact one does, it is written exactly, and the program
# is run on that.
run_readable() {
    local exact status
    begins_exactly "$2" && return
    exact=$(mktemp) || return
    if "$top/tools/hmm.py" "$2" >"$exact" 2>/dev/null; then
        say 'this is a script for people (docs/SCRIPT.md); tools/hmm.py wrote the exact one, which is run now'
        go "$1" <"$exact"
        status=$?
        [ "$name" != hmmraces ] || [ $status -ne 2 ] || explain_conditions "$exact"
        rm -f "$exact"
        exit "$status"
    fi
    rm -f "$exact"
}

# Keeps a script that comes through a pipe, so that more can be said of it; all that a program reads of it, and a byte.
keep_script() {
    local kept
    kept=$(mktemp) || return
    head -c 4194305 >"$kept"
    exec <"$kept"
    rm -f "$kept"
}

# Whether it is said while the program searches how long it has: asked for, or on a terminal.
tells_progress() {
    [ "$name" = hmmraces ] || [ "$name" = hmmwithout ] || return 1
    [ "$progress" = yes ] || [ -t 2 ]
}

# Says every five seconds, until it is ended, how long that process has searched, and in how much memory.
say_progress() {
    local memory
    while sleep 5 </dev/null >/dev/null 2>&1; do     # it may outlive this program, and keeps no pipe open
        memory=$(awk '/^VmRSS/ { print int($2 / 1024) }' "/proc/$1/status" 2>/dev/null)
        say "searching for $SECONDS seconds${memory:+; $memory MB of memory}"
    done
}

# Runs the program on its words, and ends with its status. Ctrl-C ends it too.
go() {
    local searcher teller status
    tells_progress || { "$1" "${words[@]}"; return; }
    SECONDS=0
    "$1" "${words[@]}" <&0 &
    searcher=$!
    say_progress "$searcher" &
    teller=$!
    trap 'kill -TERM "$searcher" "$teller" 2>/dev/null; exit 130' INT
    trap 'kill -TERM "$searcher" "$teller" 2>/dev/null; exit 143' TERM HUP
    wait "$searcher"
    status=$?
    trap - INT TERM HUP
    { kill "$teller"; wait "$teller"; } 2>/dev/null
    return "$status"
}

# Runs the program in place of this script. If it reads a file, this script stays, to say more of one that is refused.
run() {
    local status gap text=$file
    [ ${#files[@]} -eq 0 ] || run_traces "$1"
    command -v python3 >/dev/null || tells_progress || exec "$1" "${words[@]}"
    if reads_script && [ -p /dev/stdin ]; then
        keep_script
    fi
    does_read && [ -f /dev/stdin ] || tells_progress || exec "$1" "${words[@]}"
    [ "$text" = - ] && text=/dev/stdin
    reads_script && run_readable "$1" "$text"
    go "$1"
    status=$?
    if ! command -v python3 >/dev/null; then
        :
    elif [ "$name" = hmmtrace ]; then
        [ $status -ne 3 ] || [ "$(head -c 4 "$text")" != 'hmm ' ] || explain_no_trace "$text"
    elif [ $status -eq 3 ]; then
        explain "$text"
    elif [ "$name" = hmmraces ] || [ "$name" = hmmwithout ]; then
        [ $status -ne 2 ] || explain_conditions "$text"
        [ $status -ne 10 ] || say_more_states
        [[ $status -ne 9 || " ${words[*]} " != *' --script '* ]] ||
            say 'outcomes are numbered from 1; without `--script N` all are written, or with `--table` a row for each'
    elif [ $status -eq 9 ] && [ "$name" = hmmview ]; then
        say "the report has $(sed '1,/^history$/d' "$text" | grep -c '^[0-9]') rows, from 0"
    elif [ $status -eq 1 ] && [ "$(head -c 4 "$text")" = 'hmm ' ] && ! grep -q '^history$' "$text"; then
        say 'this is a script; what is read here is the report that `./hmmrun.sh replay` writes of it'
    elif [ $status -eq 1 ] && [ "$name" = hmmjudge ]; then
        gap=$(say_gap "$text")
        [ -z "$gap" ] || say "$gap"
    elif [ $status -eq 1 ] && [ "$(wc -c <"$text")" -lt 4000000 ]; then
        "$top/tools/hmm.py" --due "$text" >&2
    fi
    exit $status
}

# The unproved program.

# Ctrl-C, or a signal to this script alone, ends a build that is under way.
compiler=
end_build() {
    [ -z "$compiler" ] || { kill -TERM "$compiler"; wait "$compiler"; } 2>/dev/null
    say 'the build was ended, and nothing was run'
    exit "$1"
}

make_quick() {
    is_quick_fresh && return
    check_kit
    trap 'end_build 130' INT
    trap 'end_build 143' TERM HUP
    lock "$quick.lock"
    if ! is_quick_fresh; then
        local sum
        sum=$(sum_of src : quick)
        say 'compiling the unproved program: about a minute, once; later runs start at once'
        local status=0
        "$top/tools/quick_build.sh" "$name" "$quick" 2>"$quick.said" &
        compiler=$!
        wait "$compiler" || status=$?
        compiler=
        [ "$status" -lt 128 ] || exit "$status"
        [ "$status" -eq 0 ] || return 1
        echo "$sum" >"$quick.built"
        rm -f "$quick.said"
    fi
    trap - INT TERM HUP
    unlock
}

run_quick() {
    if make_quick; then
        say 'this program is not proved: it was only compiled'
        [ "$path" = no ] || { echo "$quick"; exit 0; }
        run "$quick"
    fi
    unlock
    [ "$path" = no ] || fail "the unproved program could not be compiled; $quick.said has why"
    say "this kit's trial build could not be compiled ($quick.said has what it said)"
    say 'so the trial is run as it is: it builds anew at each run, stops after a minute, and writes at most 1 MiB'
    [ ${#files[@]} -eq 0 ] || exec < <(join_traces "${files[@]}")
    cd "$crate" || fail "no folder $crate"
    rt try -- "${words[@]}" 2> >(grep -v -e '^interpreter: ' -e '^checked: ' -e '^races: ' -e '^run=' >&2)
    exit $?
}

# The proved program.

# As many crates at a time as there are processors, and 2 GB of memory for each.
count_jobs() {
    local processors room
    processors=$(nproc 2>/dev/null || echo 1)
    room=$(awk '/^MemAvailable/ { print int($2 / 2000000) }' /proc/meminfo 2>/dev/null)
    [ -n "$room" ] && [ "$room" -lt "$processors" ] && processors=$room
    [ "$processors" -ge 1 ] && echo "$processors" || echo 1
}

# Proves the program and all that it stands on, and says how far it is, at least each minute.
prove() {
    local total done=0 line
    total=$(crates_below | wc -l)
    (cd "$crate" && rt all check --jobs "$(count_jobs)" 2>&1; echo "status $?") | while true; do
        if read -r -t 60 line; then
            printf '%s\n' "$line" >>"$log"
            case $line in
                '== summary') ;;
                '== '*)
                    done=$((done + 1))
                    say "$done of $total crates proved, $((SECONDS / 60)) minutes: ${line#== }" ;;
            esac
        elif [ $? -gt 128 ]; then
            say "$done of $total crates proved, $((SECONDS / 60)) minutes"
        else
            break
        fi
    done
    [ "$(tail -n 1 "$log")" = 'status 0' ]
}

# Links the program, by a first run on its own test input.
link() {
    local test_words=() status=0
    [ -e "$crate/args" ] && mapfile -t test_words <"$crate/args"
    [ -e "$crate/status" ] && status=$(cat "$crate/status")
    (cd "$crate" && rt run -- "${test_words[@]}" <"$( [ -e stdin ] && echo stdin || echo /dev/null)" \
        >/dev/null 2>>"$log")
    [ $? -eq "$status" ] && [ -x "$program" ]
}

make_proved() {
    is_proved_fresh && return
    check_kit
    lock "$top/crates/hmmrun/out/prove.lock"    # one for all programs, since they stand on the same crates
    if ! is_proved_fresh; then
        local sum
        sum=$(sum_of src specs : proved)
        log=$(mktemp)
        say 'proving and building the program first: from nothing 20 minutes or more on four processors'
        say "later runs start at once; ./$name.sh --quick takes a minute, and is not proved"
        prove && link || { tail -n 40 "$log" >&2; fail "not proved or not built; all that was said is in $log"; }
        echo "$sum" >"$built"
        rm -f "$log"
        say "proved and built in $((SECONDS / 60)) minutes"
    fi
    unlock
}

version() {
    local commit
    if [ "$installed" = yes ]; then
        echo "$name, commit $(cat "$top/COMMIT"), proved with logic $logic"
        return
    fi
    commit=$(git -C "$top" describe --always --dirty=' with changes' 2>/dev/null) || commit='that is not known'
    echo "$name, commit $commit"
    echo "kit: logic $logic is needed; here is: $(kit_here)"
    echo "proved program: $(is_proved_fresh && echo built || echo 'not built')"
    echo "unproved program (--quick): $(is_quick_fresh && echo compiled || echo 'not compiled')"
}

{ [ "$installed" = yes ] || [ -d "$crate/src" ]; } && declare -F "words_$name" >/dev/null || fail "there is no program $name"
for word in "$@"; do
    case $word in
        --help | -h) usage; exit 0 ;;
        --version) version; exit 0 ;;
    esac
done
how=proved
progress=no
given=()
for word in "$@"; do                # wherever they stand
    case $word in
        --quick | --ready) how=${word#--} ;;
        --progress)
            [ "$name" = hmmraces ] || [ "$name" = hmmwithout ] || refuse "there is no \`--progress\` here"
            progress=yes ;;
        *) given+=("$word") ;;
    esac
done
set -- "${given[@]}"
[ "$installed" = no ] || how=proved
path=no
if [ "${1-}" = --path ]; then
    path=yes
    [ $# -eq 1 ] || refuse '`--path` is the last word'
else
    read_words "$@"
fi
if [ "$path" = yes ]; then
    :
elif does_read && [ "$file" != - ]; then
    exec <"$file" || fail "$file could not be read"
elif does_read && [ ${#files[@]} -eq 0 ] && [ -t 0 ]; then
    say 'reading from the terminal; Ctrl-D ends the text'
fi
[ "$how" = ready ] && { is_proved_fresh && how=proved || how=quick; }
[ "$how" = quick ] && run_quick
if [ "$path" = no ] && does_read && reads_nothing && ! is_proved_fresh; then
    no_file 'what is read is empty, and nothing is proved for that'
fi
make_proved
[ "$path" = no ] || { echo "$program"; exit 0; }
run "$program"
