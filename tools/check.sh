#!/usr/bin/env bash
# tools/check.sh: what takes no proof, in less than half a minute: run it before each commit. Nothing is proved.
#
# Ends with status 1 if something is wrong: a number of tools/house.py grew, a copy of an example differs, an edit does
# not apply, a field of a record is in no law, a case of tools/hmm.py or of the programs' words has another answer, a
# tool cannot be executed, a stored output is not read by tools/as_json.py, a page names a page or a file that is not
# there, an outcome of Linux has the name of a variant by which no way comes to it, a race of tools/trace/suite.py has
# holds that its reader refuses, two pages say different things of a driver, a rule's word is missing in one of the
# places that have all of them, or a command of a page writes something else than the page shows. Commands are run only
# if all five programs are built or compiled as they are now: nothing is compiled here.
set -u
cd "$(dirname "$(realpath "$0")")/.." || exit 2
said=$(mktemp -d) || exit 2
trap 'rm -rf "$said"' EXIT

# COMMAND ..: it ends with 0, and else what it writes is wrong
ends_well() {
    local text
    text=$("$@" 2>&1) || echo "$*: $text"
}

numbers_of_house() {
    tools/house.py | awk -F': ' 'NR == FNR { most[$1] = $2; next }
        /^[a-z]+: [0-9]+$/ && $1 in most && $2 > most[$1] { print "tools/house.py: " $1 " is " $2 ", and at most " most[$1] }' \
        <(tr '\t' ':' < tools/house_limits.tsv | sed 's/:/: /') -
}

cases_of_scripts() {
    local cases
    cases=$(tools/hmm.py --test | tail -n 1)
    case $cases in *' 0 wrong') ;; *) echo "tools/hmm.py --test: $cases" ;; esac
}

# each tool with a first line that names an interpreter can be executed
executable_tools() {
    local tool first
    for tool in *.sh tools/*.py tools/*.sh tools/*/*.py tools/*/*.sh; do
        IFS= read -r first < "$tool"
        case $first in '#!'*) [ -x "$tool" ] || echo "$tool cannot be executed" ;; esac
    done
}

# what the programs wrote, as stored, is read by the tool that writes it as JSON
stored_outputs() {
    local output
    for output in examples/races/*.outcomes examples/races/*.rulings examples/*/*.shortest examples/traces/*.verdicts; do
        tools/as_json.py "$output" > /dev/null || echo "tools/as_json.py does not read $output"
    done
}

# pages name pages and examples that are there
named_files() {
    local page name
    for page in README.md docs/*.md examples/*.md tools/*/*.md; do
        for name in $(grep -oE '\b(docs|examples|tools)/[A-Za-z0-9_/]+\.(md|hmm|report|trace|py|sh|c|png)\b' "$page" | sort -u); do
            case $name in */NAME.*) continue ;; esac
            [ -e "$name" ] || echo "$page names $name, which is not there"
        done
    done
}

# the rules' words: the program's help, which is made of the page of broken drivers, and the second judge of traces
words_of_rules() {
    local rules told rule
    rules=$(sed -n "/^rules='/,/'/p" hmmrun.sh | tr -d "'" | sed "s/^rules=//; s/ *#.*//")
    told=$(./hmmwithout.sh --help | awk '/^RULE is one of these;/ { on = 1 } on && /^  [a-z]/ { print $1 }')
    [ "$(echo $told)" = "$(echo $rules)" ] || echo 'the two tables of docs/BROKEN.md have other rules than hmmrun.sh'
    for rule in $(sed -n "/^RULES = /,/\]/p" tools/protocol/trace_judge.py | grep -oE "'[a-z-]+'" | tr -d "'"); do
        case " $(echo $rules) " in
            *" $rule "*) ;;
            *) echo "tools/protocol/trace_judge.py has a rule \`$rule\` that hmmrun.sh has not" ;;
        esac
    done
}

# the commands of the pages, if the programs are there
commands_of_pages() {
    local program
    for program in hmmrun hmmraces hmmwithout hmmjudge hmmview hmmtrace; do
        ./$program.sh --version | grep -qE ': (built|compiled)' || return 0
    done
    ends_well tools/page_commands.py
}

begin() { "$@" > "$said/$(echo "$*" | tr -c 'a-zA-Z0-9\n' _)" & }
begin cases_of_scripts
begin ends_well tools/word_cases.sh
begin ends_well tools/conditions.py --test
begin numbers_of_house
begin ends_well tools/linux/ways.py --check
begin stored_outputs
begin commands_of_pages
begin ends_well tools/edits.py --apply
begin ends_well tools/examples.py --check
begin ends_well tools/law_fields.py
begin ends_well tools/driver_rows.py --check
begin ends_well tools/trace/steer_check.py --twin
begin executable_tools
begin named_files
begin words_of_rules
wait

wrong=$(cat "$said"/*)
[ -z "$wrong" ] && echo 'check.sh: all is well' && exit 0
sed 's/^/check.sh: /' <<< "$wrong"
exit 1
