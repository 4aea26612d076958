# Completion of the programs' words in bash: `source tools/completion.bash`, or a copy of this file in
# /usr/share/bash-completion/completions (tools/release.sh puts it there). It completes hmmrun and ./hmmrun.sh alike.

# The rules that hmmwithout and hmmtrace take: those of the help that the program's script prints. In that of hmmwithout
# each begins a line.
_hmm_rules() {
    "$1" --help 2>/dev/null | awk '
        /^RULE is one of these;/ { each = 1 }
        each && /^  [a-z]/ { print $1 }
        /^RULE is one of$/ { on = 1; next }
        on && /^$/ { exit }
        on' | tr -d '.'
}

_hmm() {
    local command=$1 word=$2 before=$3 name words
    name=$(basename "$command" .sh)
    COMPREPLY=()
    case $name:$before in
        hmmraces:--expect) words='some none every' ;;
        hmmtrace:--expect | hmmtrace:--script) words=$(_hmm_rules "$command") ;;
        *:--most | *:--script | hmmrun:generate | hmmrun:trial) return ;;
        hmmrun:*) words='replay threads race generate trial upgrade check peek advise why' ;;
        hmmraces:*) words='--table --script --strict --expect --expect-file --most --progress' ;;
        hmmwithout:*) words="right --all --answers --most --progress $(_hmm_rules "$command")" ;;
        hmmjudge:*) words='--standing --all' ;;
        hmmtrace:*) words='--expect --script --of-report' ;;
    esac
    [ "$name" = "$(basename "$command")" ] || words+=' --quick --ready --path --version'
    mapfile -t COMPREPLY < <(compgen -W "$words --help" -- "$word"; compgen -f -- "$word")
}

complete -o filenames -F _hmm hmmrun hmmraces hmmwithout hmmjudge hmmview hmmtrace hmmevents
complete -o filenames -F _hmm hmmrun.sh hmmraces.sh hmmwithout.sh hmmjudge.sh hmmview.sh hmmtrace.sh hmmevents.sh
complete -o filenames -F _hmm ./hmmrun.sh ./hmmraces.sh ./hmmwithout.sh ./hmmjudge.sh ./hmmview.sh ./hmmtrace.sh
