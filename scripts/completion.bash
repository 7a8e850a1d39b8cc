# Completes the words of ./chorus in bash, behind `source scripts/completion.bash`. They are those of its help.
_chorus() {
    local script=${COMP_WORDS[0]/#\~/$HOME} word=${COMP_WORDS[COMP_CWORD]} first=1 words=
    while [[ ${COMP_WORDS[first]-} == --unproved || ${COMP_WORDS[first]-} == --progress ]] && ((first < COMP_CWORD)); do
        first=$((first + 1))
    done
    case $((COMP_CWORD - first)),${COMP_WORDS[first]-} in
    0,*) words="help version $([[ " ${COMP_WORDS[*]:1:first-1} " == *--unproved* ]] || echo --unproved) $([[ " ${COMP_WORDS[*]:1:first-1} " == *--progress* ]] || echo --progress) $("$script" help | sed -n 's/^  \([a-z][a-z]*\) .*/\1/p' | sort -u)" ;;
    1,help) words=$("$script" help | sed -n 's/^  \([a-z][a-z]*\) .*/\1/p' | sort -u) ;;
    1,judge) words='promises 16' ;;
    1,audit | 1,picture | 1,page) words=16 ;;
    2,audit | 2,judge | 2,picture | 2,page | 1,run) words='1 2 4' ;;
    1,explore) words=--scenario ;;
    1,check) words=--drawn ;;
    esac
    mapfile -t COMPREPLY < <(compgen -W "$words" -- "$word")
    case $((COMP_CWORD - first)),${COMP_WORDS[first]-} in
    0,* | *,help | 1,picture) ;;
    *) mapfile -t -O "${#COMPREPLY[@]}" COMPREPLY < <(compgen -f -- "$word") ;;
    esac
}
complete -o filenames -F _chorus chorus ./chorus
