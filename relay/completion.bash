# Completion of the words of murmur and murmur-why for bash: /usr/share/bash-completion/completions/murmur and murmur-why.
# zsh takes it too, after `autoload -U +X bashcompinit && bashcompinit`.

_murmur() {
    # words as they are typed, not cut at ':'
    local line=${COMP_LINE:0:COMP_POINT}
    local -a words
    read -r -a words <<< "$line"
    case $line in *[[:space:]]) words+=("") ;; esac
    local count=${#words[@]}
    local word=${words[count - 1]}
    local -a answers=()
    # an address and a number come behind `view`, as behind `serve`
    local place=$count
    if [ "$count" -gt 5 ] && [ "${words[count - 2]}" = view ]; then place=3; fi
    if [ "$count" -gt 6 ] && [ "${words[count - 3]}" = view ]; then place=4; fi

    if [ "$count" = 2 ]; then
        mapfile -t answers < <(compgen -W "replay audit exercise serve" -- "$word")
    elif [ "$place" = 3 ] && [ "${words[1]}" = serve ]; then
        case $word in
        unix:* | proxy:unix:*)
            local prefix=${word%%unix:*}unix: path
            while IFS= read -r path; do
                [ -d "$path" ] && path=$path/
                answers+=("$prefix$path")
            done < <(compgen -f -- "${word#"$prefix"}")
            ;;
        proxy:*) mapfile -t answers < <(compgen -W "proxy:unix: proxy:127.0.0.1:64738" -- "$word") ;;
        *) mapfile -t answers < <(compgen -W "proxy: unix: 127.0.0.1:64738 [::1]:64738" -- "$word") ;;
        esac
        # no space after what goes on
        case ${answers[*]} in *: | */) compopt -o nospace 2> /dev/null ;; esac
    elif [ "$place" = 4 ] && [ "${words[1]}" = serve ]; then
        mapfile -t answers < <(compgen -W "1000 1000000" -- "$word")
    elif [ "$count" -gt 5 ] && [ "${words[1]}" = serve ] && [ "${words[count - 2]}" = keep ]; then
        mapfile -t answers < <(compgen -f -- "$word")
    elif [ "$count" = 8 ] && [ "${words[1]}" = serve ] && [ "${words[4]}" = view ]; then
        mapfile -t answers < <(compgen -W "keep" -- "$word")
    elif [ "$place" = 5 ] && [ "${words[1]}" = serve ]; then
        mapfile -t answers < <(compgen -W "journal keep view" -- "$word")
    elif [ "$place" = 6 ] && [ "${words[1]}" = serve ] && [ "${words[4]}" = journal ]; then
        mapfile -t answers < <(compgen -W "view" -- "$word")
    fi

    # bash replaces only what stands behind the last ':'
    local cut=
    case $COMP_WORDBREAKS in *:*) case $word in *:*) cut=${word%:*}: ;; esac ;; esac
    COMPREPLY=()
    local answer
    for answer in "${answers[@]}"; do COMPREPLY+=("${answer#"$cut"}"); done
}
complete -F _murmur murmur

_murmur_why() {
    local word=${COMP_WORDS[COMP_CWORD]}
    local -a answers=()
    if [ "$COMP_CWORD" = 1 ]; then
        mapfile -t answers < <(compgen -W "heard who may other" -- "$word")
    elif [ "$COMP_CWORD" = 2 ] && [ "${COMP_WORDS[1]}" = other ]; then
        mapfile -t answers < <(compgen -f -- "$word")
    elif [ "$COMP_CWORD" = 2 ] && [ "${COMP_WORDS[1]}" = heard ]; then
        mapfile -t answers < <(compgen -W "-" -- "$word")
    fi
    COMPREPLY=("${answers[@]}")
}
complete -F _murmur_why murmur-why
