# Completion of the words of rambo for bash. `examples/install` puts it where bash-completion finds it; or: . examples/completion/rambo.bash
_rambo() {
    local word="${COMP_WORDS[COMP_CWORD]}" before="${COMP_WORDS[COMP_CWORD - 1]}" command="${COMP_WORDS[1]}" names
    COMPREPLY=()
    if [ "$COMP_CWORD" = 1 ]; then
        COMPREPLY=($(compgen -W "opt check demo flat tests replay convert equal judge optcare cut sew --help --version" -- "$word"))
        return
    fi
    case "$before" in
        --depth | --merge) COMPREPLY=($(compgen -W "0 1 2" -- "$word")); return ;;
        --budget | --tries | --workers | --perturb | --work | --shift) return ;;
    esac
    case "$command:$word" in
        opt:-* | demo:-*) COMPREPLY=($(compgen -W "--depth --budget --tries --workers --merge --perturb --work" -- "$word")); return ;;
        equal:-* | optcare:-*) COMPREPLY=($(compgen -W "--depth --budget" -- "$word")); return ;;
        cut:-* | sew:-*) COMPREPLY=($(compgen -W "--shift" -- "$word")); return ;;
        demo:*) return ;;
    esac
    mapfile -t names < <(compgen -f -- "$word")
    COMPREPLY=("${names[@]}")
    compopt -o filenames 2>/dev/null
}
complete -F _rambo rambo rambo-not-proved
