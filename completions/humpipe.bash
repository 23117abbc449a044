# bash completion for humpipe: --link, --order, the plan's file, and any file after < and >
_humpipe() {
    local word=${COMP_WORDS[COMP_CWORD]} before=${COMP_WORDS[COMP_CWORD - 1]}
    # bash parts --order=left into three words
    if [[ $word == '=' ]]; then
        word=
    elif [[ $before == '=' ]]; then
        before=${COMP_WORDS[COMP_CWORD - 2]}
    fi
    case $before in
        --link) mapfile -t COMPREPLY < <(compgen -W '1 16 256 4096' -- "$word"); return ;;
        --order) mapfile -t COMPREPLY < <(compgen -W 'left right' -- "$word"); return ;;
    esac
    compopt -o filenames 2>/dev/null
    if [[ $before =~ ^[0-9]*(\<|\>|\>\>)$ || $word =~ ^(\<|\>) ]]; then
        # a score, or a file to write
        mapfile -t COMPREPLY < <(compgen -f -- "${word##*[<>]}")
    elif [[ $word == -* ]]; then
        mapfile -t COMPREPLY < <(compgen -W '--link --order' -- "$word")
    else
        mapfile -t COMPREPLY < <(compgen -f -X '!*.hpl' -- "$word"; compgen -d -- "$word")
    fi
}
complete -F _humpipe humpipe ./humpipe
