# Completion of bt-ctf and bt-ctf-session for bash, by bash-completion.
_bt_ctf()
{
    local cur prev words cword split
    _init_completion -s || return
    case $prev in
        --begin | --end | --timerange | --clock-offset | --clock-offset-ns)
            return
            ;;
        --zone)
            mapfile -t COMPREPLY < <(compgen -W 'UTC0 CET-1CEST,M3.5.0,M10.5.0/3 EST5EDT,M3.2.0,M11.1.0 GMT0BST,M3.5.0/1,M10.5.0 JST-9 PST8PDT,M3.2.0,M11.1.0' -- "$cur")
            return
            ;;
    esac
    $split && return
    if [[ $cur == -* ]]; then
        mapfile -t COMPREPLY < <(compgen -W '--begin= --end= --timerange= --clock-cycles --clock-date --clock-gmt --clock-seconds --clock-offset= --clock-offset-ns= --no-delta --zone= --help -h' -- "$cur")
        [[ ${#COMPREPLY[@]} -eq 1 && ${COMPREPLY[0]} == *= ]] && compopt -o nospace
        return
    fi
    _filedir -d
} && complete -F _bt_ctf bt-ctf bt-ctf-session
