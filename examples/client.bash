# Completion for bash, of commands, options and files:
#
#     . examples/client.bash
#
# It takes nothing but bash. Where the package `bash-completion` is installed, it is found by the name of its file.
# `--token` is not offered: the command line is in the list of processes, and there is `--token-file`.

# Takes off what the line keeps of a word: bash replaces what follows the last `=`, `@` or `:`, its second argument.
_dehluvima_offer() {
    local kept=${1%"$2"} place
    for place in "${!COMPREPLY[@]}"; do COMPREPLY[place]=${COMPREPLY[place]#"$kept"}; done
}

# The files whose names begin as the end of a word does, behind `@` or `=`, each with what stands before its name. A
# folder goes on after its slash.
_dehluvima_files() {
    local name=${1##*[@=]} place
    compopt -o filenames
    mapfile -t COMPREPLY < <(compgen -f -- "$name")
    for place in "${!COMPREPLY[@]}"; do
        if [ -d "${COMPREPLY[place]}" ]; then
            COMPREPLY[place]+=/
            compopt -o nospace
        fi
        COMPREPLY[place]=${1%"$name"}${COMPREPLY[place]}
    done
}

# What may follow the commands, but for files.
_dehluvima_words() {
    case $* in
        '') echo read write list delete unwrap kv token policy lease ;;
        kv) echo get put list delete ;;
        token) echo create lookup renew revoke list ;;
        policy) echo write read list delete ;;
        lease) echo renew revoke ;;
    esac
}

# The options that may follow them.
_dehluvima_options() {
    echo --addr --exit-codes --field --help --timeout --token-file --wait --wrap-ttl
    case "${1:-} ${2:-}" in
        ' ') echo --version ;;
        'kv get') echo --version ;;
        'kv put') echo --cas ;;
        'token create') echo --orphan --period --policy --ttl --use-limit ;;
        'token lookup' | 'token revoke') echo --accessor ;;
        'token renew') echo --keep ;;
        'lease renew') echo --increment ;;
    esac
}

# Whether the next word is the value of an option: _dehluvima_has_value OPTION COMMAND..
_dehluvima_has_value() {
    case ${1/#--/-} in
        *=* | - | -exit-codes | -help | -keep | -orphan | -h | -V) false ;;
        -version) [[ ${*:2:2} == 'kv get' ]] ;;
    esac
}

_dehluvima_client() {
    local line=${COMP_LINE:0:COMP_POINT} words word last option='' commands=()
    line=${line//\\@/@} # bash puts a backslash before the @ of a file that it has completed
    read -ra words <<< "$line"
    [[ $line != *[[:space:]] ]] || words+=('')
    last=${words[-1]}
    for word in "${words[@]:1:${#words[@]}-2}"; do
        if [ -n "$option" ]; then
            option=''
        elif [[ $word != -?* ]]; then
            commands+=("$word")
        elif _dehluvima_has_value "$word" "${commands[@]}"; then
            option=${word/#--/-}
        fi
    done
    COMPREPLY=()
    if [[ $option == -token-file || $last == --token-file=* ]]; then
        _dehluvima_files "$last"
    elif [ -n "$option" ]; then
        return
    elif [[ $last == -* ]]; then
        mapfile -t COMPREPLY < <(compgen -W "$(_dehluvima_options "${commands[@]}")" -- "$last")
    elif [[ ${#commands[@]} -eq 3 && ${commands[*]:0:2} == 'policy write' || $last == @* || $last == *=@* ]]; then
        _dehluvima_files "$last"
    else
        mapfile -t COMPREPLY < <(compgen -W "$(_dehluvima_words "${commands[@]}")" -- "$last")
    fi
    _dehluvima_offer "$last" "${2//\\@/@}"
}

complete -F _dehluvima_client client dehluvima-client
