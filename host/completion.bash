# Completion of afs(1) for bash.
_afs() {
    local word=${COMP_WORDS[COMP_CWORD]} before=${COMP_WORDS[COMP_CWORD - 1]} command='' kinds i
    COMPREPLY=()
    for ((i = 1; i < COMP_CWORD; i++)); do
        case ${COMP_WORDS[i]} in
        code | serve | join | decode | parts | explain | seal | verify | certificate | help) command=${COMP_WORDS[i]} && break ;;
        esac
    done
    case $before in
    -n | --decompositions) mapfile -t COMPREPLY < <(compgen -W '1 2 3 4 5' -- "$word") && return ;;
    -s | --halve) mapfile -t COMPREPLY < <(compgen -W '0 1 2 3 4' -- "$word") && return ;;
    -e | --error | -j | --jobs | --of | --title | --note | --device) return ;;
    --scale) mapfile -t COMPREPLY < <(compgen -W 'grey viridis magma' -- "$word") && return ;;
    -r | --level) mapfile -t COMPREPLY < <(compgen -W '1 2 3 4 5 6' -- "$word") && return ;;
    -p | --plane) mapfile -t COMPREPLY < <(compgen -W '{0..17}' -- "$word") && return ;;
    --as)
        case $command in decode) kinds='pyramid pgm png' ;; *) kinds='html pdf png' ;; esac
        mapfile -t COMPREPLY < <(compgen -W "$kinds" -- "$word") && return
        ;;
    --to) compopt -o filenames && mapfile -t COMPREPLY < <(compgen -d -- "$word") && return ;;
    -o | --output | --seals) compopt -o filenames && mapfile -t COMPREPLY < <(compgen -f -- "$word") && return ;;
    esac
    case $command:$word in
    :-*) mapfile -t COMPREPLY < <(compgen -W '--help --version --verbose' -- "$word") ;;
    : | :[!-]* | help:*) mapfile -t COMPREPLY < <(compgen -W 'code serve join decode parts explain seal verify certificate help' -- "$word") ;;
    code:-*) mapfile -t COMPREPLY < <(compgen -W '--decompositions --output --to --jobs --force --quiet --help' -- "$word") ;;
    serve:-*) mapfile -t COMPREPLY < <(compgen -W '--level --plane --error --output --to --jobs --force --quiet --help' -- "$word") ;;
    join:-*) mapfile -t COMPREPLY < <(compgen -W '--output --force --quiet --help' -- "$word") ;;
    decode:-*)
        mapfile -t COMPREPLY < <(compgen -W '--grey --halve --level --plane --whole --check --json --as --output --to --jobs --force --quiet --help' \
            -- "$word")
        ;;
    parts:-* | explain:-* | seal:-*) mapfile -t COMPREPLY < <(compgen -W '--json --output --force --quiet --help' -- "$word") ;;
    verify:-*) mapfile -t COMPREPLY < <(compgen -W '--of --whole --json --output --force --quiet --help' -- "$word") ;;
    certificate:-*)
        mapfile -t COMPREPLY < <(compgen -W '--seals --of --level --plane --error --scale --title --note --device --as --output --to --jobs --force --quiet
            --help' -- "$word")
        ;;
    *) compopt -o filenames && mapfile -t COMPREPLY < <(compgen -f -- "$word") ;;
    esac
}
complete -F _afs afs
