# shellcheck shell=bash
# Completion for comedi, comedi_serve, comedi_facts and with_board in bash: source this file, or let bash-completion find it.

# The files that the current word begins.
_zendrouz_files() {
    mapfile -t COMPREPLY < <(compgen -f -- "$1")
}

# Whether the word before the current one says that a file comes.
_zendrouz_redirects() {
    case ${COMP_WORDS[COMP_CWORD - 1]} in
        '<' | '>' | '>>' | '>|' | '<>' | '&>' | '>&' | '2>') return 0 ;;
    esac
    return 1
}

# A word for what is done, then only redirections; soak has a number, for which there is nothing to offer.
_zendrouz_comedi() {
    local current=${COMP_WORDS[COMP_CWORD]}
    COMPREPLY=()
    if _zendrouz_redirects; then
        _zendrouz_files "$current"
    elif [[ $COMP_CWORD == 1 ]]; then
        mapfile -t COMPREPLY < <(compgen -W \
            'test expand insn replay run watch loop soak --build --help --version' -- "$current")
    fi
}

# No words: a dialogue comes from standard input.
_zendrouz_serve() {
    local current=${COMP_WORDS[COMP_CWORD]}
    COMPREPLY=()
    if _zendrouz_redirects; then
        _zendrouz_files "$current"
    elif [[ $COMP_CWORD == 1 ]]; then
        mapfile -t COMPREPLY < <(compgen -W '--build --help --version' -- "$current")
    fi
}

_zendrouz_facts() {
    local current=${COMP_WORDS[COMP_CWORD]}
    COMPREPLY=()
    if _zendrouz_redirects; then
        _zendrouz_files "$current"
    elif [[ $COMP_CWORD == 1 ]]; then
        mapfile -t COMPREPLY < <(compgen -W 'describe --build --help --version' -- "$current")
    fi
}

# A board's file, a program, and then what the program's own completion says, where bash-completion is there to ask it.
_zendrouz_with_board() {
    local current=${COMP_WORDS[COMP_CWORD]}
    COMPREPLY=()
    if [[ $COMP_CWORD == 2 && $current != */* ]] && ! _zendrouz_redirects; then
        mapfile -t COMPREPLY < <(compgen -c -- "$current"; compgen -f -- "$current")
    elif ((COMP_CWORD > 2)) && declare -F _command_offset >/dev/null; then
        _command_offset 2
    elif [[ $COMP_CWORD == 1 && $current == -* ]]; then
        mapfile -t COMPREPLY < <(compgen -W '--help' -- "$current")
    else
        _zendrouz_files "$current"
    fi
}

complete -o filenames -F _zendrouz_comedi comedi
complete -o filenames -F _zendrouz_serve comedi_serve
complete -o filenames -F _zendrouz_facts comedi_facts
complete -o filenames -F _zendrouz_with_board with_board
