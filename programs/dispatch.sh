# The words of the command: which program runs, and on which file; for ./lastarunc and for the installed command. POSIX
# sh, to be sourced by a script that sets `called`, how it is called, and has these functions:
#     print_page PAGE          prints a page of programs/help
#     print_version            prints the version
#     run_programs WORD ..     runs the C programs
#     run_proved NAME          runs a proved program on standard input

# Says what is wrong with how the command was used, and ends it.
wrong_use() {
    echo "lastarunc: $*; $called --help says how it is used" >&2
    exit 2
}

# Prints a page of help, or the version, if a word asks for it, and ends the command.  answer_word PAGE [WORD]
answer_word() {
    case ${2:-} in
    -h | --help) print_page "$1" && exit ;;
    --version) print_version && exit ;;
    esac
}

# Makes a file standard input, if one is named.
open_input() {
    if [ "${1:--}" != - ]; then
        [ ! -d "$1" ] || wrong_use "$1 is a folder, not a file"
        [ -r "$1" ] || { echo "lastarunc: $1: there is no such file or command, or it may not be read" >&2 && exit 1; }
        exec < "$1"
    elif [ -t 0 ]; then
        echo "reading standard input ($called --help says how the command is used)" >&2
    fi
}

# Runs what the words ask for.
dispatch() {
    program=jdx
    answer_word lastarunc "${1:-}"
    case ${1:-} in
    check | plot | write)
        answer_word "$1" "${2:-}"
        run_programs "$@"
        ;;
    night) program=night && answer_word night "${2:-}" && shift ;;
    detab) program=detab_program && answer_word detab "${2:-}" && shift ;;
    esac
    case ${1:-} in
    --) shift ;;
    -?*) wrong_use "there is no option $1" ;;
    esac
    [ $# -le 1 ] || wrong_use "one file at a time, but for check"
    open_input "$@"
    run_proved $program
}
