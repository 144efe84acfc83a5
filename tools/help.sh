# Read by the launchers: what they answer by themselves.

# puts a text; where that fails the status is 6, as the program's is
answer() {
    printf '%s\n' "$1" || exit 6
    exit 0
}

# help_alone NAME FOLDER FILE WORDS: where the one word asks for help or for the version, prints what the folder's files say,
# and ends with 0. All other words are the program's.
help_alone() {
    name=$1
    folder=$2
    text=$3
    shift 3
    case $#-${1-} in
        1---help | 1--h) answer "$(cat "$folder/$text")" ;;
        1---version | 1--V) answer "$name $(cat "$folder/VERSION")" ;;
    esac
}

# help_on FOLDER WORDS: where the words ask for help or for the version, and for nothing else, prints what the folder's
# files say and ends with 0. All other words are the program's.
help_on() {
    folder=$1
    shift
    help_alone famfs "$folder" help.txt "$@"
    [ $#-${1-} != 1-help ] || answer "$(cat "$folder/help.txt")"
    [ $# = 2 ] && [ "$2" = --help ] || return 0
    text=$(named=$1 awk -v RS= '
        $1 == "famfs" && $2 == ENVIRON["named"] && $2 != "WORDS"' "$folder/help.txt")
    [ -z "$text" ] || answer "$text"
}
