# Completes the words of famfs, mkfs.famfs, famfs-judge, famfs-describe, famfs-extract, famfs-list and famfs-tree in bash.

# the options of a command, each with its other name behind a comma
_famfs_options() {
    case $1 in
        mkfs | dup) echo "-u,--unit -l,--loglen --format -f,--force --uuid --system" ;;
        mkdir) echo "-p,--parents -m,--mode -u,--uid -g,--gid --system" ;;
        creat) echo "-s,--size -S,--seed -m,--mode -u,--uid -g,--gid -N,--nstrips -B,--nbuckets -C,--chunksize --system" ;;
        cp) echo "-m,--mode -u,--uid -g,--gid -N,--nstrips -B,--nbuckets -C,--chunksize --system" ;;
        verify) echo "-S,--seed --source --system" ;;
        storm) echo "-p,--print" ;;
        logplay) echo "--shadow --system" ;;
        read | check | fsck) echo "--system" ;;
    esac
}

# whether an option takes no value
_famfs_is_flag() {
    case $1-$2 in
        mkfs--f | mkfs---force | dup--f | dup---force | mkdir--p | mkdir---parents | storm--p | storm---print) return 0 ;;
    esac
    return 1
}

# what the words behind a command are, in order
_famfs_places() {
    case $1 in
        mkfs | logplay | fsck) echo "file" ;;
        mkdir | creat | verify) echo "file path" ;;
        cp | mail) echo "file file path" ;;
        read) echo "file path none none" ;;
        check | script | dup) echo "file file" ;;
        storm) echo "none none file" ;;
    esac
}

# `plain` is the word that the shell makes of what is typed, as far as quotes, backslashes and the home folder go
_famfs_plain() {
    local typed=$1 quote="" at char
    plain=""
    if [[ $typed == "~/"* ]]; then
        plain=$HOME
        typed=${typed#"~"}
    fi
    for ((at = 0; at < ${#typed}; at++)); do
        char=${typed:at:1}
        case $quote$char in
            "'" | '"') quote=$char ;;
            "''" | '""') quote="" ;;
            \\ | '"\')
                at=$((at + 1))
                plain=$plain${typed:at:1}
                ;;
            *) plain=$plain$char ;;
        esac
    done
}

# the paths inside an image as they are printed, without those whose bytes are no UTF-8, which no word can name
_famfs_paths() {
    [ -f "$1" ] || [ -b "$1" ] || return
    famfs logplay -- "$1" 2>/dev/null | awk '
        NR > 1 {
            left = $7
            gsub(/\\x(c[2-9a-f]|d[0-9a-f])\\x[89ab][0-9a-f]/, "", left)
            gsub(/\\xe[0-9a-f]\\x[89ab][0-9a-f]\\x[89ab][0-9a-f]/, "", left)
            gsub(/\\xf[0-4]\\x[89ab][0-9a-f]\\x[89ab][0-9a-f]\\x[89ab][0-9a-f]/, "", left)
            if (left !~ /\\x[89a-f]/) print $7
        }'
}

# _famfs_offer_paths IMAGE TYPED BEHIND: offers those that begin as what is typed, each as a word of the shell; one with a
# hyphen in front only behind `--`
_famfs_offer_paths() {
    local plain image path offer open=""
    _famfs_plain "$1"
    image=$plain
    case $2 in
        \'* | \"*) open=${2:0:1} ;;
    esac
    _famfs_plain "$2"
    while IFS= read -r path; do
        printf -v path %b "$path"
        [[ $path == "$plain"* ]] || continue
        [[ $path != -* || -n $3 ]] || continue
        if [ -z "$open" ]; then
            printf -v offer %q "$path"
            offer=${offer//:/\\:}
            offer=${offer//=/\\=}
            offer=${offer//@/\\@}
            [[ $offer != "$'"* ]] || printf -v offer %q "$path"
        else
            # inside quotes that the user has opened the path stands as it is, where it can
            [[ $path != *[\'\"\\\$\`\!]* ]] || continue
            offer=$path
        fi
        COMPREPLY+=("$offer")
    done < <(_famfs_paths "$image")
}

_famfs() {
    local word=${COMP_WORDS[COMP_CWORD]} name=${COMP_WORDS[0]##*/} command=mkfs first=1
    COMPREPLY=()
    if [ "$name" = famfs ]; then
        if [ "$COMP_CWORD" = 1 ]; then
            mapfile -t COMPREPLY < <(compgen -W "mkfs logplay mkdir creat cp verify read check fsck dup script mail storm" -- "$word")
            return
        fi
        command=${COMP_WORDS[1]}
        first=2
    fi
    local at given="" place=0 waits="" behind="" image="" image_place=0 pair
    [ "$command" != mail ] || image_place=1
    for ((at = first; at < COMP_CWORD; at++)); do
        local before=${COMP_WORDS[at]}
        if [ -n "$waits" ] && [ "$before" != = ]; then
            waits=""
        elif [ "$before" = = ]; then
            continue
        elif [ -z "$behind" ] && [ "$before" = -- ]; then
            behind=yes
        elif [ -z "$behind" ] && [[ $before == -?* ]]; then
            given="$given $before"
            _famfs_is_flag "$command" "$before" || waits=$before
        else
            [ $place != $image_place ] || image=$before
            place=$((place + 1))
        fi
    done
    [ "$word" != = ] || word=""
    if [ -n "$waits" ]; then
        [ "$waits" != --shadow ] || { compopt -o filenames; mapfile -t COMPREPLY < <(compgen -d -- "$word"); }
        [ "$waits" != --source ] || { compopt -o filenames; mapfile -t COMPREPLY < <(compgen -f -- "$word"); }
        return
    fi
    if [[ $word == -* ]] && [ -z "$behind" ]; then
        local left=""
        for pair in $(_famfs_options "$command"); do
            case " $given " in
                *" ${pair%,*} "* | *" ${pair#*,} "*) ;;
                *) left="$left ${pair/,/ }" ;;
            esac
        done
        mapfile -t COMPREPLY < <(compgen -W "$left" -- "$word")
        return
    fi
    local places
    read -ra places <<<"$(_famfs_places "$command")"
    [ "$command" != storm ] || image=""
    case ${places[place]-none} in
        file)
            compopt -o filenames
            mapfile -t COMPREPLY < <(compgen -f -- "$word")
            ;;
        path) _famfs_offer_paths "$image" "$word" "$behind" ;;
    esac
}

complete -F _famfs famfs mkfs.famfs

# the options of a helper, or of famfs-judge
_famfs_helper_options() {
    case $1 in
        famfs-judge) echo "--help --version" ;;
        famfs-describe | famfs-list) echo "--help --json" ;;
        famfs-extract) echo "--all --help" ;;
        famfs-tree) echo "--dry-run --help --system --verify" ;;
    esac
}

# what its words are, in order
_famfs_helper_places() {
    case $1 in
        famfs-describe | famfs-list) echo "file" ;;
        famfs-judge) echo "file file" ;;
        famfs-extract) echo "file path file" ;;
        famfs-tree) echo "folder file path" ;;
    esac
}

_famfs_helper() {
    local word=${COMP_WORDS[COMP_CWORD]} name=${COMP_WORDS[0]##*/} image="" waits="" behind="" at place=0
    COMPREPLY=()
    local places
    read -ra places <<<"$(_famfs_helper_places "$name")"
    for ((at = 1; at < COMP_CWORD; at++)); do
        local before=${COMP_WORDS[at]}
        if [ "$before" = = ]; then
            continue
        elif [ -n "$waits" ]; then
            waits=""
        elif [ -z "$behind" ] && [ "$before" = -- ]; then
            behind=yes
        elif [ -z "$behind" ] && [[ $before == -?* ]]; then
            [[ $before != --all && $before != --system ]] || waits=$before
        else
            [ "${places[place]-}" != file ] || [ -n "$image" ] || image=$before
            place=$((place + 1))
        fi
    done
    [ "$word" != = ] || word=""
    local what=${places[place]-none}
    case $waits in
        --all) what=folder ;;
        --system) what=none ;;
        *) [ -n "$behind" ] || [[ $word != -* ]] || what=option ;;
    esac
    case $what in
        option) mapfile -t COMPREPLY < <(compgen -W "$(_famfs_helper_options "$name")" -- "$word") ;;
        file) compopt -o filenames; mapfile -t COMPREPLY < <(compgen -f -- "$word") ;;
        folder) compopt -o filenames; mapfile -t COMPREPLY < <(compgen -d -- "$word") ;;
        path) _famfs_offer_paths "$image" "$word" "$behind" ;;
    esac
}

complete -F _famfs_helper famfs-describe famfs-extract famfs-judge famfs-list famfs-tree
