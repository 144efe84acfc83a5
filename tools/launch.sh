# Read by the launchers, that of the repository and the installed one: what they do beside running the program. They name
# this host, keep writers of one image apart, bring what was written to the disk, and show how far a long command is.
# Other scripts may use find_system, can_write, take_lock and sync_image. It needs coreutils and flock(1), and starts none
# of them for a command that only reads.

# an image, or a source, of so many bytes is large
large=67108864

# tells on standard error; a word that stands in it may have bytes that a terminal obeys
say() {
    told=$1
    case $told in
        *[[:cntrl:]]*) told=$(printf '%s' "$told" | tr '[:cntrl:]' '?') ;;
    esac
    printf 'famfs: %s\n' "$told" >&2
}

# what was asked for can't be meant: nothing is run
refuse() {
    say "$1"
    exit 2
}

# shape_of COMMAND: `names` are the words behind it, and `options` its options, each with a letter, where it has one, a
# colon, and its name; a flag has an exclamation mark. It fails where there is no such command.
shape_of() {
    case $1 in
        mkfs) names='IMAGE' options=' u:unit l:loglen :format f:force! :uuid :system ' ;;
        logplay) names='IMAGE' options=' :shadow :system ' ;;
        mkdir) names='IMAGE PATH' options=' p:parents! m:mode u:uid g:gid :system ' ;;
        creat) names='IMAGE PATH' options=' s:size S:seed m:mode u:uid g:gid N:nstrips B:nbuckets C:chunksize :system ' ;;
        cp) names='IMAGE SOURCE PATH' options=' m:mode u:uid g:gid N:nstrips B:nbuckets C:chunksize :system ' ;;
        verify) names='IMAGE PATH' options=' S:seed :source :system ' ;;
        read) names='IMAGE PATH OFFSET COUNT' options=' :system ' ;;
        check) names='IMAGE LISTING' options=' :system ' ;;
        fsck) names='IMAGE' options=' :system ' ;;
        dup) names='FROM TO' options=' u:unit l:loglen :format f:force! :uuid :system ' ;;
        script) names='FILE IMAGE' options=' ' ;;
        mail) names='FILE IMAGE PATH' options=' ' ;;
        storm) names='SEED SIZE IMAGE' options=' p:print! ' ;;
        *) return 1 ;;
    esac
}

# takes a word that is no option: it is the next one of those that the command has
take_word() {
    places=$((places + 1))
    case $places in
        1) word_1=$1 ;;
        2) word_2=$1 ;;
        3) word_3=$1 ;;
    esac
}

# take_option NAME: it stands among the words
take_option() {
    case $given in
        *" $1 "*) fault="the option --$1 stands twice" ;;
        *) given="$given$1 " ;;
    esac
}

# take_value NAME VALUE: of the values three are looked at
take_value() {
    case $1 in
        size) size_word=$2 ;;
        source) source_word=$2 ;;
        shadow) shadow_word=$2 ;;
    esac
}

# takes a long option, as it stands behind its two hyphens
take_long() {
    name=${1%%=*}
    case $name in
        '' | *[!a-z]*)
            fault="there is no option --$name"
            return
            ;;
    esac
    case $options in
        *":$name! "*) kind=flag ;;
        *":$name "*) kind=value ;;
        *)
            fault="there is no option --$name"
            return
            ;;
    esac
    take_option "$name"
    case $kind-$1 in
        flag-*=*) fault="the option --$name takes no value" ;;
        flag-*) ;;
        *=*) take_value "$name" "${1#*=}" ;;
        *) waits=$name ;;
    esac
}

# takes letters behind one hyphen: flags, and a last one that may have its value behind it
take_letters() {
    left=$1
    while [ -n "$left" ]; do
        letter=${left%"${left#?}"}
        left=${left#?}
        case $options in
            *" $letter:"*) name=${options#*" $letter:"} ;;
            *)
                fault="there is no option -$letter"
                return
                ;;
        esac
        name=${name%% *}
        take_option "${name%!}"
        case $name in
            *!) ;;
            *)
                if [ -n "$left" ]; then take_value "$name" "${left#=}"; else waits=$name; fi
                return
                ;;
        esac
    done
}

# read_words COMMAND WORDS: sorts the words behind the command into options and others, as the program does. `fault` says
# why they are no command, where their order shows it; values aren't looked at.
read_words() {
    fault='' given=' ' waits='' behind='' places=0 word_1='' word_2='' word_3='' size_word='' source_word='' shadow_word=''
    shift
    for word do
        if [ -n "$waits" ]; then
            case $word in
                -?*) fault="the option --$waits lacks its value" ;;
                *) take_value "$waits" "$word" ;;
            esac
            waits=
        elif [ -n "$behind" ]; then
            take_word "$word"
        else
            case $word in
                --) behind=yes ;;
                --*) take_long "${word#--}" ;;
                -?*) take_letters "${word#-}" ;;
                *) take_word "$word" ;;
            esac
        fi
        [ -z "$fault" ] || return 0
    done
    set -- $names
    if [ -n "$waits" ]; then
        fault="the option --$waits lacks its value"
    elif [ $places -gt $# ]; then
        fault="there are too many words"
    elif [ $places -lt $# ]; then
        shift $places
        fault="$1 is missing"
    fi
    case $options-$given in
        *:size*-*' size '*) ;;
        *:size*) fault=${fault:-the option --size is missing} ;;
    esac
}

# hint_of COMMAND WORDS: `hint` says where help is, where the words ask for it in a way that the program doesn't know, or
# are no command. It is empty for all others, and then the words are read.
hint_of() {
    hint=
    case ${1-} in
        '' | -h | --help | help)
            hint='`famfs --help` tells of all commands'
            ! shape_of "${2-}" || hint="\`famfs $2 --help\` tells of $2"
            return
            ;;
    esac
    if ! shape_of "$1"; then
        hint="there is no command $1; \`famfs --help\` tells of all commands"
        return
    fi
    read_words "$@"
    [ -z "$fault" ] || hint="$fault; \`famfs $1 --help\` tells of $1"
    # an image may have this name
    [ $#-"${2-}" != 2-help ] || [ -e help ] || hint="\`famfs $1 --help\` tells of $1"
}

is_hex() {
    case $2 in
        *[!0123456789abcdefABCDEF]*) return 1 ;;
    esac
    [ ${#2} = "$1" ]
}

is_hyphenated() {
    [ ${#1} = 36 ] || return 1
    case $1 in
        *[!0123456789abcdefABCDEF-]*) return 1 ;;
    esac
    around=$IFS
    IFS=-
    set -- $1
    IFS=$around
    [ $# = 5 ] && is_hex 8 "$1" && is_hex 4 "$2" && is_hex 4 "$3" && is_hex 4 "$4" && is_hex 12 "$5"
}

# whether the program takes this word for a UUID
is_uuid() {
    case $1 in
        [uU][rR][nN]:[uU][uU][iI][dD]:*) is_hyphenated "${1#*:*:}" ;;
        '{'*'}')
            set -- "${1#?}"
            is_hyphenated "${1%?}"
            ;;
        *-*) is_hyphenated "$1" ;;
        *) is_hex 32 "$1" ;;
    esac
}

# `system` is the UUID of this host: that of FAMFS_SYSTEM, else that which the file has, and nothing where neither is there
find_system() {
    system=${FAMFS_SYSTEM-}
    if [ -n "${FAMFS_SYSTEM+set}" ]; then
        is_uuid "$system" || refuse "FAMFS_SYSTEM is no UUID: '$system'"
        return 0
    fi
    file=${FAMFS_SYSTEM_FILE-/etc/famfs/system}
    [ -n "$file" ] || return 0
    folder=${file%/*}
    if [ ! -e "$file" ] && [ ! -L "$file" ] && [ -z "${FAMFS_SYSTEM_FILE+set}" ]; then
        [ ! -d "$folder" ] || [ -x "$folder" ] || refuse "$folder can't be looked into for the UUID of this host"
        return 0
    fi
    [ -f "$file" ] && [ -r "$file" ] || refuse "$file, which has the UUID of this host, can't be read"
    more='' line=''
    { read -r system && while read -r line || [ -n "$line" ]; do more=$more$line; done; } <"$file" || :
    [ -z "$more" ] && is_uuid "$system" || refuse "$file has something else than one line with the UUID of this host"
}

# whether the program may write the image: a pipe or a folder isn't even opened
can_write() {
    { [ -f "$1" ] || [ -b "$1" ]; } && [ -r "$1" ] && [ -w "$1" ]
}

# two names of one file, or of one device
is_same() {
    [ ! "$1" -ef "$2" ] || return 0
    [ -b "$1" ] && [ -b "$2" ] && [ "$(stat -Lc %t:%T -- "$1")" = "$(stat -Lc %t:%T -- "$2")" ]
}

# `free` is the highest number of one digit under which this shell has no file open
find_free() {
    for free in 9 8 7 6 5 4 3; do
        [ -e "/proc/self/fd/$free" ] || return 0
    done
    return 1
}

# whether someone who called us has the image locked, as `flock IMAGE` has, so that no other writer can come in between
is_locked_above() {
    for held in /proc/self/fd/*; do
        case ${held##*/} in
            "$lock") ;;
            *) [ ! "$held" -ef "$1" ] || ! flock -n "${held##*/}" 2>/dev/null || return 0 ;;
        esac
    done
    return 1
}

# take_lock IMAGE: keeps other writers away as long as this process or the program runs, and waits for those that are
# there. `lock` is the number under which the image is open, and nothing where nothing is locked.
take_lock() {
    lock=
    [ "${FAMFS_LOCK-}" != 0 ] || return 0
    find_free && { eval "command exec $free<\"\$1\""; } 2>/dev/null || {
        say "$1 can't be opened to lock it; FAMFS_LOCK=0 goes on without a lock"
        exit 70
    }
    lock=$free
    code=0
    flock -n "$lock" 2>/dev/null || code=$?
    if [ $code = 1 ]; then
        ! is_locked_above "$1" || return 0
        code=0
        flock -w 1 "$lock" || code=$?
    fi
    if [ $code = 1 ]; then
        say "waits for another writer of $1"
        code=0
        flock "$lock" || code=$?
    fi
    [ $code = 0 ] || {
        say "$1 can't be locked; FAMFS_LOCK=0 goes on without a lock"
        exit 70
    }
}

# sync_image IMAGE: what was written is brought to the disk
sync_image() {
    sync -- "$1" || {
        say "$1 can't be synced: what was written may be lost"
        return 1
    }
}

# `size` is how many bytes a file or a block device has
find_size() {
    set -- "$1" $(stat -Lc '%s %t %T' -- "$1" 2>/dev/null || echo 0 0 0)
    size=$2
    if [ -b "$1" ]; then
        { read -r size <"/sys/dev/block/$((0x$3)):$((0x$4))/size"; } 2>/dev/null || size=0
        size=$((size * 512))
    fi
}

# `size` is what a SIZE of few digits says
read_size() {
    size=${1%[kKmMgG]}
    case $size in
        '' | 0* | *[!0123456789]* | ???????????????*)
            size=0
            return
            ;;
    esac
    case $1 in
        *[kK]) size=$((size * 1024)) ;;
        *[mM]) size=$((size * 1048576)) ;;
        *[gG]) size=$((size * 1073741824)) ;;
    esac
}

# whether the command goes through many bytes, of which there are `size`, and somebody looks on
is_watched() {
    [ -t 2 ] && [ "${FAMFS_PROGRESS-}" != 0 ] && [ "${TERM:-dumb}" != dumb ] && [ -e /proc/self/io ] || return 1
    case $1 in
        creat) read_size "$size_word" ;;
        cp) find_size "$word_2" ;;
        verify) find_size "${source_word:-$word_1}" ;;
        dup) find_size "$word_1" ;;
        *) return 1 ;;
    esac
    [ "$size" -ge $large ]
}

# whether this command is the one that the terminal is for, and wasn't put behind the shell
is_in_front() {
    { read -r fields </proc/self/stat; } 2>/dev/null || return 1
    set -- ${fields##*) }
    [ "$3" = "$6" ]
}

# watch COMMAND: tells five times a second how much the child has read and written. The line stands below the cursor, which
# comes back, so that what the program prints doesn't mix with it.
watch() {
    got=0 put=0
    while sleep 0.2 </dev/null >/dev/null 2>&1; do
        {
            while read -r key count; do
                case $key in
                    rchar:) got=$count ;;
                    wchar:) put=$count ;;
                esac
            done <"/proc/$child/io"
        } 2>/dev/null || return 0
        is_in_front || continue
        printf '\n\033[?7l\033[Kfamfs %s: %s MiB read, %s MiB written, of %s MiB\033[?7h\r\033[A' \
            "$1" $((got >> 20)) $((put >> 20)) $((size >> 20)) >&2
    done
}

# hands a signal to the child. A shell has what it runs beside itself ignore two of them, so these are handed on as another
# one that ends it.
pass() {
    passed=$1 again=yes
    case $1 in
        INT | QUIT) set -- TERM ;;
    esac
    [ -z "$child" ] || kill -s "$1" "$child" 2>/dev/null || :
}

# waits for the child, and again where a signal came meanwhile; then 127 is said of a child that has been waited for
await() {
    again=yes status=''
    while [ -n "$again" ]; do
        again='' code=0
        wait "$child" 2>/dev/null || code=$?
        [ $code = 127 ] && [ -n "$status" ] || status=$code
    done
}

# ends as the child did: by the signal that was handed on, or that came to the child alone
end_so() {
    : "${passed:=$(kill -l "$status" 2>/dev/null)}"
    ulimit -c 0
    [ -z "$passed" ] || kill -s "$passed" $$
}

# run_child COMMAND WORDS: runs the program beside this shell, which hands on the signals that come. `status` is the
# program's.
run_child() {
    child='' passed='' watcher='' input=0
    for signal in HUP INT QUIT USR1 USR2 ALRM TERM; do
        trap "pass $signal" "$signal"
    done
    if [ -e /proc/self/fd/0 ] || [ ! -e /proc/self/fd ]; then
        find_free || {
            say "all numbers of open files from 3 to 9 are in use"
            exit 70
        }
        input=$free
        eval "exec $input<&0"
    fi
    eval "\"\$program\" \"\$@\" <&$input $input<&- &"
    child=$!
    [ -z "$passed" ] || pass "$passed"
    [ $input = 0 ] || eval "exec $input<&-"
    if [ -n "$watched" ]; then
        eval "watch \"\$1\" ${lock:+$lock<&-} &"
        watcher=$!
    fi
    await
    if [ -n "$watcher" ]; then
        kill "$watcher" 2>/dev/null || :
        wait "$watcher" 2>/dev/null || :
        ! is_in_front || printf '\033[J' >&2
    fi
    trap - HUP INT QUIT USR1 USR2 ALRM TERM
    [ $status -le 128 ] || end_so
}

# `written` is the image that the command writes, and nothing where it writes none, or none that can be written
find_written() {
    written=
    case $1 in
        mkfs | mkdir | creat | cp) written=$word_1 ;;
        dup | script | mail) written=$word_2 ;;
        storm) [ "$given" != ' ' ] || written=$word_3 ;;
    esac
    can_write "$written" || written=
}

# lacks_folder: a shadow's folder isn't there. The program finds that at the first entry, and so not of a tree without any
lacks_folder() {
    case $given in
        *' shadow '*) [ -n "$shadow_word" ] && [ ! -d "$shadow_word" ] ;;
        *) return 1 ;;
    esac
}

# launch PROGRAM WORDS: runs the program with the words, and what the environment asks for before and behind it. It doesn't
# return.
launch() {
    program=$1 lock='' watched='' synced='' lacking=''
    shift
    [ -x "$program" ] || {
        say "the program $program isn't there"
        exit 70
    }
    hint_of "$@"
    if [ -n "$hint" ]; then
        say "$hint"
        exec "$program" "$@"
    fi
    [ "$1" != dup ] || ! is_same "$word_1" "$word_2" || refuse "FROM and TO are one file, which a copy would destroy: $word_1"
    case $options-$given in
        *' system '*) ;;
        *:system*)
            find_system
            if [ -n "$system" ]; then
                command=$1
                shift
                set -- "$command" --system "$system" "$@"
            fi
            ;;
    esac
    if lacks_folder; then
        say "there is no folder $shadow_word"
        lacking=yes
    fi
    find_written "$1"
    [ -z "$written" ] || take_lock "$written"
    [ "${FAMFS_SYNC-}" = 0 ] || synced=$written
    ! is_watched "$1" || watched=yes
    [ -n "$synced$watched$lacking" ] || exec "$program" "$@"
    run_child "$@"
    [ -z "$lacking" ] || [ $status != 0 ] || status=10
    [ -z "$synced" ] || [ $status != 0 ] || sync_image "$synced" || status=4
    exit "$status"
}
