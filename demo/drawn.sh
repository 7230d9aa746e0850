# Configurations that are drawn, of the logs a.log and b.log of a tree. A script that reads it has set `drawn` to the number to
# draw from, and `user` and `group` to the names that a `create` is given, or to nothing.

# Sets `it` to a number below the first word.
draw() {
    drawn=$(((drawn * 1103515245 + 12345) % 2147483648))
    it=$((drawn / 65536 % $1))
}

# Sets `it` to one of the words.
one_of() {
    draw $#
    shift "$it"
    it=$1
}

# Adds a line to the definition, so many times in ten.
perhaps() {
    draw 10
    [ "$it" -ge "$1" ] || add "$2"
}

add() {
    lines="$lines    $1
"
}

# A script that tells its words, but for the blank that the real tool puts behind the names of several logs.
perhaps_script() {
    draw 10
    [ "$it" -ge 2 ] || add "$1
        for word in \$1; do echo $1 \"\${word##*/}\"; done >>TREE/told
    endscript"
}

# Sets `lines` to a definition of the logs of TREE.
draw_definition() {
    one_of 'TREE/a.log' 'TREE/a.log TREE/b.log' 'TREE/[ab].log'
    lines="$it {
"
    one_of hourly daily weekly monthly yearly 'weekly 3' 'weekly 7' 'size 1' 'size 30'
    add "$it"
    perhaps 2 'minsize 20'
    one_of 0 1 2 3 5 -1
    kept=$it
    add "rotate $kept"
    draw 10
    if [ "$it" -lt 4 ]; then
        add dateext
        one_of -%Y%m%d .%Y-%m-%d -%Y%m%d%H -%s _%d.%m.%Y -%Y -%Y%m%d-%H%M%S
        perhaps 5 "dateformat $it"
        perhaps 3 datehourago
        perhaps 2 'maxage 3'
        perhaps_script preremove
    else
        # By `rotate -1` with `start 0` the real tool keeps one file alone.
        one_of 1 2 7 0
        [ "$kept" = -1 ] || perhaps 3 "start $it"
        draw 10
        if [ "$it" -lt 2 ]; then
            add 'maxage 3'
        else
            perhaps_script preremove
        fi
        perhaps_script firstaction
        perhaps_script lastaction
    fi
    one_of 'extension .log' 'addextension .log' 'extension .x' 'addextension .y'
    perhaps 4 "$it"
    # The real tool gives a directory that it makes without a mode 7777, and makes it before a log is due. By names it gives it to
    # whom they name, and here it belongs to who runs the program.
    modes='%a %u:%g'
    draw 10
    case $it in
    0 | 1 | 2) add 'olddir old' ;;
    3 | 4)
        one_of '' 750 0711 "0711 $user $group"
        case $it in
        '') modes='%u:%g' ;;
        '0711 '?*) modes=%a ;;
        esac
        add 'olddir new'
        add "createolddir $it"
        ;;
    esac
    # By names the real tool gives the log to whom they name, and here it gets those that the log had: so they are the same.
    one_of copy copytruncate renamecopy create nocreate 'create 600' "create 640 $user $group"
    way=$it
    # The real tool makes no copy of which none is kept, and starts no preremove then, but by this one.
    case $kept$way in
    0copy*) way=renamecopy ;;
    esac
    perhaps 5 "$way"
    [ "$way" != renamecopy ] || perhaps 5 create
    perhaps 2 'maxsize 40'
    perhaps 3 notifempty
    perhaps 2 sharedscripts
    perhaps_script prerotate
    perhaps_script postrotate
    lines="$lines    missingok
}"
}
