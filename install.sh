#!/bin/sh
# Installs the program and those beside it, lrcat and lraudit, their manual pages, a systemd service with its daily timer,
# completion for bash, pages for administrators, /etc/logrotate.conf, an empty /etc/logrotate.d and /var/lib/logrotate; or takes
# away again what it installed.
#
#     install.sh [--trial] [--as NAME] [PREFIX]       below PREFIX, which is /usr/local where none is given
#     install.sh --uninstall [PREFIX]
#
# The programs are those of the release which this script is part of. In the sources there are none: they are proved and built
# then, or with --trial built without their proofs, for a look. PROGRAM, CAT and AUDIT name others in place of these; where PROGRAM
# is named, one of the others that isn't is left out. `--as ninethread` gives the program another name than `logrotate`, so that it
# stands beside the distribution's. DESTDIR is put before each path, for a scratch root or a package.
#
# No file that stands is overwritten, but one that this script installed and that is unchanged since. One that stands with
# other bytes is left, and the new one is put beside it with `.new` behind its name. Each path is told in a line. What is
# installed stands in a list, PREFIX/share/ninethread/installed: the checksum of each file, and each directory that was made.
# By that list --uninstall removes the files that are unchanged and the directories that are empty, and tells what it leaves.
#
# systemd reads the units of /usr and /usr/local; those below another PREFIX are told to it by `systemctl link`.
set -eu
umask 022
# By CDPATH a relative folder would be looked for elsewhere first.
here=$(CDPATH='' cd "$(dirname "$0")" && pwd)

usage() {
    sed -n '6,7s/^# *//p' "$here/install.sh"
}

refuse() {
    usage >&2
    exit 2
}

fail() {
    echo "install.sh: $1" >&2
    exit 1
}

prefix='' uninstall='' trial='' name=logrotate
while [ $# -gt 0 ]; do
    case $1 in
    --uninstall) uninstall=yes ;;
    --trial) trial=yes ;;
    --as)
        [ $# -gt 1 ] || refuse
        name=$2
        shift
        ;;
    --help | -h)
        usage
        exit 0
        ;;
    -*) refuse ;;
    *)
        [ -z "$prefix" ] || refuse
        prefix=$1
        ;;
    esac
    shift
done
case $name in
'' | -* | *[!a-z0-9-]*)
    echo "install.sh: $name: a name has small letters, digits and - alone" >&2
    exit 2
    ;;
esac
prefix=${prefix:-/usr/local}
# It stands in a line of the unit.
case $prefix in
*[!A-Za-z0-9/._+-]*)
    echo "install.sh: $prefix: a prefix has letters, digits and the signs / . _ + - alone" >&2
    exit 2
    ;;
/?*) ;;
*)
    echo "install.sh: $prefix: a prefix is absolute" >&2
    exit 2
    ;;
esac
while [ "$prefix" != "${prefix%/}" ]; do
    prefix=${prefix%/}
done
root=${DESTDIR:-}

# ---- the list: lines of a checksum and a path, and of the word `directory` and a path, in order of making
own=$prefix/share/ninethread
list=$own/installed

# The checksum of the file at the path, and that of the list.
sum_of() {
    sha256sum <"$root$1" | cut -d ' ' -f 1
}
listed_sum() {
    [ ! -f "$root$list" ] || awk -v path="$1" '$2 == path { print $1 }' "$root$list"
}

stands() {
    [ -e "$root$1" ] || [ -L "$root$1" ]
}

# Whether the file is one that this script installed, as it was.
is_ours() {
    [ -f "$root$1" ] && [ ! -L "$root$1" ] && [ "$(sum_of "$1")" = "$(listed_sum "$1")" ]
}

# Gives the path its line of the list, behind the others. As all that follows it fails by itself, since a condition may call it.
enter() {
    {
        [ ! -f "$root$list" ] || awk -v path="$2" '$2 != path' "$root$list"
    } >"$root$list.part" && echo "$1 $2" >>"$root$list.part" && mv -f "$root$list.part" "$root$list" ||
        fail "$list can't be written"
}

# ---- installing

# Makes the directory and those above it that are missing. What is made before there is a list is entered by the caller.
made=''
make_directory() {
    [ -z "$1" ] || [ -d "$root$1" ] || {
        make_directory "${1%/*}"
        mkdir "$root$1" || fail "$1 can't be made"
        echo "made $1"
        made="$made $1"
    }
}

enter_made() {
    for path in $made; do
        enter directory "$path"
    done
    made=''
}

directory() {
    if [ -d "$root$1" ]; then
        echo "stands $1"
    else
        make_directory "$1"
        enter_made
    fi
}

# The file at the first path becomes that at the second, whole at once, with this mode.
copy() {
    make_directory "${2%/*}"
    enter_made
    part=$(mktemp "$root$2.XXXXXX") || fail "$2 can't be written"
    cp "$1" "$part" && chmod "$3" "$part" && mv -f "$part" "$root$2" || {
        rm -f "$part"
        fail "$2 can't be written"
    }
    enter "$(sum_of "$2")" "$2"
}

# Installs a file where nothing stands, or one of ours; false where another does, which isn't the same.
install_at() {
    if ! stands "$2"; then
        copy "$1" "$2" "$3"
        echo "installed $2"
    elif cmp -s "$1" "$root$2"; then
        echo "same $2"
    elif is_ours "$2"; then
        copy "$1" "$2" "$3"
        echo "replaced $2, which was as it was installed"
    else
        return 1
    fi
}

file() {
    if ! install_at "$1" "$2" "$3"; then
        echo "left $2, which stands with other bytes; the new one is $2.new:"
        install_at "$1" "$2.new" "$3" || echo "left $2.new, which stands with other bytes too"
    fi
}

# ---- the programs

# Without words each ends with 2.
runs_here() {
    status=0
    "$1" >/dev/null 2>&1 </dev/null || status=$?
    [ "$status" = 2 ]
}

need_toolchain() {
    command -v rt >/dev/null || fail "there is no program here, and no Rattle toolchain (rt) to build it: take a release, or name a program (PROGRAM=..)"
}

# Proves and builds the program of this crate. Each other status than the program's own is that of a build that failed.
prove() {
    status=0
    (cd "$here/crates/$1" && rt run -- >"$scratch/proved" 2>&1 </dev/null) || status=$?
    [ "$status" = 2 ] || {
        cat "$scratch/proved" >&2
        fail "$1 was not built"
    }
}

# Sets `program` to the one of this crate that is installed: the second word, where it names one; else that of the release; else
# one that is built.
choose_program() {
    if [ -n "$2" ]; then
        program=$(realpath "$2")
    elif [ -n "$trial" ]; then
        need_toolchain
        program=$scratch/$1
        "$here/demo/build" "$program" "$1"
    elif [ -f "$here/$1" ]; then
        program=$here/$1
        if ! runs_here "$program" && [ -f "$program-static" ]; then
            echo "$1 needs a newer libc than this machine's, so the one that brings its own is taken"
            program=$program-static
        fi
    else
        need_toolchain
        prove "$1"
        program=$here/crates/$1/out/$1
    fi
    runs_here "$program" || fail "$program does not run on this machine"
}

# What a build is worth, or takes, where there has to be one.
tell_build() {
    if [ -n "${PROGRAM:-}" ]; then
        :
    elif [ -n "$trial" ]; then
        echo 'a trial build: not proved, with AddressSanitizer, 30 to 100 times slower, and without much memory it ends: for a look, not for a server'
    elif [ ! -f "$here/logrotate" ]; then
        echo 'the programs are proved and built: some seconds where this tree has passed the gate on this machine, else about an hour of four processors'
    fi
}

# Installs a program beside it, by the name of its crate, with its page and its completion; the other words are the one that is
# named, its folder and its section. It is left out where PROGRAM is named and it isn't.
install_other() {
    if [ -n "${PROGRAM:-}" ] && [ -z "$2" ] && [ ! -f "$here/$1" ]; then
        echo "left out $1, since PROGRAM is named and it isn't"
        return
    fi
    choose_program "$1" "$2"
    file "$program" "$prefix/$3/$1" 755
    file "$here/man/$1.$4" "$prefix/share/man/man$4/$1.$4" 644
    file "$here/completions/$1" "$prefix/share/bash-completion/completions/$1" 644
}

# The texts that have the program's name in them, under the one that it gets. Its messages begin with `logrotate` all the same.
name_texts() {
    sed "s#^ExecStart=/usr/local/sbin/logrotate#ExecStart=$prefix/sbin/$name#; s#man:logrotate(8)#man:$name(8)#" \
        "$here/systemd/ninethread.service" >"$scratch/service"
    sed "s#man:logrotate(8)#man:$name(8)#" "$here/systemd/ninethread.timer" >"$scratch/timer"
    cp "$here/man/logrotate.8" "$scratch/page"
    cp "$here/completions/logrotate" "$scratch/completion"
    [ "$name" != logrotate ] || return 0
    upper=$(echo "$name" | tr a-z A-Z)
    sed "s/^\.TH LOGROTATE /.TH $upper /; s/^logrotate \\\\-/$name \\\\-/; s/^\.B logrotate\$/.B $name/" \
        "$here/man/logrotate.8" >"$scratch/page"
    sed "s/_logrotate/_$(echo "$name" | tr - _)/; s/ logrotate\$/ $name/" "$here/completions/logrotate" >"$scratch/completion"
}

# ---- what is left to do

# What the distribution starts each night: no log may be rotated by both.
tell_the_rest() {
    [ -f /etc/localtime ] || echo 'there is no /etc/localtime: put it there, or take TZ out of ninethread.service'
    steps=''
    for unit in /etc/systemd/system/logrotate.timer /usr/lib/systemd/system/logrotate.timer /lib/systemd/system/logrotate.timer; do
        [ ! -e "$unit" ] || steps='systemctl disable --now logrotate.timer'
    done
    for job in /etc/cron.daily/logrotate /etc/cron.hourly/logrotate /etc/periodic/daily/logrotate; do
        [ ! -x "$job" ] || steps="${steps:+$steps && }chmod -x $job"
    done
    echo "nothing runs by itself yet. A look first, which changes nothing: $prefix/sbin/$name -d /etc/logrotate.conf"
    [ -z "$steps" ] || echo "the distribution's logrotate runs each night, and no log may be rotated by both: $steps"
    if [ -d "$root/run/systemd/system" ]; then
        echo 'then, each night: systemctl daemon-reload && systemctl enable --now ninethread.timer'
    else
        echo "then, each night, by cron (no systemd runs here): $prefix/sbin/$name /etc/logrotate.conf"
    fi
}

# ---- all of it

install_all() {
    scratch=$(mktemp -d)
    trap 'rm -rf "$scratch"' EXIT
    trap 'exit 130' INT TERM HUP
    tell_build
    choose_program logrotate "${PROGRAM:-}"
    name_texts

    [ -z "$root" ] || mkdir -p "$root"
    make_directory "$own"
    enter_made
    file "$program" "$prefix/sbin/$name" 755
    file "$scratch/page" "$prefix/share/man/man8/$name.8" 644
    file "$scratch/completion" "$prefix/share/bash-completion/completions/$name" 644
    install_other lrcat "${CAT:-}" bin 1
    install_other lraudit "${AUDIT:-}" sbin 8
    file "$scratch/service" "$prefix/lib/systemd/system/ninethread.service" 644
    file "$scratch/timer" "$prefix/lib/systemd/system/ninethread.timer" 644
    for page in docs/FAULTS.md docs/MOVING.md SECURITY.md CHANGELOG.md PROVED-BY; do
        [ ! -f "$here/$page" ] || file "$here/$page" "$prefix/share/doc/ninethread/${page#docs/}" 644
    done
    directory /etc/logrotate.d
    file "$here/etc/logrotate.conf" /etc/logrotate.conf 644
    directory /var/lib/logrotate
    [ -n "$root" ] || tell_the_rest
}

# ---- taking away

remove_files() {
    while read -r sum path; do
        if [ "$sum" = directory ]; then
            continue
        elif ! stands "$path"; then
            echo "gone already $path"
        elif is_ours "$path"; then
            rm "$root$path" || fail "$path can't be removed"
            echo "removed $path"
        else
            echo "left $path, which was changed"
        fi
    done <"$root$list"
}

# The last that was made goes first.
remove_directories() {
    while read -r path; do
        if [ ! -d "$root$path" ]; then
            echo "gone already $path"
        elif rmdir "$root$path" 2>/dev/null; then
            echo "removed $path"
        else
            echo "left $path, which is not empty"
        fi
    done
}

uninstall_all() {
    if [ ! -f "$root$list" ]; then
        echo "nothing is installed: there is no $list"
        exit 0
    fi
    remove_files
    directories=$(awk '$1 == "directory" { print $2 }' "$root$list" | tac)
    rm "$root$list"
    [ -z "$directories" ] || echo "$directories" | remove_directories
    enabled=/etc/systemd/system/timers.target.wants/ninethread.timer
    ! stands "$enabled" || echo "left $enabled: systemctl disable --now ninethread.timer"
}

if [ -n "$uninstall" ]; then
    uninstall_all
else
    install_all
fi
