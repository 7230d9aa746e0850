# The daemon of demo/rotate-nights and demo/rotate-drawn, whose logs are rotated by root: a user of its own, where that can be. A
# script reads it behind demo/scratch.sh.
#
# `user` and `group` are its names then, since `create` is given names, and else empty: it is this user itself.
daemon=65534
user=$(id -un "$daemon" 2>/dev/null || :)
group=$(getent group "$daemon" 2>/dev/null | cut -d : -f 1 || :)

# Runs a command as the daemon.
as_daemon() {
    if [ -n "$user" ]; then
        setpriv --reuid="$daemon" --regid="$daemon" --clear-groups "$@"
    else
        "$@"
    fi
}

if [ "$(id -u)" != 0 ]; then
    skip 'logs of another user: it is not root'
    user=
elif [ -z "$user" ] || [ -z "$group" ]; then
    skip "logs of another user: the number $daemon has no names"
    user=
elif ! as_daemon true 2>/dev/null; then
    skip 'logs of another user: setpriv is missing or refused'
    user=
fi
if [ -n "$user" ]; then
    # It passes through to its logs.
    chmod 711 "$scratch"
else
    group=
fi

# Gives the daemon these directories.
give() {
    [ -z "$user" ] || chown "$daemon:$daemon" "$@"
}
