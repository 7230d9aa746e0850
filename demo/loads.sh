# The loads of demo/rotate-many and demo/bench: trees of logs, configurations and states of a size. A script reads it behind
# demo/scratch.sh.
export TZ=UTC

# So many logs in one directory, each with one member, in one definition.
lay_logs() {
    rm -rf "$logs"
    mkdir "$logs"
    (cd "$logs" && seq -f 'n%05.0f.log' "$1" | tee "$scratch/names" | xargs touch && sed 's/$/.1/' "$scratch/names" | xargs touch)
    { sed "s#^#$logs/#" "$scratch/names" && printf '{\nrotate 2\n}\n'; } >"$conf"
}

# So many logs that are set aside, copied and let go, each with a member.
lay_aside() {
    lay_logs "$1"
    sed -i 's/^{$/{\nrenamecopy/' "$conf"
}

# The same, by one pattern.
lay_matches() {
    lay_logs "$1"
    printf '%s {\nrotate 2\n}\n' "$logs/*.log" >"$conf"
}

# So many files that one pattern gives, none of which is due.
lay_given() {
    rm -rf "$logs"
    mkdir "$logs"
    (cd "$logs" && seq -f 'n%05.0f.log' "$1" | xargs touch)
    rm -f "$state"
    printf '%s {\nsize 1M\n}\n' "$logs/*.log" >"$conf"
}

# One log, with so many members.
lay_members() {
    rm -rf "$logs"
    mkdir "$logs"
    (cd "$logs" && touch app.log && seq -f 'app.log.%.0f' "$1" | xargs touch)
    printf '%s {\nrotate -1\n}\n' "$logs/app.log" >"$conf"
}

# One log, with so many members that have dates, one of each day from 1970 on.
lay_days() {
    rm -rf "$logs"
    mkdir "$logs"
    (cd "$logs" && touch app.log && seq -f '1970-01-01 + %.0f days' 0 $(($1 - 1)) | date -u -f - +app.log-%Y%m%d | xargs touch)
    printf '%s {\nrotate -1\ndateext\n}\n' "$logs/app.log" >"$conf"
}

# One log that isn't due, and a state of so many other entries, of today.
lay_entries() {
    today=$(date -u +%Y-%-m-%-d-%-H:%-M:%-S)
    rm -rf "$logs"
    mkdir "$logs"
    touch "$logs/app.log"
    { echo "$top" && printf '"%s" %s\n' "$logs/app.log" "$today" && seq -f "\"/srv/app/log/n%06.0f.log\" $today" "$1"; } >"$state"
    printf '%s {\ndaily\n}\n' "$logs/app.log" >"$conf"
}

# One log that isn't due, and a configuration of so many lines.
lay_lines() {
    lay_entries 1
    { seq -f 'rotate %.0f' "$1" && cat "$conf"; } >"$scratch/lines" && mv "$scratch/lines" "$conf"
}

# A configuration of so many files that others may write: each is told, and none is read.
lay_exposed() {
    rm -rf "$logs"
    rm -f "$state"
    mkdir "$logs"
    (cd "$logs" && umask 000 && seq -f 'n%05.0f' "$1" | xargs touch)
    printf 'include %s\n' "$logs" >"$conf"
}
