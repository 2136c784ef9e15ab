# What ./ats and ./prove share: which builds are kept, when one is fresh, who may build, and how a build ends. A script that
# reads this file has set home, the folder of the repository, launch, the process with which a build ends, and log, a file for
# what a command prints. It has a function progress, which prints how far its build is.

kept=$home/out
proved=$kept/ats
estimate='17 to 41 minutes on four processors'

say() {
    printf 'ats: %s\n' "$1" >&2
}

# Ends with this status, and says why.
stop() {
    say "$2"
    exit "$1"
}

# The file is there, and no source in the folders after it is newer. A folder gets newer when a file is removed from it.
# The edits in must-fail/ are no part of the program.
is_fresh() {
    file=$1
    shift
    [ -e "$file" ] && [ -z "$(find "$home/crates.txt" "$home/HANDLES" "$@" \( -name out -o -name must-fail \) -prune \
        -o -newer "$file" -print -quit)" ]
}

# Takes the lock of a build, a file, which gets the time at which the build begins. The system gives it back when this script
# and all that it started have ended. Half a second passes before a wait is said, since clear_up may hold the lock that long.
take_lock() {
    for tool in rt flock setpriv; do
        command -v "$tool" >/dev/null 2>&1 || stop 127 "$tool is not on the PATH: README.md names the kit that has rt, and util-linux has flock and setpriv"
    done
    lock=$1
    mkdir -p "$kept" && touch -a "$lock" || stop 126 "cannot write to $kept"
    exec 9>>"$lock"
    flock -w 0.5 9 || { say "waiting: another launch is building, and holds $lock" && setpriv --pdeathsig TERM flock 9; }
    touch "$lock"
}

# Removes these folders, and a program that is not kept yet, once the lock is given back. No signal to this script or its
# terminal reaches the session in which this waits.
clear_up() {
    setsid -f flock "$lock" rm -rf "$lock.program" "$@" 9>&- >/dev/null 2>&1
}

# Runs a command, and shows on a terminal how far it is. When this script ends, however it ends, the system tells the command to
# end. The command does not begin if the launch ended before the system was asked for that.
work() {
    setpriv --pdeathsig TERM sh -c '[ -e "/proc/$0/exe" ] && exec "$@"' "$launch" "$@" >>"$log" 2>&1 &
    if [ -t 2 ]; then
        while sleep 1 && kill -0 "$!" 2>/dev/null; do
            printf '\r%79s\rats: %.74s' '' "$(progress)" >&2
        done
        printf '\r%79s\r' '' >&2
    fi
    wait "$!"
}

# Keeps a program under a name, whole, with the time at which its build began: what changed meanwhile is newer.
keep() {
    cp "$1" "$lock.program" && touch -r "$lock" "$lock.program" && mv -f "$lock.program" "$2"
}
