# Proves a library once all that it stands on is proved. ./prove runs it for each crate, with the crate's name and the names
# of those below it. It has set home, launch, notes, a folder of what is done, places, one of where crates are proved, and
# width, how many are proved at a time.

. "$home/launcher/builds.sh"

# The first crate is made, and no source of it or of those below it, which are named after it, is newer.
is_made() {
    stamp=$home/crates/$1/out/rlib/stamp
    for below; do
        is_fresh "$stamp" "$home/crates/$below"/*/ || return 1
    done
}

# Takes one of the places in which crates are proved.
take_place() {
    while :; do
        for number in $(seq "$width"); do
            place=$places/$number
            mkdir "$place" 2>/dev/null && return
        done
        sleep 1
    done
}

# Lays out the first crate and those below it, which are named after it, by hard links to the files of the house.
lay_out() {
    mkdir "$place/crates" && cp "$home/HANDLES" "$place" || return 1
    awk -v wanted=" $* " 'index(wanted, " " substr($1, 1, length($1) - 1) " ")' "$home/crates.txt" >"$place/crates.txt" || return 1
    of_rt=out
    for below; do
        mkdir -p "$place/crates/$below/out" || return 1
        for part in src specs proofs $of_rt; do
            [ ! -d "$home/crates/$below/$part" ] || cp -Rl "$home/crates/$below/$part" "$place/crates/$below/$(dirname "$part")" || return 1
        done
        of_rt=out/rlib
    done
}

# Proves a library and makes it. rt keeps all others out of a crate's folder and of those below it, so that in the house
# itself crates that share one below would be proved one after another: each is proved in a place of its own.
# What is made has the crate's statements, as in the gate: those above do not load its proofs.
prove_in_place() {
    lay_out "$@" || return 1
    jobs=2
    [ "$(ls "$places" | wc -l)" -gt 1 ] || jobs=$width
    echo "$1" >"$place/crate"
    log=$notes/$1.log
    work env -C "$place/crates/$1" rt lib --jobs "$jobs" --statements &&
        rm -rf "$home/crates/$1/out" && mv "$place/crates/$1/out" "$home/crates/$1/out"
}

# Waits until the crates after the first one are proved. Ends if one cannot be.
wait_for_below() {
    shift
    for below; do
        until [ -e "$notes/proved-$below" ]; do
            [ ! -e "$notes/unproved" ] || exit 1
            sleep 1
        done
    done
}

[ -e "/proc/$launch/exe" ] || exit 1 # it ended before the system was asked to end this script with it
place=
wait_for_below "$@"
if is_made "$@" || { take_place && prove_in_place "$@"; }; then
    : >"$notes/proved-$1"
else
    : >"$notes/unproved"
fi
rm -rf "$place"
