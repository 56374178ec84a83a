#!/usr/bin/env bash
# Builds the guests of this folder, plays them, and compares each journal with the one that is kept beside its play file:
# the guests in C, and those in Rust. What can't be built here is skipped, and why is said; the status is 1 where a
# journal differs. It stands outside the gate, which plays the modules that are kept. EDGE names another program than the
# launcher, and RUSTC another rustc.
set -eu
edge=$(readlink -e -- "${EDGE:-$(dirname -- "$0")/../../edge}") || { echo "${0##*/}: there is no program ${EDGE:-edge}" >&2; exit 1; }
cd "$(dirname -- "$0")"
work=$(mktemp -d)
trap 'rm -rf "$work"' EXIT
bad=0
played=0
skipped=0

# built SOURCE: whether its module could be built, as $work/guest.wasm.
built() {
    local status=0
    ./build.sh "$1" "$work/guest.wasm" 2>"$work/said" || status=$?
    case $status in
    0) ;;
    3)
        echo "$1: skipped, $(sed 's/^build.sh: //' "$work/said")"
        skipped=$((skipped + 1))
        ;;
    *)
        echo "$1 can't be built:" >&2
        cat "$work/said" >&2
        bad=1
        ;;
    esac
    return "$status"
}

# same SOURCE PLAY: the guest that was built of this source gives the journal that is kept of this play file.
same() {
    local folder=${2%/*} name=${2##*/} status=0
    # In its own folder, since settings name files.
    (cd "$folder" && "$edge" play "$work/guest.wasm" fastly.toml "$name") >"$work/journal" || status=$?
    if [ "$status" != 0 ]; then
        echo "$1: $2 isn't played, status $status" >&2
        bad=1
    elif ! diff "${2%.play}.journal" "$work/journal" >&2; then
        echo "$1: the journal of $2 isn't the one that is kept (<)" >&2
        bad=1
    else
        played=$((played + 1))
    fi
}

for source in */*.c */*.rs; do
    folder=${source%/*}
    name=${source##*/}
    name=${name%.*}
    # Of a folder with one guest all play files are its own.
    plays=("$folder/$name.play")
    [ "$name" != "$folder" ] || plays=("$folder"/*.play)
    [ -f "${plays[0]}" ] || continue
    built "$source" || continue
    for play in "${plays[@]}"; do
        same "$source" "$play"
    done
done

[ "$bad" = 0 ] || exit 1
echo "guests: $played journals as they are kept, $skipped guests skipped"
