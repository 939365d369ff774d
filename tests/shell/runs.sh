# What the checks of the command share; each sets check to its own name, stands in the root folder and sources this.
# shellcheck shell=bash disable=SC2034,SC2154 # check comes from there, and what is set here is used there
bad=0
count=0
fail() {
    echo "tests/$check: $*"
    bad=1
}

figures=$(python3 tests/figures.py) || { fail 'tests/figures.py prints no figures'; exit 1; }
eval "$figures"

work=$(mktemp -d) || exit 2
trap 'rm -rf "$work"' EXIT

# what came, in $work/out and $work/err, with a status, is this
came() { # LABEL STATUS EXPECTED-STATUS OUTPUT ERRORS
    count=$((count + 1))
    [ "$2" -eq "$3" ] || fail "$1: expected status $3, came $2"
    printf '%b' "$4" | cmp -s - "$work/out" || fail "$1: expected '$4' on standard output, came '$(cat "$work/out")'"
    printf '%b' "$5" | cmp -s - "$work/err" || fail "$1: expected '$5' on standard error, came '$(cat "$work/err")'"
}

# root may read and write everything: what is to be kept from that is run as nobody
plainly() { # COMMAND..
    if [ "$(id -u)" -eq 0 ]; then
        setpriv --reuid=65534 --regid=65534 --clear-groups "$@"
    else
        "$@"
    fi
}

# the last word of a check
finish() {
    echo "tests/$check: $count runs looked at"
    exit "$bad"
}
