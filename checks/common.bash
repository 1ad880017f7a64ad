# What the bash scripts of checks/ have in common. A script begins with
#
#     . "$(dirname "$0")/common.bash"
#     needs otn otn_view                # the programs that it tries
#     needs_tool tshark                 # and the tools that it can't do without
#
# and has from then on
#
#     $here             this folder
#     $folder           an empty folder, which goes when the script ends
#     $otn, $otn_view   the programs: those that OTN= and OTN_VIEW= name, else where `rt run` builds them
#     tell NAME yes     counts what was tried; all but `yes` has failed
#     left_out WHAT TOOL    says what is left out since a tool is missing
#     finish            the last line, 'N passed, M failed', and the exit status
#
# A program or a tool that is missing leaves the whole script out: it says so, and its exit status is 77.
here=$(cd "$(dirname "${BASH_SOURCE[0]}")" && pwd)
folder=$(mktemp -d)
trap 'rm -rf "$folder"' EXIT
passed=0
failed=0

left_out() { echo "left out: $1: needs $2"; }

needs() { # PROGRAM..
    local name said path
    for name in "$@"; do
        said=${name^^}
        path=$(readlink -f "${!said:-$here/../crates/$name/out/$name}")
        if [ ! -x "$path" ]; then
            left_out "all of $(basename "$0")" "$name"
            exit 77
        fi
        declare -g "$name=$path"
    done
}

needs_tool() { # TOOL..
    local tool
    for tool in "$@"; do
        if ! command -v "$tool" > /dev/null; then
            left_out "all of $(basename "$0")" "$tool"
            exit 77
        fi
    done
}

tell() { # NAME, whether it holds
    if [ "$2" = yes ]; then
        passed=$((passed + 1))
    else
        failed=$((failed + 1))
        echo "$1: failed"
    fi
}

finish() {
    echo "$passed passed, $failed failed"
    [ "$failed" = 0 ] && [ "$passed" != 0 ]
    exit
}
