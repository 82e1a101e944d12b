#!/usr/bin/env bash
# The sums by which two shops see that they have the same writer; docs/SAME-WRITER.md says what they mean.
set -uo pipefail

usage() {
    cat <<'END'
tools/sums.sh [--here] [--compare FILE]

Prints commit, kit, and the sha256 of the library and of the program, built from a clean clone of HEAD, which takes minutes.

  --here           of what ./run has built in this work tree, at once; nothing is proved
  --compare FILE   says instead which of these lines the other shop, whose lines are in FILE, has too

Exit status: 0, with --compare where all lines are equal; 1 where they differ, something is not proved or, with --here, not
built; 2 for wrong use, a file that cannot be read, or a command that is missing. What the prover prints is in target/sums.log.
END
}

program=structure
library=ravenvanity
lines=(commit kit "lib$library.a" "$program")

# Ends with a status and one message.
end() {
    echo "sums.sh: $2" >&2
    exit "$1"
}

# ---- what can be known before building

read_words() {
    here='' other=''
    while [ $# -gt 0 ]; do
        case $1 in
        -h | --help)
            usage
            exit 0
            ;;
        --here) here=yes ;;
        --compare)
            [ -n "${2-}" ] || end 2 "after --compare stands the file with the other shop's lines"
            other=$2
            shift
            ;;
        *) end 2 "it takes --here and --compare FILE, not '$1' (tools/sums.sh --help)" ;;
        esac
        shift
    done
}

check_commands() {
    local name
    for name in git sha256sum rt; do
        command -v "$name" >/dev/null || end 2 "$name is not on the PATH: git, sha256sum and rt, the Rattle kit's command, are needed"
    done
}

# An archive that is unpacked within another repository has no commit of its own.
check_repository() {
    local below
    below=$(git rev-parse --show-prefix 2>&1) || end 2 "git finds no repository here: $below"
    if [ -n "$below" ] || ! git rev-parse --quiet --verify HEAD >/dev/null; then
        end 2 "this folder is not the top of a git repository with a commit, so there is none to build"
    fi
}

# What a text says of one of the lines: commit and kit stand after their word, a sum before the name of its file.
value() { # LINE TEXT
    sed -n -E "s/^$1  +([^ ].*)\$/\1/p; s/^([0-9a-f]{64})  $1\$/\1/p" <<<"$2"
}

# A mail program may have ended the lines in its own way.
check_other() {
    local line
    { theirs=$(tr -d '\0\r' <"$other"); } 2>/dev/null || end 2 "$other cannot be read"
    for line in "${lines[@]}"; do
        [ "$(value "$line" "$theirs" | wc -l)" -eq 1 ] || end 2 "$other must have one line for $line, as tools/sums.sh prints it"
    done
}

tell_changes() {
    [ -z "$(git status --porcelain)" ] ||
        echo "sums.sh: the work tree has changes that are not in HEAD (git status shows them), and they are not in the sums" >&2
}

# ---- building

# What rt starts does not hear a Ctrl-C, and the prover leaves files behind where it is ended. So all of it has a process group and a folder of
# its own, which end with this script.
group='' folder=''
clean() {
    [ -z "$group" ] || { kill -TERM -- "-$group" && wait "$group"; } 2>/dev/null
    # one that is just ending may still have written there
    [ -z "$folder" ] || rm -rf "$folder" 2>/dev/null || { sleep 1 && rm -rf "$folder"; }
}

# tools/build.sh says of each of the two files that it is built.
show_proved() {
    sed -u -n -E 's/^build.sh: (.* is built)$/\1/p' >&2
}

prove() { # TREE
    cd "$1" && tools/build.sh "$program" "$library"
}

# Proves and builds a commit in a clone of its own, `tree`.
build() { # COMMIT
    local status log=$PWD/target/sums.log
    # for root rt runs the program as another user, who must get there
    mkdir -p target && folder=$(mktemp -d) && chmod 711 "$folder" || exit 1
    tree=$folder/clone
    git clone --quiet --no-checkout . "$tree" && git -C "$tree" checkout --quiet --detach "$1" || exit 1
    set -m
    (TMPDIR=$folder prove "$tree" </dev/null 2>&1 | tee "$log" | show_proved) &
    group=$!
    set +m
    wait "$group"
    status=$?
    group=''
    if [ "$status" -ne 0 ]; then
        { grep -m 5 -E ': error|not proved' "$log" || tail -n 5 "$log"; } | cut -c 1-300 >&2
        end 1 "this failed; all that rt printed is in target/sums.log"
    fi
}

# ---- the sums

check_here() {
    local file
    for file in "staticlib/lib$library.a" "bin/$program"; do
        [ -f "target/$file" ] || end 1 "target/$file is not there: ./run builds it"
    done
    [ -z "$(git status --porcelain -- crates crates.txt)" ] ||
        end 1 "crates/ or crates.txt differ from HEAD: what is built here is of no commit"
}

print_lines() { # COMMIT
    echo "commit  $1"
    echo "kit     $(rt version)"
    (cd "$tree/target/staticlib" && sha256sum "lib$library.a") && (cd "$tree/target/bin" && sha256sum "$program")
}

# What it means that these lines differ.
meaning() { # LINE...
    case "$*" in
    commit | kit | 'commit kit') echo "the same machine code, though commit or kit differ" ;;
    'commit kit '*) echo "another commit and another kit: take the same, then compare again" ;;
    'commit '*) echo "another commit: take the same, then compare again" ;;
    'kit '*) echo "another kit: take the same, then compare again" ;;
    *) echo "the same commit and kit, but other bytes: this should not be${here:+, unless it was built at another commit or with another kit; try without --here}" ;;
    esac
}

compare() {
    local line mine their differ=()
    for line in "${lines[@]}"; do
        mine=$(value "$line" "$ours") their=$(value "$line" "$theirs")
        if [ "$mine" = "$their" ]; then
            printf 'equal    %-16s  %s\n' "$line" "$mine"
        else
            printf 'differs  %-16s  %s here\n%-27s%s there\n' "$line" "$mine" '' "$their"
            differ+=("$line")
        fi
    done
    if [ ${#differ[@]} -gt 0 ]; then
        meaning "${differ[@]}"
        exit 1
    fi
    echo "the same writer: same commit, same kit, same bytes"
}

# ---- the whole

read_words "$@"
check_commands
[ -z "$other" ] || check_other
cd "$(dirname "$0")/.." || exit 1
check_repository
[ -z "$here" ] || check_here
tell_changes

commit=$(git rev-parse HEAD)
tree=.
trap clean EXIT
trap 'exit 130' INT TERM HUP
[ -n "$here" ] || build "$commit"
ours=$(print_lines "$commit") || exit 1
if [ -n "$other" ]; then compare; else printf '%s\n' "$ours"; fi
