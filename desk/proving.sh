# Shared by the desk's commands that run or link what was proved; they set `root` and `command` (their own name) before they read this file.
# A file that is built here has a record in target/desk/: the machine, the toolchain, and the hashes of the sources and of the file itself.
# What is not as its record says is not used: it is proved and built anew.

source "$root/desk/common.sh"
source "$root/desk/machine.sh"

kept="$root/target/desk"

# Where rt lays a program that it has built.
program_of() { # CRATE
    printf '%s\n' "$root/crates/$1/out/$1"
}

# Some crates and those of the repository that they stand on, lowest first: the line of each in crates.txt.
closure() {
    awk -v wanted="$*" '
        function visit(name,    below, count, i) {
            if (!(name in named) || seen[name]++) return
            count = split(named[name], below, " ")
            for (i = 1; i <= count; i++) visit(below[i])
            print line[name]
        }
        { sub(/#.*/, "") }
        /:/ {
            name = $1
            sub(/:.*/, "", name)
            named[name] = substr($0, index($0, ":") + 1)
            line[name] = $0
        }
        END {
            count = split(wanted, first, " ")
            for (i = 1; i <= count; i++) visit(first[i])
        }' "$root/crates.txt"
}

# The names of crates, by their lines in crates.txt.
named() {
    awk '{ sub(/:.*/, "", $1); print $1 }'
}

hash_of() {
    sha256sum | cut -d ' ' -f 1
}

# The hash of all that is proved of some crates: their files, and the crates that each names. Must-fail edits are no part of it, nor is what rt makes.
sources_of() {
    local lines crates
    lines=$(closure "$@")
    mapfile -t crates < <(named <<<"$lines")
    {
        printf '%s\n' "$lines"
        (cd "$root/crates" && find "${crates[@]}" \( -name must-fail -o -regex '[^/]*/out' \) -prune -o -type f -exec sha256sum {} + | LC_ALL=C sort)
    } | hash_of
}

# The toolchain's name; with none at hand that of the record, since then nothing else could build it.
toolchain() {
    if has rt; then
        cat "$(kit)/KIT-ID" 2>/dev/null || true
    else
        sed -n 's/^toolchain //p' "$1"
    fi
}

# What the record of a file says, where its sources have this hash.
described() { # FILE SOURCES
    local record=$kept/${1##*/}
    printf '%s\n' "machine $machine" "toolchain $(toolchain "$record")" "sources $2" "file $(hash_of <"$1")"
}

# Whether a file is what was proved of these crates as they now are.
is_proved() { # FILE CRATES..
    local file=$1 record=$kept/${1##*/}
    shift
    [[ -f $file && -f $record ]] && [[ $(described "$file" "$(sources_of "$@")") == "$(<"$record")" ]]
}

# Written where a file was just built of what was proved.
record() { # FILE SOURCES
    local record=$kept/${1##*/}
    described "$1" "$2" >"$record.new" 2>/dev/null && mv "$record.new" "$record"
}

# Runs a function while no other command of the desk proves: two would write into the same folders.
alone() {
    mkdir -p "$kept" 2>/dev/null || true
    [[ -w $kept ]] || fail "nothing may be written in ${kept@Q}; give yourself the right to, or work in a copy of the repository"
    has flock || fail "flock is not found; install the Linux utilities (util-linux)"
    (
        flock -n 9 || { say "another command proves; this one waits for it" && flock 9; }
        "$@"
    ) 9>"$kept/lock"
}

# Runs a command in a process group of its own, which ends with this one: what rt starts beside itself does not hear Ctrl-C.
grouped() {
    local group status=0
    set -m
    "$@" &
    group=$!
    set +m
    trap 'kill -TERM -- "-$group" 2>/dev/null; trap - INT; kill -INT "$BASHPID"' INT TERM HUP
    wait "$group" || status=$?
    return "$status"
}

# Has rt prove one crate, over those below it, and build it. It builds a program only to run it: here on no input, and what it prints goes nowhere.
prove_one() { # CRATE
    cd "$root/crates/$1" || return
    if [[ -e src/main.rt ]]; then
        rt run "$1" 2>&1 >/dev/null
    else
        rt lib "$1" 2>&1
    fi
}

# Proves some crates and what they stand on, and tells of each that rt has proved now, and which it is of how many. Of a library that is unchanged rt
# says nothing: it is counted. What rt says is kept, and shown where it says that something is not proved.
prove() { # CRATES..
    local log=$kept/$command.log crates crate count=0 before began
    mapfile -t crates < <(closure "$@" | named)
    : >"$log"
    for crate in "${crates[@]}"; do
        before=$(wc -c <"$log")
        began=$SECONDS
        if ! (grouped prove_one "$crate") </dev/null >>"$log"; then
            grep -E ': (not proved|no proof)|^rt: .*did not build' "$log" >&2 || true
            fail "not all is proved, so nothing is built; what rt said is in ${log@Q}"
        fi
        count=$((count + 1))
        [[ $(wc -c <"$log") -eq $before ]] || say "$count of ${#crates[@]} proved ($crate, $((SECONDS - began)) s)"
    done
}
