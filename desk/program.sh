# Shared by the desk's commands that run a proved program; they set `root`, `command` (their own name) and `crate` before they read this file.

source "$root/desk/proving.sh"

program=$(program_of "$crate")

# Proves and builds the program, where it is not what was proved.
is_ready=''
ready_program() {
    [[ -z $is_ready ]] || return 0
    if ! is_proved "$program" "$crate"; then
        needs_rt
        alone build_program || exit
    fi
    is_ready=yes
}

# rt builds a program only where it has no stamp.
build_program() {
    local sources
    is_proved "$program" "$crate" && return
    sources=$(sources_of "$crate")
    say "the $crate is built first, of $(closure "$crate" | wc -l) crates to be proved; where none is proved yet this takes a few minutes"
    rm -f "$program" "$program.stamp"
    prove "$crate"
    [[ -x $program ]] || fail "rt has built no $crate; what it said is in ${kept@Q}"
    record "$program" "$sources" || fail "nothing can be written in ${kept@Q}; make room, or give yourself the right to"
}
