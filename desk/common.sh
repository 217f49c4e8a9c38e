# Shared by the desk's commands, which set `root` and `command` (their own name) before they read this file.
# A command ends with 0 where it is done, with 1 where it could not be done, and with 2 where it was asked for something wrong.

say() {
    printf '%s: %s\n' "$command" "$1" >&2
}

# Says what could not be done and what to do, and ends the command.
fail() {
    say "$1"
    exit 1
}

# Says what is wrong with what was asked for and what to do, and ends the command.
refuse() {
    say "$1"
    exit 2
}

# Refuses an argument that the command does not know.
refuse_argument() {
    say "${1@Q} is not known"
    usage >&2
    exit 2
}

has() {
    command -v "$1" >/dev/null
}
