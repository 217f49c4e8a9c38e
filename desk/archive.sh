# Shared by ./archive and the desk's commands that link the archive; they set `root` and `command` (their own name) before they read this file.

source "$root/desk/proving.sh"

calls=ardhrumesh_c
archive="$root/target/staticlib/libardhrumesh.a"

# The archive, where it is not what was proved, and then what links it.
build_beside() {
    has cargo || fail "cargo is not found; install Rust and put cargo on the PATH"
    is_proved "$archive" "$calls" || "$root/archive" || fail "the archive was not built; ./archive said why"
    # Cargo goes by times: by its hash an archive is known that is not newer and yet another.
    ARDHRUMESH_ARCHIVE=$(hash_of <"$archive") cargo build --release --offline --quiet --manifest-path "$root/beside/Cargo.toml" ||
        fail "what links the archive was not built; cargo said why"
}
