# The toolchain works on x86-64 alone, and writes programs and archives for it. The desk's commands know of it by this file alone, and read
# common.sh before it.

machine=$(uname -m)

# The toolchain's folder, as rt finds it: the one whose bin/ rt stands in.
kit() {
    dirname "$(dirname "$(readlink -f "$(command -v rt)")")"
}

needs_rt() {
    [[ $machine == x86_64 ]] || fail "the toolchain works on x86-64 alone, and this machine is $machine; take one that is x86-64"
    has rt || fail "the toolchain's command rt is not found; install Rattle and put rt on the PATH"
}
