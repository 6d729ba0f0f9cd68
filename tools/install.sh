# What the outside tests want of a machine beside the Rattle kit, by the commands that are looked for and Debian's packages.

# Installs from Debian's packages what is missing.
install_missing() {
    local missing=()
    set -- cargo cargo c++ g++ nm binutils valgrind valgrind
    while [ $# -ge 2 ]; do
        PATH=$PATH:${CARGO_HOME:-${HOME:-/root}/.cargo}/bin command -v "$1" >/dev/null || missing+=("$2")
        shift 2
    done
    [ ${#missing[@]} -eq 0 ] || { apt-get -qq update && apt-get -qq install -y "${missing[@]}"; }
}
