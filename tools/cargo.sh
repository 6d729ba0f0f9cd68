# cargo for the Rust package tests/outside, whose files go to target/outside.

# Where rustup puts it, if that is not on the path.
PATH=$PATH:${CARGO_HOME:-${HOME:-/root}/.cargo}/bin

# Says so if there is no cargo.
have_cargo() { # NAME
    command -v cargo >/dev/null && return
    echo "$1: 'cargo' is not on the path (Rust 1.63 or newer; Debian has it in the package cargo)"
    return 1
}

in_package() { # COMMAND WORDS..
    local command=$1
    shift
    cargo "$command" --offline --quiet --manifest-path tests/outside/Cargo.toml --target-dir target/outside "$@"
}
