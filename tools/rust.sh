# Sourced by the commands here, at the top of the tree: cargo_here runs cargo on the workspace in rust/, without a network, and
# writes below target/ alone; program_here builds a program of it over the library as the source is.
command -v cargo >/dev/null || PATH=$PATH:$HOME/.cargo/bin
command -v cargo >/dev/null || {
    echo "cargo is neither on PATH nor in .cargo/bin of the home folder" >&2
    exit 1
}
. tools/crates.sh
cargo_here() { # COMMAND WORDS...
    local command=$1
    shift
    (cd rust && cargo "$command" --offline --locked "$@")
}

# Says in `built` which file it is. The folder and the processor are this tree's, whatever the environment says of others.
program_here() { # NAME
    have khumsafil libkhumsafil.a
    (
        unset CARGO_BUILD_TARGET
        cargo_here build --release --quiet --target-dir ../target/cargo -p "$1"
    ) >&2
    built=$PWD/target/cargo/release/$1
}
