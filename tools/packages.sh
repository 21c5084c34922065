# Sourced by the commands here that need more than the toolchain, gcc and cargo.

# Installs Debian's packages where a command lacks.
lacking() { # COMMAND PACKAGE...
    ! command -v "$1" >/dev/null || return 0
    shift
    install_packages "$@"
}

install_packages() { # WORDS...
    local as_root=sudo
    [ "$(id -u)" != 0 ] || as_root=
    # The lists of packages need not be there yet.
    $as_root apt-get install -y "$@" || {
        $as_root apt-get update
        $as_root apt-get install -y "$@"
    }
}
