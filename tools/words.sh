# Sourced by the commands here, with their words: --help prints the comment at the top of the command's file, and usage says of it
# how the command is called, on standard error, and leaves with status 2.
command_file=$(realpath "${BASH_SOURCE[1]}")
told() { sed -n -e 1d -e '/^#/!q' -e 's/^# \{0,1\}//p' "$command_file"; }
usage() {
    told | sed -n 's/^  \(tools\/\)/usage: \1/p' >&2
    exit 2
}
[ "${1:-}" != --help ] || {
    told
    exit 0
}
