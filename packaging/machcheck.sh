#!/bin/sh
# Runs machcheck with the words given. MIG files pass the C preprocessor before they come to the program.
set -eu
unset CDPATH
# The program is found from this file: a symbolic link to it is followed.
file=$0
while [ -L "$file" ]; do
    target=$(readlink "$file")
    case $target in
    /*) file=$target ;;
    *) file=$(dirname "$file")/$target ;;
    esac
done
parts=$(cd -P "$(dirname "$file")/../libexec/machcheck" && pwd -P)
# What goes past a limit of a file's size is then a write that fails, and does not end the program.
trap '' XFSZ
# Runs the program, and comes back.
run() {
    "$parts/machcheck" "$@"
}
# How the program was made stands in a file.
case ${1-} in
--version | -V)
    version=$("$parts/machcheck" --version)
    read -r how <"$parts/built"
    echo "$version ($how)"
    exit
    ;;
esac
if [ "${1-}" = mig ]; then
    shift
    . "$parts/mig"
fi
exec "$parts/machcheck" "$@"
