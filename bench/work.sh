# How a measurement begins: the built program, which is its first word, and a folder of its own that
# goes at its end. To be read by a script of this folder before anything else.
set -eu
jref=$(realpath "$1")
here=$(cd "$(dirname "$0")" && pwd)
work=$(mktemp -d)
trap 'rm -rf "$work"' EXIT
cd "$work"
. "$here/best.sh"
