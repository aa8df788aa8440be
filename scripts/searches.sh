#!/bin/sh
# Runs `pciex search` on 500 small random logs, and tells each whose answer is not that of all histories, whose place is
# not the least, or that has no history with a fault that is told; then on the logs of a device with delays, which have a
# history, and of the same device with each of eight defects, until one of them has none. What is right is known by
# searches.py alone: searches.sh [PROGRAM], that of program.sh if none is named. With a folder in its place the logs are
# written there and nothing is run.
unset CDPATH
folder=
if [ -d "${1:-}" ]; then
    folder=$(cd "$1" && pwd) || exit 1
else
    pciex=$(sh "$(dirname "$0")/program.sh" "$@") || exit
fi
cd "$(dirname "$0")/.." || exit 1
if ! command -v python3 > /dev/null; then
    echo "left out: searches beside all histories, since there is no python3"
    exit 0
fi
export PYTHONDONTWRITEBYTECODE=1
if [ -n "$folder" ]; then
    exec python3 scripts/searches.py - "$folder"
fi
exec python3 scripts/searches.py "$pciex"
