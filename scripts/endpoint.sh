#!/bin/sh
# Brings the device of `pciex endpoint` up and uses it, by a root complex of its own over two pipes (endpoint.py), and
# behind a link, by a peer of its own over bad wires (linked.py): endpoint.sh [PROGRAM], the program of program.sh if none is
# named. It needs python3, and says so if there is none.
unset CDPATH
program=$(sh "$(dirname "$0")/program.sh" "$@") || exit
if ! command -v python3 > /dev/null; then
    echo "left out: an endpoint under a root complex, since there is no python3"
    exit 0
fi
export PYTHONDONTWRITEBYTECODE=1
python3 "$(dirname "$0")/endpoint.py" "$program" || exit 1
exec python3 "$(dirname "$0")/linked.py" "$program"
