#!/usr/bin/env bash
# The store over a Dask cluster of this machine: tests/cluster.py, with Debian's packages of Dask, which it installs where they
# are not there. Where they can't be had nothing is tested, and that is said.
#
#     tests/cluster.sh [FOLDER]    (FOLDER has the libcola.so to be tested; else it is made of what make library or the gate built here)
#
# The last line is 'N passed, M failed', and the status is 0 only where none failed.
. "$(dirname "$0")/lib.sh"

python=/usr/bin/python3
has_dask() { "$python" -c 'import distributed, dask.bag' 2>/dev/null; }
if ! has_dask; then
    { apt-get update && apt-get install -y --no-install-recommends python3-distributed python3-dask; } >"$room/apt" 2>&1
fi
if ! has_dask; then
    tail -n 3 "$room/apt"
    echo 'skipped: the cluster (there is no Dask, and Debian gave none)'
    finish
fi
cd "$root" || exit 1
library=${1:-$room/library}
if [ $# -eq 0 ]; then
    core=$(tests/core.sh) || { check 'the proved part of the library is built' false; finish; }
    make -s -f bindings/c/library.mk library CORE="$core" LIBRARY="$library" >"$room/made" 2>&1 || {
        cat "$room/made"
        check 'the library is built' false
        finish
    }
fi
COLA_LIBRARY=$(cd "$library" && pwd -P)/libcola.so
export COLA_LIBRARY PYTHONPATH=$root/bindings/python PYTHONDONTWRITEBYTECODE=1
timeout 900 "$python" tests/cluster.py
exit
