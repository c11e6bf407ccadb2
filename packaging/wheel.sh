#!/bin/sh
# Makes the wheel of make wheel: packaging/wheel.sh FOLDER PYTHON LIBRARY. Nothing is fetched: pip, setuptools and wheel are
# those that PYTHON has.
set -eu
folder=$1 python=$2
COLA_LIBRARY=$(readlink -f "$3/libcola.so.1")
export COLA_LIBRARY
room=$(mktemp -d)
trap 'rm -rf "$room"' EXIT
umask 022
mkdir "$room/cola"
cp bindings/python/cola/*.py "$room/cola"
cp LICENSE bindings/python/cola_cluster.py bindings/python/setup.py bindings/python/pyproject.toml "$room"
mkdir -p "$folder"
"$python" -m pip --disable-pip-version-check -q wheel --no-cache-dir --no-index --no-deps --no-build-isolation -w "$folder" "$room"
ls "$folder"/cola-*.whl
