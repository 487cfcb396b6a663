#!/bin/sh
# Installs a wheel, or what pip makes of a folder, into an empty environment, without a network, and uses it there:
# installed.sh WHEEL
#
# The environment has neither setuptools nor wheel; no variable names the library, and nothing of this folder is on the
# path. Taken away again, the package is gone.
set -eu
wheel=$(readlink -f "$1")
folder=$(mktemp -d)
trap 'rm -rf "$folder"' EXIT
unset DNSNAMES_LIBRARY PYTHONPATH
python3 -m venv "$folder/environment"
cd "$folder"
python=environment/bin/python
"$python" -m pip --quiet --disable-pip-version-check uninstall --yes setuptools > /dev/null 2>&1 || true
"$python" -m pip --quiet --disable-pip-version-check install --no-index --no-deps "$wheel"
told=$("$python" -I -c '
import pathlib, dnsnames
name = dnsnames.Name("www.Example.com")
message = dnsnames.Message(bytes.fromhex("000081800000000100000000" "00000500010000000000050361626300"))
target = next(message.answers()).name_in_data()
print(dnsnames.__version__, name.is_subdomain_of(dnsnames.Name("EXAMPLE.com")), target)
import dnsnames._library
assert pathlib.Path(dnsnames._library.library._name).parent == pathlib.Path(dnsnames.__file__).parent
')
echo "$told"
[ "${told#* }" = "True abc." ]
"$python" -m pip --quiet --disable-pip-version-check uninstall --yes dnsnames
! "$python" -I -c 'import dnsnames' 2> /dev/null
