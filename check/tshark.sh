#!/bin/sh
# Lets two readers of the protocol agree with frswire: tshark takes apart the PDUs that frswire writes,
# and frswire decodes the stubs that impacket packs.
# Usage: check/tshark.sh [COUNT [SEED]]; it wants `apt-get install tshark python3-impacket`.
set -eu
here=$(cd "$(dirname "$0")" && pwd)
"$here/tshark.py" "$@"
"$here/impacket_stubs.py" "$@"
