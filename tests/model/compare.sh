#!/usr/bin/env bash
# compare.sh N [SEED]: runs N random scripts through the built `sctp-trace run` and through the model,
# and prints each script on which they differ. PROGRAM names another program than ./sctp-trace.
set -u
here=$(cd "$(dirname "$0")" && pwd)
exec python3 "$here/compare.py" --program "${PROGRAM:-$here/../../sctp-trace}" "$@"
