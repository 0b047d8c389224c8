#!/bin/sh
# One call of the unit jadlungin.service, in the folder of the files: sweeps, settles what waits, and serves so many links.
# Usage: serve.sh PROGRAM PORT LINKS
set -e
program=$1 port=$2 links=$3
now() { date -u +%Y-%m-%dT%H:%M:%SZ; }
# Each command reads the files once more. Where that takes long, sweep once a day from elsewhere, while the unit is stopped.
"$program" sweep expire,purge,reports "$(now)"
"$program" run 4 "$(now)" < /dev/null
exec "$program" serve "$port" "$(now)" --links "$links"
