#!/bin/sh
# A month of the captains, from its tables to its repair: examples/tables/walk.sh FOLDER writes all into FOLDER.
set -eu
here=$(dirname "$0")
desk=${DESK:-$here/../../roster-desk}
to=$1
mkdir -p "$to/tables"
cp "$here"/*.csv "$to/tables"

# June, from its tables to a roster that is published.
"$desk" book --month 2024-06 --rank CP --weight 1 "$to/tables" > "$to/june.csv"
"$desk" fault "$to/june.csv"
"$desk" warn "$to/june.csv"
"$desk" plan "$to/june.csv" > "$to/june.txt"
"$desk" chart "$to/june.csv" "$to/june.txt" > "$to/june.html"

# On the 12th DORA falls ill until the 16th.
echo DORA,2024-06-12,2024-06-16 >> "$to/tables/leave.csv"
"$desk" book --month 2024-06 --rank CP --weight 1 "$to/tables" > "$to/changed.csv"
"$desk" repair --from 2024-06-12T04:00Z "$to/changed.csv" "$to/june.txt" > "$to/rest.csv"
"$desk" plan --start "$to/june.txt" "$to/rest.csv" > "$to/rest.txt"
"$desk" diff --persons "$to/rest.csv" "$to/june.txt" "$to/rest.txt" > "$to/called.txt"

# July begins with what June leaves.
"$desk" carry --into "$to/tables" "$to/rest.csv" "$to/rest.txt"
"$desk" book --month 2024-07 --rank CP --weight 1 "$to/tables" > "$to/july.csv"
"$desk" warn "$to/july.csv"
"$desk" plan "$to/july.csv" > "$to/july.txt"
