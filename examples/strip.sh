# Removes the attachments of a message file in place, as one step, and keeps it in JOURNAL.
# usage: sh strip.sh MESSAGE JOURNAL
word=$(mimetool sections --json --from "$1" | awk -f "$(dirname "$0")/attachments.awk")
[ -z "$word" ] || mimetool edit -j "$2" -e "$word" --in-place "$1"
