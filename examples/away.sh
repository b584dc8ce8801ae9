# Prints an answer to a message file, unless a program or a mailing list sent it.
# usage: sh away.sh MESSAGE TEXT
sent=$(mimetool field -x Auto-Submitted: --from "$1"; mimetool field -x List-Id: --from "$1")
[ -z "$sent" ] || exit 0
mimetool reply --from "$1" | mimetool field -A 'Auto-Submitted: auto-replied' && cat "$2"
