# Reads the lines of `mimetool sections --json` and writes the script line that removes the attachments: of the leaves directly
# in a multipart/mixed those that say so, and those that are no text and don't say `inline`. So the body of an encrypted message
# and the pictures of one in HTML stay.
function value(key) {
    if (!match($0, "\"" key "\":\"[^\"]*\"")) return ""
    return substr($0, RSTART + length(key) + 4, RLENGTH - length(key) - 5)
}

{
    path = value("path")
    type[path] = value("type")
    above = path
    sub(/[.]?[0-9]+$/, "", above)
    disposition = value("disposition")
}

value("kind") == "leaf" && type[above] == "multipart/mixed" &&
    (disposition == "attachment" || disposition != "inline" && type[path] !~ /^text\//) { paths = paths " " path }

END { if (paths) print "remove" paths }
