# Findings as annotations in the log and the pull request of a job on GitHub:
#
#     pamcheck check --dir pam.d --json | jq -r -f github-annotations.jq

# What a message, and what a property, has to have escaped.
def data: gsub("%"; "%25") | gsub("\r"; "%0D") | gsub("\n"; "%0A");
def property: data | gsub(":"; "%3A") | gsub(","; "%2C");

select(.kind == "finding")
| { error: "error", warning: "warning", note: "notice" }[.level] as $command
| [
    "file=\(.file | property)",
    (.line | values | "line=\(.)"),
    (if .column then "col=\(.column)", "endColumn=\(.column + .length)" else empty end),
    "title=\("\(.number) \(.name)" | property)"
  ] as $properties
| "::\($command) \($properties | join(","))::\(.sentence | data)"
