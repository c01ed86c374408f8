# Findings as a report of code quality for GitLab:
#
#     pamcheck check --dir pam.d --json | jq -s -f gitlab-code-quality.jq >gl-code-quality-report.json

[
  .[]
  | select(.kind == "finding")
  | {
      description: "\(.number) \(.name): \(.sentence)",
      check_name: .number,
      # GitLab tells findings apart by this, and counts as new what the target branch has not.
      fingerprint: ([.number, .file, .line, .column, .sentence] | map(tostring) | join(":") | @base64),
      severity: { error: "critical", warning: "major", note: "info" }[.level],
      location: { path: .file, lines: { begin: (.line // 1) } }
    }
]
