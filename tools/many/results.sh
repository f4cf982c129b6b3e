# What a part's result has to be. Read by run_part and join_results.

# columns LINES..: prints the name and the exit status in each line of `each`, with a tab between them. A line without a tab
# is an object of `--mode json`, in which the name has `\` before each `"` and `\`.
columns() {
  sed -E '/\t/! { s/^\{"name":"(([^"\\]|\\.)*)","status":([0-3])[,}].*$/\1\t\3/; s/\\(.)/\1/g }' "$@"
}

# is_whole LINES PRINTED: whether the lines of `each` are those of the names, in their order, and the last one is ended.
is_whole() {
  [ "$(wc -l <"$1")" -eq "$(wc -l <"$2")" ] && columns "$1" | cut -f 1 | cmp -s - "$2"
}

# greatest_status LINES..: prints the greatest exit status of the lines, 0 where there are none.
greatest_status() {
  local greatest
  greatest=$(columns "$@" | cut -f 2 | sort -u | tail -n 1)
  echo "${greatest:-0}"
}
