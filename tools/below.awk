# Prints the lines of crates.txt of a crate and of those below it.
#
# usage: awk -v name=gthost -f tools/below.awk crates.txt
function add_below(crate,    parts, n, i) {
  if ((crate in is_below) || !(crate in deps)) return
  is_below[crate] = 1
  n = split(deps[crate], parts, " ")
  for (i = 1; i <= n; i++) add_below(parts[i])
}

/^[a-z]/ {
  crate = $1; sub(/:$/, "", crate)
  words = $0; sub(/^[^:]*:/, "", words)
  deps[crate] = words
  crates[++count] = crate
  lines[crate] = $0
}
END {
  add_below(name)
  for (i = 1; i <= count; i++) if (crates[i] in is_below) print lines[crates[i]]
}
