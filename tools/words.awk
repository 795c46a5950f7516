# What the words of a command line come to before the program is built: the launcher ./gthost asks here. The commands,
# their options and their texts are read from the outputs that the gate compares, so help and the messages for wrong
# words are the program's, byte for byte; the program takes them from the parser of command lines that it is built with.
#
# usage: awk [-v width=COLUMNS] [-v own='WORD ..'] -f tools/words.awk -- crates/cases_program/stdout WORD..
#
# `own` has the words of the launcher, which are near to others too. The environment variable OWN_HELP has its lines at
# the end of the help, and VERSION its line after the first of the version.
#
# Exit status 0: a command. Its name, `file` or `input`, the place of its FILE among the words, the FILE, and its
# options follow, a line each, with `questions` if `why` reads these. Then come `=PLACE` for each further FILE, and
# `+PLACE` for the file of --never or --has, or `+PLACE@N` if its name comes after N letters of that word. 3: a text for
# the standard output. 4: a text for the standard error; the program's exit status is then 2.

# Reads the text of each command line that is stored.
function read_stored(file,    line, key) {
  while ((getline line < file) > 0) {
    if (line ~ /^\$ gthost/) {
      key = substr(line, 3)
      text[key] = ""
    } else if (line ~ /^\$ /) {
      key = ""
    } else if (line ~ /^status [0-9]+$/) {
      key = ""
    } else if (key != "") {
      text[key] = text[key] line "\n"
    }
  }
  close(file)
}

# The commands, in the order of the help.
function read_commands(    lines, n, i, on, parts) {
  n = split(text["gthost --help"], lines, "\n")
  for (i = 1; i <= n; i++) {
    if (lines[i] == "Commands:") on = 1
    else if (lines[i] == "") on = 0
    else if (on && lines[i] ~ /^  [a-z]/) {
      split(lines[i], parts, " ")
      if (parts[1] == "help") continue
      commands[++command_count] = parts[1]
      is_command[parts[1]] = 1
    }
  }
}

# The options and words of a command, from its usage and the options of its help. Each has its text, as `--format
# <text|json>`, and `takes` says which take a value.
function read_options(command,    lines, n, i, j, on, parts, id, times, usage) {
  option_count = word_count = 0
  split("", is_option); split("", takes); split("", shown); split("", is_needed); split("", word_at)
  n = split(command == "" ? text["gthost --help"] : text["gthost " command " -h"], lines, "\n")
  for (i = 1; i <= n; i++) {
    if (lines[i] ~ /^Usage: /) usage = substr(lines[i], 8)
    if (lines[i] == "Options:") on = 1
    else if (lines[i] == "") on = 0
    else if (on && match(lines[i], /^ *(-[a-zA-Z], )?--[a-z]+/)) {
      id = substr(lines[i], RSTART, RLENGTH)
      sub(/^.*--/, "", id)
      options[++option_count] = id
      is_option[id] = 1
      shown[id] = "--" id
      if (match(lines[i], "--" id " <[^>]*>")) {
        takes[id] = 1
        shown[id] = substr(lines[i], RSTART, RLENGTH)
      }
    }
  }
  plain = usage
  has_options = usage ~ /\[OPTIONS\]/
  sub(/\[OPTIONS\] /, "", usage)
  for (i = 1; i <= option_count; i++) {
    id = options[i]
    if (index(usage, shown[id])) {
      is_needed[id] = 1
      usage = substr(usage, 1, index(usage, shown[id]) - 1) substr(usage, index(usage, shown[id]) + length(shown[id]) + 1)
    }
  }
  n = split(usage, parts, " ")
  for (i = command == "" ? 4 : 3; i <= n; i++) {
    times = sub(/\.\.\.$/, "", parts[i]) ? 8 : 1
    id = substr(parts[i], 2, length(parts[i]) - 2)
    for (j = 1; j <= times; j++) {
      word_at[++word_count] = j == 1 ? id : id " " j
      shown[word_at[word_count]] = "<" id ">"
    }
    if (parts[i] ~ /^</) is_needed[id] = 1
  }
  head = command == "" ? "gthost" : "gthost " command
  tail = command == "" ? "<COMMAND>" : ""
}

# The similarity of two words, by Jaro.
function jaro(a, b,    n, m, range, i, j, low, high, matches, moved, taken, first, second) {
  n = length(a); m = length(b)
  if (a == b) return 1
  if (!n || !m) return 0
  range = int((n > m ? n : m) / 2) - 1
  if (range < 0) range = 0
  for (i = 1; i <= n; i++) {
    low = i - range; if (low < 1) low = 1
    high = i + range; if (high > m) high = m
    for (j = low; j <= high; j++) {
      if (!(j in taken) && substr(a, i, 1) == substr(b, j, 1)) {
        taken[j] = 1
        first[++matches] = substr(a, i, 1)
        break
      }
    }
  }
  if (!matches) return 0
  for (j = 1; j <= m; j++) if (j in taken) second[++i_second] = substr(b, j, 1)
  for (i = 1; i <= matches; i++) if (first[i] != second[i_second - matches + i]) moved++
  moved = int(moved / 2)
  return (matches / n + matches / m + (matches - moved) / matches) / 3
}

# The option closest to a word, if one is close.
function closest_option(word,    i, best, score, high) {
  high = 0.7
  for (i = 1; i <= option_count; i++) {
    score = jaro(word, options[i])
    if (score > 0.7 && score >= high) { high = score; best = options[i] }
  }
  return best
}

function finish(status, out) { printf "%s", out; exit status }
function show(out) { finish(3, out) }

# A message with a usage line, and one without.
function refuse(message, usage) { finish(4, "error: " message "\n\nUsage: " usage "\n\nFor more information, try '--help'.\n") }
function refuse_value(message) { finish(4, "error: " message "\n\nFor more information, try '--help'.\n") }

# The usage line for the options and words that were used, and those that are needed.
function usage_of(    i, id, out, done) {
  if (!used_count || plain ~ /\.\.\.$/) return plain
  out = head
  for (i = 1; i <= option_count; i++) {
    id = options[i]
    if (id in is_needed) { out = out " " shown[id]; done[id] = 1 }
  }
  for (i = 1; i <= used_count; i++) {
    id = used[i]
    if ((id in is_option) && !(id in done)) { out = out " " shown[id]; done[id] = 1 }
  }
  for (i = 1; i <= word_count; i++) {
    id = word_at[i]
    out = out " " ((id in is_used) || (id in is_needed) ? "<" id ">" : "[" id "]")
  }
  return out (tail == "" ? "" : " " tail)
}

# A message with the usage of the command, in place of the one of the parser, where that would mislead.
function refuse_instead(message) { refuse(message, plain) }
function refuse_letters() { refuse_instead("unexpected argument '-v' found\n\n  tip: '-v' is given once, and as a word by itself") }
function tell_of_version() { refuse_instead("unexpected argument '--version' found\n\n  tip: 'gthost --version' prints the version") }

# A word at place i that is taken for a flag, if it was to be the value of the option before it.
function refuse_value_word(words, i, shown_word,    option) {
  option = i > 1 ? words[i - 1] : ""
  if (option ~ /^--[a-z0-9]+$/ && (substr(option, 3) in takes))
    refuse_instead("unexpected argument '" shown_word "' found\n\n  tip: a value that begins with - comes after =, as in '" option "=" words[i] "'")
}

function note_used(id) { if (!(id in is_used)) { is_used[id] = 1; used[++used_count] = id } }

# Takes what waits: an option with its value, or without one, or a word. With `quiet` a fault is left for later.
function settle(quiet,    id) {
  if (waiting == "") return
  id = waiting
  waiting = ""
  if ((id in is_option) && !has_value) {
    if (quiet) return
    refuse_value("a value is required for '" shown[id] "' but none was supplied")
  }
  if (id in given) {
    if (quiet) return
    refuse("the argument '" shown[id] "' cannot be used multiple times", plain)
  }
  given[id] = value
  note_used(id)
}

# An option that no command has, with a hint.
function unknown_option(name, i, words, n,    best, command, j, k, tip, hint) {
  settle(1)
  if (head == "gthost" && name == "verbose")
    refuse_instead("unexpected argument '--verbose' found\n\n  tip: it goes with a command, as in 'gthost play -v'")
  if (head != "gthost" && name == "version") tell_of_version()
  if (head != "gthost") refuse_value_word(words, i, "--" name)
  best = closest_option(name)
  if (best != "") {
    note_used(best)
    hint = "\n\n  tip: a similar argument exists: '--" best "'"
  } else if (word_count) {
    hint = "\n\n  tip: to pass '--" name "' as a value, use '-- --" name "'"
  }
  message = "unexpected argument '--" name "' found"
  usage = usage_of()
  if (best == "" && head == "gthost") {
    for (j = i + 1; j <= n && hint == ""; j++) {
      if (words[j] in is_command) {
        read_options(words[j])
        best = closest_option(name)
        if (best != "") hint = "\n\n  tip: '" words[j] " --" best "' exists"
      }
    }
  }
  refuse(message hint, usage)
}

# The help and the version, with what the launcher adds.
function whole_help() { return text["gthost --help"] (ENVIRON["OWN_HELP"] == "" ? "" : ENVIRON["OWN_HELP"] "\n") }
function whole_version(    rest) {
  rest = text["gthost --version"]
  sub(/^[^\n]*\n/, "", rest)
  return substr(text["gthost --version"], 1, length(text["gthost --version"]) - length(rest)) \
    (ENVIRON["VERSION"] == "" ? "" : ENVIRON["VERSION"] "\n") rest
}

# The words at the top, up to a command.
function walk_top(words, n,    i, word, marked, name, j, similar, count, order, score, k, list) {
  read_options("")
  for (i = 1; i <= n; i++) {
    word = words[i]
    if (!marked && (word in is_command)) return i
    if (!marked && word == "--") { marked = 1; continue }
    if (!marked && word ~ /^--./) {
      name = substr(word, 3)
      if (index(name, "=")) name = substr(name, 1, index(name, "=") - 1)
      if (!(name in is_option)) unknown_option(name, i, words, n)
      if (index(word, "=")) {
        note_used(name)
        refuse("unexpected value '" substr(word, index(word, "=") + 1) "' for '--" name "' found; no more were expected", usage_of())
      }
      show(name == "help" ? whole_help() : whole_version())
    }
    if (!marked && word ~ /^-[^-]/) {
      if (word ~ /^-h/) show(whole_help())
      if (word ~ /^-V/) show(whole_version())
      if (word ~ /^-v/) refuse_letters()
      refuse("unexpected argument '" substr(word, 1, 2) "' found", plain)
    }
    if (marked && (word in is_command))
      refuse("unexpected argument '" word "' found\n\n  tip: subcommand '" word "' exists; to use it, remove the '--' before it", plain)
    if (word == "version") refuse_instead("unrecognized subcommand 'version'\n\n  tip: 'gthost --version' prints the version")
    if (word == "help") refuse_instead("unrecognized subcommand 'help'\n\n  tip: 'gthost help' lists the commands")
    # The nearest comes last, as the parser has it.
    own_count = split(own, own_words, " ")
    for (j = 1; j <= command_count + own_count; j++) {
      name = j <= command_count ? commands[j] : own_words[j - command_count]
      score = jaro(word, name)
      if (score <= 0.7) continue
      for (k = ++count; k > 1 && order[k - 1] > score; k--) { order[k] = order[k - 1]; similar[k] = similar[k - 1] }
      order[k] = score
      similar[k] = name
    }
    for (k = 1; k <= count; k++) list = list (k > 1 ? ", " : "") "'" similar[k] "'"
    if (count) list = "\n\n  tip: " (count == 1 ? "a similar subcommand exists: " : "some similar subcommands exist: ") list
    refuse("unrecognized subcommand '" word "'" list, plain)
  }
  finish(4, text["gthost"])
}

# The option that states a claim of a kind, if the word is one: `--never`, or `--never=EXPR`.
function claim_option(word) { return match(word, /^--(find|never|always)(=|$)/) ? substr(word, 1, RLENGTH) : "" }

# Puts one option `--claims` in place of several claims of `explore`, as the program does. `origin` has for each word its
# place among the words that were given.
function join_claims(    i, m, marked, option, kept, from, claims, count, lines) {
  kept[++m] = words[1]
  for (i = 2; i <= n; i++) {
    option = marked ? "" : claim_option(words[i])
    if (option ~ /=$/) {
      count++
      lines = lines substr(option, 3, length(option) - 3) " " substr(words[i], length(option) + 1) "\n"
    } else if (option != "" && i < n && words[i + 1] !~ /^-/) {
      count++
      lines = lines substr(option, 3) " " words[++i] "\n"
    } else {
      if (words[i] == "--") marked = 1
      kept[++m] = words[i]
      from[m] = i
    }
  }
  if (count < 2) return
  words[2] = "--claims=" lines
  for (i = 2; i <= m; i++) { words[i + 1] = kept[i]; origin[i + 1] = from[i] }
  n = m + 1
}

# The place of a word among those that were given.
function place_of(i) { return (i in origin) ? origin[i] : i }

# The words of a command.
function walk_command(words, n, i,    word, marked, next_word, name, attached, has_attached, j, missing) {
  read_options(words[i])
  used_count = 0
  split("", used); split("", is_used)
  next_word = 1
  for (i++; i <= n; i++) {
    word = words[i]
    if (!marked && word == "--") { marked = 1; continue }
    if (!marked && word ~ /^--./) {
      name = substr(word, 3)
      has_attached = index(name, "=") > 0
      if (has_attached) { attached = substr(name, index(name, "=") + 1); name = substr(name, 1, index(name, "=") - 1) }
      if (!(name in is_option)) unknown_option(name, i, words, n)
      if (has_attached && !(name in takes)) {
        note_used(name)
        refuse("unexpected value '" attached "' for '--" name "' found; no more were expected", usage_of())
      }
      settle(0)
      if (name == "help") show(text[head " -h"])
      waiting = name
      has_value = !(name in takes) || has_attached
      value = has_attached ? attached : "true"
      if (has_attached) place[name] = place_of(i) "@" (length(name) + 3)
      if (has_value) settle(0)
      continue
    }
    if (!marked && word ~ /^-[^-]/) {
      if (word ~ /^-h/) { settle(0); show(text[head " -h"]) }
      if (word ~ /^-v/) refuse_letters()
      refuse_value_word(words, i, substr(word, 1, 2))
      settle(1)
      refuse("unexpected argument '" substr(word, 1, 2) "' found" \
        (word_count ? "\n\n  tip: to pass '" substr(word, 1, 2) "' as a value, use '-- " substr(word, 1, 2) "'" : ""), plain)
    }
    if (!marked && waiting != "" && !has_value) { place[waiting] = place_of(i); value = word; has_value = 1; continue }
    if (next_word > word_count) {
      if (words[1] == "check") refuse_instead("check takes at most 8 FILEs, each checked alone, and '" word "' is one more")
      settle(1)
      refuse("unexpected argument '" word "' found", plain)
    }
    settle(0)
    waiting = word_at[next_word++]
    place[waiting] = place_of(i)
    value = word
    has_value = 1
  }
  settle(0)
  for (j = 1; j <= option_count; j++) if ((options[j] in is_needed) && !(options[j] in given)) missing = missing "\n  " shown[options[j]]
  for (j = 1; j <= word_count; j++) if ((word_at[j] in is_needed) && !(word_at[j] in given)) missing = missing "\n  " shown[word_at[j]]
  if (missing != "") {
    used_count += 0
    if (!used_count) { used_count = 1; used[1] = "" }
    refuse("the following required arguments were not provided:" missing, usage_of())
  }
}

# Whether the text is a number of up to this value; 0 where there is no bound but 64 bits.
function is_number(word, most) {
  if (word !~ /^\+?[0-9]+$/) return 0
  sub(/^\+/, "", word)
  sub(/^0+/, "", word)
  if (most) return length(word) < 10 && word + 0 <= most
  return length(word) < 20 || (length(word) == 20 && word <= "18446744073709551615")
}

# Whether the text is two numbers of 64 bits with a comma between them.
function are_numbers(word,    at) {
  at = index(word, ",")
  return at > 0 && is_number(substr(word, 1, at - 1), 0) && is_number(substr(word, at + 1), 0)
}

# Refuses the value of an option.
function refuse_option(id, takes) { refuse("--" id " takes " takes ", not '" given[id] "'", plain) }

# The values that a command takes.
function check_values(command) {
  if (command == "entries") {
    if (given["version"] != "1" && given["version"] != "2") refuse_option("version", "1 or 2")
    if (("script" in given) && !is_number(given["script"], 32751)) refuse_option("script", "the number of a domain, at most 32751")
    if (("script" in given) && given["format"] == "json") refuse("only one of --script and --format json can be given", plain)
  } else if (command == "explore") {
    if (("witness" in given) && given["witness"] != "all" && !is_number(given["witness"], 0)) refuse_option("witness", "a number or all")
    if (("trace" in given) && !is_number(given["trace"], 0)) refuse_option("trace", "a number")
    if (("diff" in given) && !are_numbers(given["diff"])) refuse_option("diff", "two numbers, such as 1,2")
    if (("states" in given) && !is_number(given["states"], 0)) refuse_option("states", "a number in digits, such as 1000000")
    if (!is_format() && given["format"] != "mermaid") refuse_option("format", "text, json or mermaid")
    if (!is_format() && !("trace" in given)) refuse("--format mermaid is only for --trace", plain)
    if (("find" in given) + ("never" in given) + ("always" in given) + ("claims" in given) + ("has" in given) + ("witness" in given) + ("trace" in given) + ("summary" in given) + ("diff" in given) > 1)
      refuse("only claims (--find, --never, --always), or one of --claims, --has, --witness, --trace, --summary and --diff can be given", plain)
  } else if (command == "check" && ("script" in given) && ("never" in given)) {
    refuse("only one of --script and --never can be given", plain)
  }
  if (command == "why" && !("PERMISSION" in given)) {
    if (!("SOURCE" in given) || ("TARGET" in given))
      refuse("why takes SOURCE, TARGET and PERMISSION, or one FILE and questions on standard input", plain)
    given["FILE"] = given["SOURCE"]
    place["FILE"] = place["SOURCE"]
  }
  if (command == "flow" && !("TARGET" in given))
    refuse("flow takes SOURCE and TARGET, each a type, an attribute or -", plain)
  if (command != "explore" && !is_format()) refuse_option("format", "text or json")
}

function is_format() { return !("format" in given) || given["format"] == "text" || given["format"] == "json" }

# The lines, broken between words into lines of at most `width`, if it is given: that of a terminal, as the program takes
# it.
function wrapped(lines,    all, parts, n, m, i, j, most, column, out) {
  if (width == "") return lines
  most = width ~ /^\+?[0-9]+$/ ? width + 0 : 80
  if (most < 40) most = 40
  n = split(lines, all, "\n")
  for (i = 1; i < n; i++) {
    m = split(all[i], parts, " ")
    column = 0
    for (j = 1; j <= m; j++) {
      if (column == 0) { out = out parts[j]; column = length(parts[j]) }
      else if (column + length(parts[j]) + 1 > most) { out = out "\n    " parts[j]; column = length(parts[j]) + 4 }
      else { out = out " " parts[j]; column += length(parts[j]) + 1 }
    }
    out = out "\n"
  }
  return out
}

# The line of a rule, or of all.
function show_rules(    lines, n, i, number) {
  if (!("RULE" in given)) show(wrapped(text["gthost rules"]))
  number = given["RULE"]
  sub(/^[Nn]/, "", number)
  n = split(text["gthost rules"], lines, "\n")
  for (i = 1; i <= n; i++) if (number ~ /^[1-9][0-9]*$/ && index(lines[i], "N" number " ") == 1) show(wrapped(lines[i] "\n"))
  finish(4, "gthost: no rule '" given["RULE"] "' (rules are N1 to N26)\n")
}

# Puts the command before its flags: a flag for reasons goes behind the command, and `help` is the command's `--help`. A
# flag before `help` is dropped.
function lead_by_command(    word, i) {
  if (n >= 2 && (words[1] == "-v" || words[1] == "--verbose") && words[2] == "help") {
    for (i = 1; i < n; i++) words[i] = words[i + 1]
    n--
  }
  if (n >= 2 && (words[1] == "-v" || words[1] == "--verbose")) {
    word = words[1]
    words[1] = words[2]
    words[2] = word
  } else if (n >= 1 && words[1] == "help") {
    if (n >= 2) { words[1] = words[2]; words[2] = "--help" } else { words[1] = "--help" }
  }
}

BEGIN {
  read_stored(ARGV[1])
  read_commands()
  for (i = 2; i < ARGC; i++) words[++n] = ARGV[i]
  lead_by_command()
  for (i = 1; i <= n; i++) {
    if (words[i] == "--") marked = 1
    if (!marked && words[i] == "-v") words[i] = "--verbose"
  }
  if (words[1] == "explore") join_claims()
  at = walk_top(words, n)
  walk_command(words, n, at)
  check_values(words[at])
  if (words[at] == "rules") show_rules()
  print words[at]
  print ("FILE" in given) ? "file" : "input"
  print place["FILE"]
  print given["FILE"]
  for (i = 1; i <= option_count; i++) if (options[i] in given) print options[i]
  if (words[at] == "why" && !("PERMISSION" in given)) print "questions"
  for (i = 2; i <= 8; i++) if (("FILE " i) in given) print "=" place["FILE " i]
  if (words[at] == "check" && ("never" in given)) print "+" place["never"]
  if (words[at] == "explore" && ("has" in given)) print "+" place["has"]
  exit 0
}
