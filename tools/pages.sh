#!/usr/bin/env bash
# Writes the man page gthost.1 and the shell completions of contrib/completions from the texts of --help and the names of
# the rules, as the gate compares them (crates/cases_program/stdout), and from the words of the launcher ./gthost.
# usage: tools/pages.sh            writes the files
#        tools/pages.sh --check    says whether they are as they would be written
set -euo pipefail
cd "$(dirname "${BASH_SOURCE[0]}")/.."
texts=crates/cases_program/stdout

# What the program prints for this command line.
stored() {
  LINE="\$ gthost $1" awk '
    $0 == ENVIRON["LINE"] { found = 1; next }
    found && /^status / { exit }
    found { print }
  ' "$texts"
}

# The lines below a heading of a help text, without the blanks before them.
section() { awk -v head="$1:" '$0 == head { on = 1; next } on && !NF { exit } on { sub(/^ +/, ""); print }'; }

commands() { stored --help | section Commands | awk '$1 != "help" { print $1 }'; }

# What follows the last options of a text: the paragraphs of --help below them.
after() { awk '/^Options:/ { on = 1; next } on == 1 && !NF { on = 2; next } on == 2 { print }'; }

# A text as roff takes it.
roff() { sed -e 's/\\/\\e/g' -e 's/-/\\-/g' -e "s/^\([.']\)/\\\\\&\1/"; }

# The same, with lines `.PP` as they are.
roff_but_breaks() { sed -e '/^\.PP$/!{s/\\/\\e/g;s/-/\\-/g;s/^\([.'"'"']\)/\\\&\1/;}'; }

# A list of roff from lines `NAME  WHAT IT IS`.
list() {
  awk '{ match($0, /  +/); print substr($0, 1, RSTART - 1); print substr($0, RSTART + RLENGTH) }' | roff |
    awk 'NR % 2 { print ".TP"; print ".B " $0; next } { print }'
}

# The names of the rules, and the permissions that the help of `why` lists.
rules() { stored rules | awk '{ print $1 }' | tr '\n' ' ' | sed 's/ $//'; }
permissions() { stored "why -h" | sed -n 's/^ *\[PERMISSION\] *\(map_.*\)$/\1/p' | sed -e 's/,//g' -e 's/ or / /'; }

# The words of the launcher, with what they are.
launcher_words() { sed -n 's|^#.*\./gthost \([a-z][a-z]*\)\( [][A-Z]*\)\{0,1\}   *\(.*\)$|\1\x1f\3|p' gthost; }
launcher_names() { launcher_words | cut -d $'\x1f' -f 1 | tr '\n' ' ' | sed 's/ $//'; }

usage_of() { stored "$1 -h" | sed -n 's/^Usage: gthost //p'; }

# What a script is, by the one that the program is tried with.
scripts() {
  printf '.SH SCRIPTS\n'
  cat <<'END' | roff
A script is a text of statements, one on a line; # begins a comment. First comes the policy: lines
`triple SOURCE TARGET PERMISSION`, or a block from `policy` to `end` with types, attributes and allow statements.
Then come the domains, each with its label, its frames, the frames of its grant table and the table's
version: `domain ID USER:ROLE:TYPE FRAMES TABLEFRAMES VERSION`. Then come the calls, `do ID CALL`, in their order.
A script for run has lines `tell` and `await` too, by which domains wait for each other, and one for play `begin`,
`tick` and `show`, which make the steps of a call one by one.
END
  printf '.PP\nIn this script domain 1 grants its frame 5 to domain 2, which maps it, reads two bytes and unmaps it:\n.PP\n.nf\n'
  roff <crates/gthost/data/first.gt
  printf '.fi\n.PP\nIt prints the number of each line, the domain and the answer:\n.PP\n.nf\n'
  roff <crates/gthost/stdout
  printf '.fi\n'
}

man() {
  local command version
  version="$(stored --version | head -n 1)"
  printf '.\\" Made by tools/pages.sh from the texts of --help.\n'
  printf '.TH GTHOST 1 "" "%s" "User Commands"\n' "$version"
  printf '.SH NAME\ngthost \\- %s\n' "$(stored --help | head -n 1 | roff)"
  printf '.SH SYNOPSIS\n'
  for command in $(commands); do
    printf '.B gthost\n%s\n.br\n' "$(usage_of "$command" | roff)"
  done
  printf '.SH DESCRIPTION\n'
  stored --help | after | sed -n '/^Exit status/q;p' | roff
  scripts
  printf '.SH COMMANDS\n'
  for command in $(commands); do
    printf '.SS gthost %s\n' "$(usage_of "$command" | roff)"
    stored "$command -h" | head -n 1 | roff
    stored "$command -h" | section Arguments | list
    stored "$command -h" | section Options | list
    stored "$command -h" | after | sed -e '1s/^/.PP\n/' -e 's/^$/.PP/' | roff_but_breaks
  done
  printf '.SH OPTIONS\n'
  stored --help | section Options | list
  printf '.SH EXIT STATUS\n'
  stored --help | after | sed -n '/^Exit status/,/^Try:/{/^Try:/d;p}' | sed 's/^$/.PP/' | roff_but_breaks
  printf '.SH LIMITS\n'
  stored --version | sed '1,2d' | { printf '.nf\n'; roff; printf '.fi\n'; }
  printf '.SH ENVIRONMENT\n.TP\n.B COLUMNS\nThe width of the terminal, to which the lines of rules are broken: 80 if it is not set.\n'
  printf '.TP\n.B NO_COLOR\nIf it is set and not empty, findings on a terminal have no colours.\n'
  printf '.TP\n.B GTHOST_STOP\nThe name of a file: a search of explore ends as at its limit of states once it exists.\n'
  printf '.SH FILES\n.I share/gthost/examples\nbelow the folder of the installation: scripts, policies and a dump to try. The command\nlines of EXAMPLES are for the folder share/gthost.\n'
  printf '.SH EXAMPLES\n.nf\n'
  stored --help | sed -n '/^Try:/,$p' | sed -e 's/^Try: *//' -e 's/^ *//' | roff
  printf '.fi\n.SH SEE ALSO\n'
  printf 'docs/TOUR.md (all examples), docs/FORMATS_SCRIPTS.md, docs/FORMATS_POLICY.md, docs/FORMATS.md,\n'
  printf '.BR checkpolicy (8),\n.BR sesearch (1),\n.BR xl (1)\n'
}

# The long flags of a command, a line each: the flag, `=` where it takes a value, and what it is.
flags() {
  stored "$1 -h" | section Options | sed -n 's/^\(-[a-zA-Z], \)\{0,1\}--\([a-z-]*\)\( <[^>]*>\)\{0,1\}  *\(.*\)$/\2\x1f\3\x1f\4/p'
}

# The flags of a command, in one line.
all_flags() { flags "$1" | cut -d $'\x1f' -f 1 | sed -e 's/^/--/' -e 's/^--verbose$/--verbose -v/' | tr '\n' ' ' | sed 's/ $//'; }

# The values of an option: those that its help names, as `text|json` but not as `N`, of --find the rules, and of --format
# of `explore` the three that its text names.
values_of() {
  case "$1$2" in
    find*) rules ;;
    "format <FORM>") printf 'text json mermaid' ;;
    *) values "$2" ;;
  esac
}
values() { printf '%s' "$1" | sed -n 's/^ <\(.*|.*\)>$/\1/p' | sed -E 's/\b[A-Z]+(\||$)//g' | tr '|' ' '; }

# Whether the value of an option is the name of a file.
is_file() { [ "$1" = " <NEVER>" ] || [ "$1" = " <TEXT>" ]; }

# How each shell completes the value of an option.
bash_values() { if is_file "$2"; then printf -- '-f'; else printf -- '-W "%s"' "$(values_of "$1" "$2")"; fi; }
zsh_values() { if is_file "$2"; then printf 'file:_files'; else printf 'value:(%s)' "$(values_of "$1" "$2")"; fi; }
fish_values() { if is_file "$2"; then printf -- ' -r -F'; else printf -- " -x -a '%s'" "$(values_of "$1" "$2")"; fi; }

bash_completion() {
  local command flag value what
  cat <<'END'
# Completion of gthost for bash. Made by tools/pages.sh from the texts of --help.
_gthost() {
  local word="${COMP_WORDS[COMP_CWORD]}" before="${COMP_WORDS[COMP_CWORD - 1]}" words="" count=0 first=1 command i
  # `=` is a word by itself.
  if [ "$word" = = ]; then
    word=""
  elif [ "$before" = = ]; then
    before="${COMP_WORDS[COMP_CWORD - 2]}"
  fi
  # A flag may come before the command.
  if [ "$COMP_CWORD" -gt 1 ]; then case "${COMP_WORDS[1]}" in -v | --verbose) first=2 ;; esac; fi
  command="${COMP_WORDS[first]}"
  if [ "$COMP_CWORD" -eq "$first" ] || [ "$command $COMP_CWORD" = "help $((first + 1))" ]; then
END
  printf '    words="%s"\n' "$(commands | tr '\n' ' ' | sed 's/ $//')"
  printf '    if [ "$COMP_CWORD" -eq "$first" ]; then words="$words help"; fi\n'
  printf '    if [ "$COMP_CWORD" -eq 1 ]; then words="$words --help --version"; fi\n'
  printf '    if [[ $1 == */* && -e ${1%%/*}/crates.txt ]]; then words="$words %s"; fi\n' "$(launcher_names)"
  cat <<'END'
    mapfile -t COMPREPLY < <(compgen -W "$words" -- "$word")
    return
  fi
  case "$command $before" in
    -* | help*) return ;;
END
  for command in $(commands); do
    flags "$command" | while IFS=$'\x1f' read -r flag value what; do
      [ -n "$value" ] || continue
      printf '    "%s --%s") mapfile -t COMPREPLY < <(compgen %s -- "$word"); return ;;\n' "$command" "$flag" "$(bash_values "$flag" "$value")"
    done
  done
  printf '  esac\n  case "$command" in\n'
  for command in $(commands); do
    printf '    %s) words="%s" ;;\n' "$command" "$(all_flags "$command")"
  done
  printf '    %s) words="" ;;\n' "$(launcher_names | sed 's/ / | /g')"
  cat <<'END'
  esac
  case "$word" in
    -*) mapfile -t COMPREPLY < <(compgen -W "$words" -- "$word"); return ;;
  esac
  for ((i = first + 1; i < COMP_CWORD; i++)); do
    case "${COMP_WORDS[i]}" in -?*) ;; *) count=$((count + 1)) ;; esac
  done
  case "$command $count" in
END
  printf '    "rules 0")\n      words="%s"\n' "$(rules)"
  printf '      case "$word" in n*) words="${words,,}" ;; [0-9]*) words="${words//N/}" ;; esac\n'
  printf '      mapfile -t COMPREPLY < <(compgen -W "$words" -- "$word")\n      ;;\n'
  printf '    "why 2") mapfile -t COMPREPLY < <(compgen -W "%s" -- "$word") ;;\n' "$(permissions)"
  cat <<'END'
    rules* | build* | tour* | "why 0" | "why 1" | "flow 0" | "flow 1") ;;
    *) mapfile -t COMPREPLY < <(compgen -f -- "$word") ;;
  esac
}
complete -o filenames -F _gthost gthost
END
}

# A text inside single quotes of zsh, where `[`, `]` and `:` are of the language.
zsh_text() { printf '%s' "$1" | sed -e 's/[]:\\[]/\\&/g' -e "s/'/'\\\\''/g"; }

zsh_completion() {
  local command what flag value
  printf '#compdef gthost\n# Made by tools/pages.sh from the texts of --help.\n_gthost() {\n'
  printf '  local -a commands\n  commands=(\n'
  stored --help | section Commands | while read -r command what; do
    printf "    '%s:%s'\n" "$command" "$(zsh_text "$what")"
  done
  printf "  )\n  if [[ \$words[1] == */* && -e \${words[1]:h}/crates.txt ]]; then\n    commands+=(\n"
  launcher_words | while IFS=$'\x1f' read -r command what; do
    printf "      '%s:%s'\n" "$command" "$(zsh_text "$what")"
  done
  printf '    )\n  fi\n  if (( CURRENT == 2 )); then\n'
  printf "    _describe command commands\n    _arguments '(- *)--help[Print help]' '(- *)--version[Print version]'\n    return\n  fi\n"
  printf '  # A flag may come before the command.\n  if [[ $words[2] == (-v|--verbose) ]]; then\n    shift words\n    (( CURRENT-- ))\n  fi\n'
  printf '  if (( CURRENT == 2 )) || [[ $words[2] == help && CURRENT -eq 3 ]]; then\n    _describe command commands\n    return\n  fi\n'
  printf '  local command=${words[2]}\n  shift words\n  (( CURRENT-- ))\n  case $command in\n'
  for command in $(commands); do
    printf '    %s) _arguments' "$command"
    flags "$command" | while IFS=$'\x1f' read -r flag value what; do
      if [ -n "$value" ]; then
        printf " '--%s=[%s]:%s'" "$flag" "$(zsh_text "$what")" "$(zsh_values "$flag" "$value")"
      else
        if [ "$flag" = verbose ]; then printf " '-v[%s]'" "$(zsh_text "$what")"; fi
        printf " '--%s[%s]'" "$flag" "$(zsh_text "$what")"
      fi
    done
    case "$command" in
      rules) printf " '1:rule:(%s %s)' ;;\n" "$(rules)" "$(rules | tr N n)" ;;
      flow) printf " '1:source: ' '2:target: ' '3:file:_files' ;;\n" ;;
      why) printf " '1:source: ' '2:target: ' '3:permission:(%s)' '4:file:_files' ;;\n" "$(permissions)" ;;
      *) printf " '*:file:_files' ;;\n" ;;
    esac
  done
  printf '    install | library) _arguments "1:folder:_files -/" ;;\n'
  printf '  esac\n}\n_gthost "$@"\n'
}

fish_text() { printf '%s' "$1" | sed -e 's/\\/\\\\/g' -e "s/'/\\\\'/g"; }

fish_completion() {
  local command what flag value
  printf '# Completion of gthost for fish. Made by tools/pages.sh from the texts of --help.\n'
  stored --help | section Commands | while read -r command what; do
    printf "complete -c gthost -n __fish_use_subcommand -f -a %s -d '%s'\n" "$command" "$(fish_text "$what")"
  done
  printf "complete -c gthost -n __fish_use_subcommand -l help -d 'Print help'\n"
  printf "complete -c gthost -n __fish_use_subcommand -l version -d 'Print version'\n"
  for command in $(commands); do
    flags "$command" | while IFS=$'\x1f' read -r flag value what; do
      printf "complete -c gthost -n '__fish_seen_subcommand_from %s'%s -l %s%s -d '%s'\n" "$command" \
        "$([ "$flag" != verbose ] || echo ' -s v')" "$flag" \
        "${value:+$(fish_values "$flag" "$value")}" "$(fish_text "$what")"
    done
  done
  printf "complete -c gthost -n '__fish_seen_subcommand_from rules' -f -a '%s'\n" "$(rules)"
  printf "complete -c gthost -n '__fish_seen_subcommand_from why' -a '%s'\n" "$(permissions)"
  launcher_words | while IFS=$'\x1f' read -r command what; do
    printf "complete -c gthost -n '__fish_use_subcommand; and string match -q \"*/*\" -- (commandline -opc)[1]; and test -e (dirname (commandline -opc)[1])/crates.txt' -f -a %s -d '%s'\n" \
      "$command" "$(fish_text "$what")"
  done
}

# A file, and what is to stand in it.
page() {
  if [ "$check" = 1 ]; then
    "$2" | cmp -s - "$1" || { echo "$1 is not what tools/pages.sh would write" >&2; exit 1; }
  else
    mkdir -p "$(dirname "$1")"
    "$2" >"$1"
  fi
}

check=0
if [ "${1-}" = --check ]; then check=1; fi
page gthost.1 man
page contrib/completions/gthost.bash bash_completion
page contrib/completions/_gthost zsh_completion
page contrib/completions/gthost.fish fish_completion
