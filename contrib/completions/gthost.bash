# Completion of gthost for bash. Made by tools/pages.sh from the texts of --help.
_gthost() {
  local word="${COMP_WORDS[COMP_CWORD]}" before="${COMP_WORDS[COMP_CWORD - 1]}" words="" count=0 first=1 command i
  # `=` is a word by itself.
  if [ "$word" = = ]; then
    word=""
  elif [ "$before" = = ]; then
    before="${COMP_WORDS[COMP_CWORD - 2]}"
  fi
  # A flag may come before the command.
  if [ "$COMP_CWORD" -gt 1 ]; then case "${COMP_WORDS[1]}" in -v | --verbose) first=2 ;; esac; fi
  command="${COMP_WORDS[first]}"
  if [ "$COMP_CWORD" -eq "$first" ] || [ "$command $COMP_CWORD" = "help $((first + 1))" ]; then
    words="play run explore policy rules check why flow entries"
    if [ "$COMP_CWORD" -eq "$first" ]; then words="$words help"; fi
    if [ "$COMP_CWORD" -eq 1 ]; then words="$words --help --version"; fi
    if [[ $1 == */* && -e ${1%/*}/crates.txt ]]; then words="$words build tour install library"; fi
    mapfile -t COMPREPLY < <(compgen -W "$words" -- "$word")
    return
  fi
  case "$command $before" in
    -* | help*) return ;;
    "play --format") mapfile -t COMPREPLY < <(compgen -W "text json" -- "$word"); return ;;
    "run --format") mapfile -t COMPREPLY < <(compgen -W "text json" -- "$word"); return ;;
    "explore --find") mapfile -t COMPREPLY < <(compgen -W "N1 N2 N3 N4 N5 N6 N7 N8 N9 N10 N11 N12 N13 N14 N15 N16 N17 N18 N19 N20 N21 N22 N23 N24 N25 N26" -- "$word"); return ;;
    "explore --never") mapfile -t COMPREPLY < <(compgen -W "" -- "$word"); return ;;
    "explore --always") mapfile -t COMPREPLY < <(compgen -W "" -- "$word"); return ;;
    "explore --claims") mapfile -t COMPREPLY < <(compgen -W "" -- "$word"); return ;;
    "explore --has") mapfile -t COMPREPLY < <(compgen -f -- "$word"); return ;;
    "explore --witness") mapfile -t COMPREPLY < <(compgen -W "all" -- "$word"); return ;;
    "explore --trace") mapfile -t COMPREPLY < <(compgen -W "" -- "$word"); return ;;
    "explore --diff") mapfile -t COMPREPLY < <(compgen -W "" -- "$word"); return ;;
    "explore --never-state") mapfile -t COMPREPLY < <(compgen -W "" -- "$word"); return ;;
    "explore --states") mapfile -t COMPREPLY < <(compgen -W "" -- "$word"); return ;;
    "explore --format") mapfile -t COMPREPLY < <(compgen -W "text json mermaid" -- "$word"); return ;;
    "policy --format") mapfile -t COMPREPLY < <(compgen -W "text json" -- "$word"); return ;;
    "check --never") mapfile -t COMPREPLY < <(compgen -f -- "$word"); return ;;
    "check --format") mapfile -t COMPREPLY < <(compgen -W "text json" -- "$word"); return ;;
    "flow --trust") mapfile -t COMPREPLY < <(compgen -W "" -- "$word"); return ;;
    "flow --format") mapfile -t COMPREPLY < <(compgen -W "text json" -- "$word"); return ;;
    "entries --version") mapfile -t COMPREPLY < <(compgen -W "1 2" -- "$word"); return ;;
    "entries --script") mapfile -t COMPREPLY < <(compgen -W "" -- "$word"); return ;;
    "entries --format") mapfile -t COMPREPLY < <(compgen -W "text json" -- "$word"); return ;;
  esac
  case "$command" in
    play) words="--audit --verbose -v --format --help" ;;
    run) words="--audit --verbose -v --format --help" ;;
    explore) words="--verbose -v --find --never --always --claims --has --witness --trace --summary --diff --never-state --races --states --format --help" ;;
    policy) words="--verbose -v --format --help" ;;
    rules) words="--verbose -v --help" ;;
    check) words="--script --verbose -v --never --format --help" ;;
    why) words="--each --verbose -v --help" ;;
    flow) words="--script --verbose -v --trust --format --help" ;;
    entries) words="--hex --all --verbose -v --version --script --format --help" ;;
    build | tour | install | library) words="" ;;
  esac
  case "$word" in
    -*) mapfile -t COMPREPLY < <(compgen -W "$words" -- "$word"); return ;;
  esac
  for ((i = first + 1; i < COMP_CWORD; i++)); do
    case "${COMP_WORDS[i]}" in -?*) ;; *) count=$((count + 1)) ;; esac
  done
  case "$command $count" in
    "rules 0")
      words="N1 N2 N3 N4 N5 N6 N7 N8 N9 N10 N11 N12 N13 N14 N15 N16 N17 N18 N19 N20 N21 N22 N23 N24 N25 N26"
      case "$word" in n*) words="${words,,}" ;; [0-9]*) words="${words//N/}" ;; esac
      mapfile -t COMPREPLY < <(compgen -W "$words" -- "$word")
      ;;
    "why 2") mapfile -t COMPREPLY < <(compgen -W "map_read map_write unmap transfer setup copy query" -- "$word") ;;
    rules* | build* | tour* | "why 0" | "why 1" | "flow 0" | "flow 1") ;;
    *) mapfile -t COMPREPLY < <(compgen -f -- "$word") ;;
  esac
}
complete -o filenames -F _gthost gthost
