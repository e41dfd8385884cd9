# completions of ramseg for bash; made by scripts/check/completions
_ramseg_words=$(cd "$(dirname "${BASH_SOURCE[0]}")" && pwd)
_ramseg() {
  local word=${COMP_WORDS[COMP_CWORD]} last=${COMP_WORDS[COMP_CWORD - 1]} command= words= i
  for ((i = 1; i < COMP_CWORD; i++)); do
    case ${COMP_WORDS[i]} in
      --without) i=$((i + 1)) ;;
      -*) ;;
      *) command=${COMP_WORDS[i]} && break ;;
    esac
  done
  case $command in
    '') words="run trace audit log picture fuzz stops threads explore shrink heal explain history check test script page --without --prove --help --version" ;;
    run) words="--format --heap --help --output --expect" ;;
    trace) words="--help --output" ;;
    audit) words="--format --help --output" ;;
    log) words="--json --whole --help --output" ;;
    picture) words="--mermaid --help --output" ;;
    fuzz) words="--format --seed --steps --free --help" ;;
    stops) words="--format --seed --steps --hosts --factor --segment --free --explored --help" ;;
    threads) words="--hosts --writes --help" ;;
    explore) words="--format --seed --steps --hosts --factor --segment --free --save --seeds --progress --until --help" ;;
    shrink) words="--keep --help --output" ;;
    heal) words="--power-cycle --help --output" ;;
    explain) words="--format --help" ;;
    history) words="--help --output" ;;
    check) words="--help --output" ;;
  esac
  [ "$last" != --without ] || words=$(cat "$_ramseg_words/rules")
  [ "$command" != explain ] || words="$words $(sh "$_ramseg_words/words")"
  mapfile -t COMPREPLY < <(compgen -W "$words" -- "$word")
  case $command in
    run|trace|audit|log|picture|shrink|heal|history|check|test|script)
      [[ $word = -* ]] || mapfile -t -O "${#COMPREPLY[@]}" COMPREPLY < <(compgen -f -- "$word")
      ;;
  esac
}
complete -o filenames -F _ramseg ramseg ./ramseg
