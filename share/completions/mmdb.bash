# shellcheck shell=bash disable=SC2034
# Completions of the program mmdb for bash.

# The commands; the options of a command, those that have a value, and how many of its arguments are files; and the values
# of its option $2.
_mmdb_table() {
# Made by scripts/completions.
  commands='show info enrich export diff verify install build help'
  case $1 in
    show) options='--field --lines --help -h' valued='--field' files=1 ;;
    info) options='--json --fields --help -h' valued='' files=9 ;;
    enrich) options='--column --delimiter --field --network --header --json --into --nulls --hop --anywhere --exact --no-quotes --strict --quiet --reload --output --help -h' valued='--column --delimiter --field --json --into --hop --output' files=9 ;;
    export) options='--field --format --where --where-not --where-contains --where-has --where-above --where-below --also --except --ipv4 --ipv6 --name --table --family --jump --value --allow-empty --allow-missing --output --help -h' valued='--field --format --where --where-not --where-contains --where-has --where-above --where-below --also --except --name --table --family --jump --value --output' files=1 ;;
    diff) options='--field --format --where --where-not --where-contains --where-has --where-above --where-below --also --except --ipv4 --ipv6 --name --table --family --allow-empty --allow-missing --exit-code --output --help -h' valued='--field --format --where --where-not --where-contains --where-has --where-above --where-below --also --except --name --table --family --output' files=2 ;;
    verify) options='--whole --database-type --newer-than --max-age --json --quiet --help -h' valued='--database-type --newer-than --max-age' files=9 ;;
    install) options='--max-change --database-type --allow-older --allow-broken --dry-run --quiet --help -h' valued='--max-change --database-type' files=2 ;;
    build) options='--from --format --network-column --range-columns --type --types-like --equal --database-type --description --language --build-epoch --ip-version --record-size --reserved --skip-bad --check --help -h' valued='--from --format --network-column --range-columns --type --types-like --equal --database-type --description --language --build-epoch --ip-version --record-size --reserved' files=1 ;;
    help) options='' valued='' files=0 ;;
  esac
  case $1$2 in
    enrich--hop) values='first last' ;;
    enrich--output) values='FILES' ;;
    export--format) values='jsonl csv cidr nft ipset iptables nginx haproxy pf' ;;
    export--also) values='FILES' ;;
    export--except) values='FILES' ;;
    export--family) values='inet ip ip6 bridge netdev' ;;
    export--output) values='FILES' ;;
    diff--format) values='jsonl csv cidr nft ipset' ;;
    diff--also) values='FILES' ;;
    diff--except) values='FILES' ;;
    diff--family) values='inet ip ip6 bridge netdev' ;;
    diff--output) values='FILES' ;;
    verify--newer-than) values='FILES' ;;
    build--from) values='FILES' ;;
    build--format) values='jsonl csv tsv' ;;
    build--types-like) values='FILES' ;;
    build--equal) values='last error' ;;
    build--ip-version) values='6 4' ;;
    build--record-size) values='24 28 32' ;;
    build--reserved) values='keep skip error' ;;
  esac
# Made so far.
}

# Files complete as the shell itself completes them.
_mmdb_files() {
  compopt -o default 2>/dev/null || :
}

# Offers those of the given words that go on with what is typed.
_mmdb_offer() {
  mapfile -t COMPREPLY < <(compgen -W "$1" -- "$typed")
}

_mmdb() {
  local typed=${COMP_WORDS[COMP_CWORD]} before=${COMP_WORDS[COMP_CWORD - 1]} command=${COMP_WORDS[1]-}
  local commands options='' valued files values='' word at arguments=0 ended=''
  COMPREPLY=()
  # A redirection is followed by a file.
  if [[ $before == *[\<\>] || $typed == *[\<\>] ]]; then
    _mmdb_files
    return
  fi
  _mmdb_table "$command" ''
  if [ "$COMP_CWORD" -eq 1 ]; then
    _mmdb_offer "$commands --help --version -h -V"
    return
  fi
  if [ "$command" = help ]; then
    [ "$COMP_CWORD" -ne 2 ] || _mmdb_offer "$commands"
    return
  fi
  [ -n "$options" ] || return
  # How many arguments stand before what is typed. An option's value is none, nor is the file of a redirection. Bash
  # splits --path=VALUE in three words.
  for ((at = 2; at < COMP_CWORD; at++)); do
    word=${COMP_WORDS[at]}
    case $ended$word in
      --) ended=ended ;;
      *[\<\>]) at=$((at + 1)) ;;
      -*)
        if [[ " $valued " == *" $word "* ]]; then
          at=$((at + 1))
          [ "${COMP_WORDS[at]-}" != = ] || at=$((at + 1))
        fi
        ;;
      *) arguments=$((arguments + 1)) ;;
    esac
  done
  # The value of an option.
  [ "$before" != = ] || before=${COMP_WORDS[COMP_CWORD - 2]}
  if [ "$typed" = = ]; then typed=''; fi
  if [[ -z $ended && " $valued " == *" $before "* ]]; then
    _mmdb_table "$command" "$before"
    if [ "$values" = FILES ]; then _mmdb_files; else _mmdb_offer "$values"; fi
    return
  fi
  case $ended$typed in
    -*) _mmdb_offer "$options" ;;
    *) [ "$arguments" -ge "$files" ] || _mmdb_files ;;
  esac
}

complete -F _mmdb mmdb
