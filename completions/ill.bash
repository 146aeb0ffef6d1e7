# Completion of ill(1) in bash: commands, options, roles, files, their loans, and the first words of actions.
# Written by tools/ill/texts/words.py: change the text there, and run `make words`.

# A word of the line as a command sees it: without quotes and backslashes, and with the home folder for `~/`.
_ill_text() {
  local word=$1 text= quote= at char
  case $word in '~/'*) text=$HOME word=${word#'~'} ;; esac
  for ((at = 0; at < ${#word}; at++)); do
    char=${word:at:1}
    case $quote$char in
      '\' | '"\') ((at++)); text+=${word:at:1} ;;
      \' | \") quote=$char ;;
      \'\' | \"\") quote= ;;
      *) text+=$char ;;
    esac
  done
  printf '%s\n' "$text"
}

# What `ill status` tells of the loans in a file, or of a shelf.
_ill_status() { ill ${shelf:+shelf} status -- "$(_ill_text "$1")" 2> /dev/null; }

# The first words of the role of a file or a shelf; of both roles if it has no loan.
_ill_words() {
  local requester='request cancel reply receive renew return'
  local responder='answer cancel-reply ship renew-answer overdue recall check-in expire'
  case $(_ill_status "$1" | grep -m 1 '^role ') in
    'role requester') echo "$requester" ;;
    'role responder') echo "$responder" ;;
    *) echo "$requester $responder" ;;
  esac
}

# The groups of the loans in a file; after a group, its transactions.
_ill_loans() {
  local line group=
  while IFS= read -r line; do
    case $#-$line in
      1-group\ *) printf '%s\n' "${line#group }" ;;
      2-group\ *) group=${line#group } ;;
      2-transaction\ *) [ "$group" != "$(_ill_text "$2")" ] || printf '%s\n' "${line#transaction }" ;;
    esac
  done < <(_ill_status "$1") | sort -u
}

# Offers those that begin with the word at the cursor, with backslashes if that word is in no quotes.
_ill_offer_loans() {
  local loan word=${COMP_WORDS[COMP_CWORD]}
  while IFS= read -r loan; do
    case $loan in "$(_ill_text "$word")"*) ;; *) continue ;; esac
    case $word in [\"\']*) ;; *) loan=$(printf %q "$loan") ;; esac
    COMPREPLY+=("$loan")
  done < <(_ill_loans "$@")
}

# Sets `parts` to the kinds of the arguments of a command, and `options` to its options.
_ill_parts() {
  case $1 in
    '') parts=(command) options='--explain --help --version' ;;
    help) parts=(command) options='' ;;
    new) parts=(file role) options='--explain --help' ;;
    act) parts=(file loan loan words) options='--today --by --seen --dry-run --long --explain --help' ;;
    list) parts=(files) options='--open --mine --today --ahead --due-before --state --find --since --actions --notes --since-when --json --explain --help' ;;
    news) parts=(files) options='--since --last --json --explain --help' ;;
    loan) parts=(file loan loan) options='--picture --json --explain --help' ;;
    note) parts=(file loan loan none) options='--explain --help' ;;
    slip) parts=(file loan loan) options='--explain --help' ;;
    status) parts=(file) options='--json --explain --help' ;;
    report) parts=(files) options='--today --since --explain --help' ;;
    figures) parts=(files) options='--from --to --csv --explain --help' ;;
    take) parts=(file) options='--long --keep --today --by --key --explain --help' ;;
    send) parts=(file loan loan none) options='--key --explain --help' ;;
    inbox) parts=(file folder) options='--today --by --key --explain --help' ;;
    outbox) parts=(file folder) options='--stream --key --explain --help' ;;
    exchange) parts=(file folder folder) options='--today --by --overdue --expire --copy --beat --key --json --explain --help' ;;
    key) parts=(file) options='--show --read --explain --help' ;;
    verify) parts=(file) options='--json --explain --help' ;;
    show) parts=() options='--json --explain --help' ;;
    check) parts=() options='--explain --help' ;;
    simulate) parts=(none none) options='--explain --help' ;;
    simulate-desks) parts=() options='--explain --help' ;;
    shelf-) parts=(shelf-command) options='--explain --help' ;;
    shelf-help) parts=(shelf-command) options='' ;;
    shelf-new) parts=(folder role) options='--explain --help' ;;
    shelf-act) parts=(folder loan loan words) options='--today --by --seen --dry-run --long --new-group --explain --help' ;;
    shelf-loan) parts=(folder loan loan) options='--picture --json --explain --help' ;;
    shelf-note) parts=(folder loan loan none) options='--explain --help' ;;
    shelf-slip) parts=(folder loan loan) options='--explain --help' ;;
    shelf-status) parts=(folder) options='--json --explain --help' ;;
    shelf-take) parts=(folder) options='--long --keep --today --by --key --explain --help' ;;
    shelf-send) parts=(folder loan loan none) options='--key --explain --help' ;;
    shelf-inbox) parts=(folder folder) options='--today --by --key --explain --help' ;;
    shelf-outbox) parts=(folder folder) options='--stream --key --explain --help' ;;
    shelf-exchange) parts=(folder folder folder) options='--today --by --overdue --expire --copy --beat --key --json --explain --help' ;;
    shelf-retire) parts=(folder loan) options='--explain --help' ;;
  esac
}

# Sets `arguments` to those that stand between the command and the cursor, options left out, and `wanted` to
# the kind of what may come next: `any` (an option too), `argument` (no option any more), `day`, `count`, `text`,
# `state` or `file` (the value of an option).
_ill_read() {
  local at word
  for ((at = 2; at < COMP_CWORD; at++)); do
    word=${COMP_WORDS[at]}
    case $wanted-$word in
      day-= | count-= | text-= | state-= | file-=) ;;     # bash takes --today=DAY for three words
      day-* | count-* | text-* | state-* | file-*) wanted=any ;;
      any---) wanted=argument ;;
      any---today | any---due-before | any---since | any---from | any---to) wanted=day ;;
      any---by | any---seen | any---find) wanted=text ;;
      any---ahead | any---last) wanted=count ;;
      any---state) wanted=state ;;
      any---key | any---copy | any---beat) wanted=file ;;
      any--*) ;;
      *)
        if [ "${parts[${#arguments[@]}]}" = words ]; then wanted=argument; fi
        arguments+=("$word") ;;
    esac
  done
}

# Takes a word away that may stand before the command, and says if it was there.
_ill_skip() {
  [ "${COMP_WORDS[1]}" = "$1" ] && [ "$COMP_CWORD" -gt 1 ] || return 1
  COMP_WORDS=("${COMP_WORDS[0]}" "${COMP_WORDS[@]:2}")
  ((COMP_CWORD--))
  return 0
}

_ill() {
  local shelf= command= kind offered= wanted=any parts=() options= arguments=()
  _ill_skip --explain
  if _ill_skip shelf; then shelf=shelf-; fi
  _ill_skip --explain
  local word=${COMP_WORDS[COMP_CWORD]}
  COMPREPLY=()
  if [ "$COMP_CWORD" -gt 1 ]; then command=${COMP_WORDS[1]}; fi
  _ill_parts "$shelf$command"
  _ill_read
  kind=$wanted
  case $wanted-${parts[0]}-$word in
    any-*--*) kind=option ;;
    any-files-* | argument-files-*) kind=file ;;
    any-* | argument-*) kind=${parts[${#arguments[@]}]} ;;
  esac
  case $kind in
    option) offered=$options ;;
    state) offered='IDLE PENDING IN-PROCESS CONDITIONAL CANCEL-PENDING CANCELLED NOT-SUPPLIED SHIPPED RECEIVED
      RENEW/PENDING OVERDUE RENEW/OVERDUE NOT-RECEIVED/OVERDUE RECALL RETURNED CHECKED-IN' ;;
    role) offered='requester responder' ;;
    command) offered='new act list news loan note slip status report figures take send inbox outbox exchange key
      verify show check simulate simulate-desks shelf help' ;;
    shelf-command) offered='new act loan note slip status take send inbox outbox exchange retire help' ;;
    words) offered=$(_ill_words "${arguments[0]}") ;;
    loan)
      _ill_offer_loans "${arguments[@]}"
      return ;;
    file | folder)
      compopt -o filenames 2> /dev/null
      mapfile -t COMPREPLY < <(if [ "$kind" = file ]; then compgen -f -- "$word"; else compgen -d -- "$word"; fi)
      return ;;
  esac
  COMPREPLY=($(compgen -W "$offered" -- "$word"))
}

complete -F _ill ill
