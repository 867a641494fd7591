# Completion of picky in bash: the commands, their options, the values that stand in a table, and files.

_picky() {
  local commands="convert passphrase comment show inventory certify ledger authorize"
  local opening="--passphrase-file --passphrase-fd" new="--new-passphrase-file --new-passphrase-fd --no-passphrase"
  local sealing="--rounds --argon2 --memory --passes --lanes"
  local current=${COMP_WORDS[COMP_CWORD]} before=${COMP_WORDS[COMP_CWORD - 1]} offered=""

  if ((COMP_CWORD == 1)); then
    offered=$commands
    [[ $current == -* ]] && offered="--help --version"
    mapfile -t COMPREPLY < <(compgen -W "$offered" -- "$current")
    return
  fi
  case $before in
    --to) offered="ppk3 ppk2 openssh public putty-public pkcs8" ;;
    --line-ends) offered="lf crlf" ;;
    --argon2) offered="d i id" ;;
    --critical) offered="force-command= source-address= verify-required" ;;
    --extension)
      offered="permit-X11-forwarding permit-agent-forwarding permit-port-forwarding permit-pty permit-user-rc
        no-touch-required"
      ;;
    *)
      [[ $current == -* ]] || return
      case ${COMP_WORDS[1]} in
        convert) offered="--to -o --into --force --line-ends $opening --new-passphrase $new" ;;
        passphrase) offered="$opening $new $sealing" ;;
        comment) offered="$opening $sealing" ;;
        show) offered="--json" ;;
        inventory) offered="--merge --json --csv --places -o --html --since --force" ;;
        certify)
          offered="--issuer --id --for --host --before --after --serial --critical --extension -o --force $opening"
          ;;
        ledger) offered="--issuer --new --get $opening" ;;
        authorize) offered="--keys" ;;
      esac
      offered+=" --help"
      ;;
  esac
  mapfile -t COMPREPLY < <(compgen -W "$offered" -- "$current")
  [[ ${COMPREPLY[0]-} != *= ]] || compopt -o nospace 2>/dev/null
}

# Where nothing is offered, files are.
complete -o default -F _picky picky
