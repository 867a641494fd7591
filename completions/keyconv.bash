# Completion of keyconv in bash: the commands; behind cert and tbs their options, and the values that stand in a table.
# Types that keyconv refuses (DSS, NIST P-521) aren't offered.

_keyconv() {
  local commands="openssh ppk2 ppk3 ssh-pub putty-pub cert tbs fingerprint sample"
  local once="--type --kind --after --before --serial --id --algorithm"
  local again="--principal --critical --extension"
  local IFS=$' \t\n' pieces=() words=() given="" offered="" line=$COMP_LINE signs='^[<>&|]+$' word="" before i

  # bash cuts words at = and @ too: what no blank stands before goes on with the word before it. Signs of redirections
  # are words.
  for ((i = 0; i <= COMP_CWORD; i++)); do
    before=$word word=${COMP_WORDS[i]}
    if [[ $i -gt 0 && -n $word && $line == "$word"* && ! $word =~ $signs && ! $before =~ $signs ]]; then
      pieces[-1]+=$word
    else
      pieces+=("$word")
    fi
    line=${line#*"$word"}
  done
  local current=${pieces[-1]}

  # The program's words are those between its name and the current one, but for redirections and their files.
  for ((i = 1; i < ${#pieces[@]} - 1; i++)); do
    if [[ ! ${pieces[i]} =~ $signs ]]; then
      words+=("${pieces[i]}")
    elif ((i < ${#pieces[@]} - 2)); then
      ((i += 1))
    else
      compopt -o filenames 2>/dev/null
      mapfile -t COMPREPLY < <(compgen -f -- "$current")
      return
    fi
  done

  if ((${#words[@]} == 0)); then
    offered=$commands
    [[ $current == -* ]] && offered="--help --version"
  elif [[ ${words[0]} == cert || ${words[0]} == tbs ]]; then
    if ((${#words[@]} % 2)); then
      for ((i = 1; i < ${#words[@]}; i += 2)); do given+=" ${words[i]} "; done
      offered=$again
      for word in $once; do [[ $given == *" $word "* ]] || offered+=" $word"; done
    else
      case ${words[-1]} in
        --type)
          offered="ssh-rsa-cert-v01@openssh.com rsa-sha2-256-cert-v01@openssh.com rsa-sha2-512-cert-v01@openssh.com
            ecdsa-sha2-nistp256-cert-v01@openssh.com ecdsa-sha2-nistp384-cert-v01@openssh.com
            ssh-ed25519-cert-v01@openssh.com
            sk-ecdsa-sha2-nistp256-cert-v01@openssh.com sk-ssh-ed25519-cert-v01@openssh.com"
          ;;
        --kind) offered="client host" ;;
        --algorithm)
          offered="rsa-sha1 rsa-sha2-256 rsa-sha2-512 ecdsa-sha2-256 ecdsa-sha2-384 ecdsa-sha2-512 ed25519"
          ;;
        --critical) offered="force-command= source-address= verify-required" ;;
        --extension)
          offered="permit-X11-forwarding permit-agent-forwarding permit-port-forwarding permit-pty permit-user-rc
            no-touch-required"
          ;;
      esac
    fi
  fi

  # Of a word with = or @ in it bash replaces what follows the =, or the @ and what follows it.
  local front=""
  [[ $current == *=* && $COMP_WORDBREAKS == *=* ]] && front=${current%"${current##*=}"}
  [[ $current == *@* && $COMP_WORDBREAKS == *@* ]] && front=${current%@*}
  mapfile -t COMPREPLY < <(compgen -W "$offered" -- "$current")
  COMPREPLY=("${COMPREPLY[@]#"$front"}")
  case ${COMPREPLY[0]-} in
    "") COMPREPLY=() ;;
    *=) compopt -o nospace 2>/dev/null ;;
  esac

  # A list that is shown alone (type ?) goes into no line, so it has room for a word more.
  if ((${COMP_TYPE:-0} == 63 && ${#words[@]} == 0)); then
    for i in "${!COMPREPLY[@]}"; do
      [[ ${COMPREPLY[i]} == ppk[23] ]] && COMPREPLY[i]+=" (Ed25519: | puttyppk)"
    done
  fi
  return 0
}

complete -F _keyconv keyconv
