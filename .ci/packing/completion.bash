# Completion of vaultdesk in bash: its commands, their options, manifests, and the names that the mapping.toml of this folder
# declares.

# Prints a line for each name, with what it completes before it: hub NAME, path NAME, table NAME, mart WORD.
# It reads the mapping a token at a time, and passes over what it does not know; vaultdesk itself says what is wrong.
_vaultdesk_names() {
  [ -f mapping.toml ] && [ -r mapping.toml ] && awk '
    function entry_ends() {
      if (name ~ /^[a-z0-9_]+$/) {
        if (kind == "hub") print "hub " name "\nmart hub:" name "\ntable hub_" name
        if (kind == "link") print "table link_" name
        if (kind == "path") print "path " name "\nmart path:" name
        if (kind == "feed") {
          print "mart feed:" name "\ntable status_" name
          if ("sub" in has) print "table msat_" name; else if ("attrs" in has) print "table sat_" name
          if ("driver" in has) print "mart period:" name "\ntable eff_" name
        }
      }
      name = key = ""
      split("", has)
    }
    BEGIN { key_may_come = 1 }
    {
      text = $0
      while (text != "" && text !~ /^[ \t\r]*(#|$)/) {
        sub(/^[ \t\r]+/, "", text)
        if (depth == 0 && key_may_come && match(text, /^\[\[?[^]]*\]?\]/)) {
          entry_ends()
          kind = substr(text, 1, RLENGTH)
          gsub(/[^a-z]/, "", kind)
          is_table = 1
          text = substr(text, RLENGTH + 1)
          continue
        }
        is_word = match(text, /^"([^"\\]|\\.)*"/) || match(text, /^\047[^\047]*\047/) || match(text, /^[A-Za-z0-9_.:+-]+/)
        if (!is_word) RLENGTH = 1
        token = substr(text, 1, RLENGTH)
        text = substr(text, RLENGTH + 1)
        if (is_word) {
          gsub(/^["\047]|["\047]$/, "", token)
          if (text ~ /^[ \t]*=/) {
            sub(/^[ \t]*=/, "", text)
            key = token
            key_may_come = 0
            if (depth == 0 && !is_table) kind = key
          } else {
            if (key == "name") name = token
            has[key]
            if (depth == 0) key_may_come = 1
          }
        } else if (token == "{" || token == "[") {
          depth++
        } else if (token == "}" || token == "]") {
          if (token == "}") entry_ends()
          if (--depth == 0) key_may_come = 1
        }
      }
    }
    END {
      entry_ends()
    }' mapping.toml
}

# The words behind the first of the names' lines that begin with one of the given words.
_vaultdesk_named() {
  local wanted=" $* " what name
  while read -r what name; do
    [[ $wanted != *" $what "* ]] || printf '%s\n' "$name"
  done < <(_vaultdesk_names)
}

# What the word at a place may be, where it is no file.
_vaultdesk_words() {
  local at=$1 command=$2
  case $at:$command in
    1:*) printf '%s\n' init load resume windows mart table snapshot pit bridge serve try exercise ;;
    2:mart) _vaultdesk_named mart ;;
    2:table) _vaultdesk_named table ;;
    2:pit) _vaultdesk_named hub ;;
    2:bridge) _vaultdesk_named path ;;
    2:try)
      _vaultdesk_named mart
      _vaultdesk_named table | sed 's/^/table:/'
      _vaultdesk_named hub | sed 's/^/pit:/'
      _vaultdesk_named path | sed 's/^/bridge:/'
      ;;
  esac
}

# What a word may be that is an option, or the value of the one before it.
_vaultdesk_options() {
  local before=$1 current=$2 command=$3 names=
  case $command in
    try | load | exercise) names='--workers --order' ;;
    serve) names='--workers' ;;
  esac
  case $before:$current in
    --workers:*) ;;
    --order:*) printf '%s\n' declared reverse ;;
    :--order=*) printf '%s\n' --order=declared --order=reverse ;;
    *) [ -z "$names" ] || printf '%s\n' $names ;;
  esac
}

_vaultdesk() {
  # Blanks part the words here; bash would also part them at a colon and at an equals sign.
  local line=${COMP_LINE:0:COMP_POINT} words current command word before= are_plain= at=0 front sign
  read -ra words <<<"$line"
  [[ $line != *[[:blank:]] ]] || words+=("")
  current=${words[-1]} command=${words[1]:-}
  # Options and their values count for no place, and behind -- there are none.
  for word in "${words[@]:0:${#words[@]}-1}"; do
    case $are_plain:$before:$word in
      :*:--) are_plain=1 before= ;;
      ::--workers | ::--order) before=$word ;;
      ::-*) ;;
      :-*) before= ;;
      *) ((at += 1)) ;;
    esac
  done
  case $before$are_plain$current:$at:$command in
    -*) mapfile -t COMPREPLY < <(compgen -W "$(_vaultdesk_options "$before" "$current" "$command")" -- "$current") ;;
    *:[2-9]:load | *:[1-9][0-9]*:load | *:[4-9]:try | *:[1-9][0-9]*:try)
      compopt -o filenames 2>/dev/null
      mapfile -t COMPREPLY < <(compgen -d -- "$current"; compgen -f -X '!*.toml' -- "$current")
      return
      ;;
    *) mapfile -t COMPREPLY < <(compgen -W "$(_vaultdesk_words "$at" "$command")" -- "$current") ;;
  esac
  # What stands before the last of these signs is on the line already, and bash replaces only what is behind it.
  for sign in : =; do
    if [[ $current == *$sign* && $COMP_WORDBREAKS == *$sign* ]]; then
      front=${current%"${current##*$sign}"}
      COMPREPLY=("${COMPREPLY[@]#"$front"}")
    fi
  done
}

complete -F _vaultdesk vaultdesk
