# Completion of monk's words in bash; dist/check compares it with the program's help.
_monk() {
  local kinds='PB NPB PNB NPNB PQB NPQB PIR NPIR PIS NPIS' samples='buffer book shop'
  local commands='classify audit play upgrade fit trace explain draw page complete run record hasty help'
  local word=${COMP_WORDS[COMP_CWORD]} last=${COMP_WORDS[COMP_CWORD - 1]} command=${COMP_WORDS[1]-} options=''
  COMPREPLY=()
  if [ "$COMP_CWORD" -eq 1 ]; then
    mapfile -t COMPREPLY < <(compgen -W "$commands --help --version" -- "$word")
    return
  fi
  case $last in
    --kind) mapfile -t COMPREPLY < <(compgen -W "$kinds" -- "$word"); return ;;
    --from | --to | --means | --width) return ;;
  esac
  case $command in
    fit) options='--kind --means --json' ;;
    explain) options='--kind --means' ;;
    draw) options='--from --to --text --width --ascii' ;;
    page) options='--from --to' ;;
    complete) options='--kind' ;;
    help) options=$commands ;;
  esac
  case $command:$COMP_CWORD in
    run:2 | record:2 | hasty:2) options+=" $kinds" ;;
    run:3 | record:3) options+=" $samples" ;;
    classify:* | run:* | record:* | hasty:[34] | help:*) ;;
    *) if [[ $word != -* ]]; then
      mapfile -t COMPREPLY < <(compgen -f -- "$word")
      return
    fi ;;
  esac
  mapfile -t COMPREPLY < <(compgen -W "$options --help" -- "$word")
}
complete -o filenames -F _monk monk
