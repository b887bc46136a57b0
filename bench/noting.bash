# Sourced by scripts of bench: where the script was given --write, `note NAME UNIT BESIDE VALUE..` puts what it measured into
# bench/measured.txt.
case " $* " in *" --write "*) writes=1 ;; *) writes= ;; esac
note() {
  [ -z "$writes" ] || bench/record "$@"
}
