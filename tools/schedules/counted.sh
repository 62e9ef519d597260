# For the scripts that the gate counts: one line for each thing that is tried, 'KIND k of N: NAME: as expected (seconds)' or
# 'KIND k of N: NAME: FAILED: what is wrong (seconds)'. How many failed stands in $failed.
failed=0 number=0
tried() { # KIND N NAME COMMAND...: the command says what is wrong, and nothing where all is right
  local kind=$1 total=$2 name=$3 began fault took
  number=$((number + 1)) began=$(date +%s.%N)
  fault=$("${@:4}") || fault=${fault:-"it could not be tried"}
  took=$(awk -v a="$began" -v b="$(date +%s.%N)" 'BEGIN { printf "%.1f", b - a }')
  if [ -z "$fault" ]; then
    echo "$kind $number of $total: $name: as expected ($took s)"
  else
    echo "$kind $number of $total: $name: FAILED: $fault ($took s)"
    failed=$((failed + 1))
  fi
}
unlike() { # INPUT WANTED PROGRAM...: what is wrong with what the program prints, which is kept in the file $printed
  local fault
  if ! timeout 60 "${@:3}" <"$1" >"$printed"; then
    echo "the program ended with a fault, or was not done in 60 s"
  elif ! fault=$(cmp "$printed" "$2" 2>&1); then
    echo "what it prints is not $2: ${fault#*: }"
  fi
}
printed=$(mktemp)
trap 'rm -f "$printed"' EXIT
