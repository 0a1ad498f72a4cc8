# The manual page and the completions come out whole, into a pipe as into a file.
source "$(dirname "$0")/parts.bash"
# prints WORD TEXT ARGUMENT..
prints() {
    local first=$1 text=$2
    shift 2
    "$program" "$@" > page || fail "$*: status $?"
    "$program" "$@" | cat > piped
    [ "${PIPESTATUS[0]}" = 0 ] || fail "$*: not 0 into a pipe"
    cmp -s page piped || fail "$*: another page in a pipe"
    [[ $(head -n 1 page) == "$first"* ]] || fail "$* begins: $(head -n 1 page)"
    grep -qF -- "$text" page || fail "$* has no $text"
}
prints ".TH LANDMAP 1" "stdin" man
for shell in bash zsh fish; do
    prints "" "until-stdin-ends" completions "$shell"
done
bash -n <("$program" completions bash) || fail "bash does not read its completions"
