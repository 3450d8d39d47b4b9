# offered.zsh FOLDER LINE, run by zsh: what a zsh with the completions of FOLDER offers behind LINE, one a line.
# It is asked as a user asks, by a tab, at a terminal of its own. (`compadd` with -O, -A or -D offers nothing, but fills a list.)
zmodload zsh/zpty
zpty asked zsh -f -i
zpty -w asked "PROMPT= RPROMPT= fpath=(${(q)1} \$fpath); autoload -Uz compinit; compinit -u -D"
zpty -w asked '
compadd() {
    local -a found
    if [[ ${@[1,(i)(-|--)]} != *-(O|A|D)* ]]; then
        builtin compadd -A found "$@"
        print -rl -- offered:${^found}
    fi
    builtin compadd "$@"
}
told() { print -r "offered." }
comppostfuncs=(told)
bindkey "^I" complete-word
print -r "ready""."'
zpty -r asked answer '*ready.'
zpty -w -n asked "$2"$'\t'
zpty -r asked answer '*offered.'
print -r -- $answer | tr -d '\r' | sed -n 's/.*offered://p'
zpty -d asked
