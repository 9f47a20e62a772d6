# Types words and a tab into a zsh of its own, whose completions are those of the folder given, and sees what its line editor makes of them.
# Nothing is typed before the editor has said that it edits: until then the terminal would take a tab for a character.
zmodload zsh/zpty
zpty shell zsh -f -i
zpty -w shell "PS1= ; fpath=(${(q)1} \$fpath); autoload -Uz compinit; compinit -u -D"
zpty -w shell 'tell() { print -rn -- "<$BUFFER>"; BUFFER= }; zle -N tell; bindkey "^T" tell'
zpty -w shell "zle-line-init() { print -n EDI''TING }; zle -N zle-line-init"
zpty -r shell shown '*EDITING*' || { print -u2 'there is no line editor'; exit 1 }

becomes() {
    zpty -w -n shell $1$'\t\C-t'
    zpty -r shell shown '*<sj *>*'
    [[ $shown == *"<$2>"* ]] || { print -u2 -r -- "$1 isn't completed to $2: ${(V)shown}"; exit 1 }
}

becomes 'sj unp' 'sj unpack '
becomes 'sj get disk.img --al' 'sj get disk.img --all '
becomes 'sj put --na' 'sj put --name '
becomes 'sj sal' 'sj salvage '
becomes 'sj salvage disk.img --dr' 'sj salvage disk.img --dry-run '
becomes 'sj help ref' 'sj help refusals '
becomes 'sj ls READ' 'sj ls README.md '
