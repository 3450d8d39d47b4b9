# Completions of rdfkeep for fish; `make install` puts them where fish looks.

# Whether the command that stands on the line is one of these; with none, whether there isn't one yet.
function __rdfkeep_does
    set -l words (commandline -opc)
    if set -q argv[1]
        contains -- "$words[2]" $argv
    else
        not set -q words[2]
    end
end

set -l formats nquads ntriples turtle
set -l commands run convert query update check

complete -c rdfkeep -f
complete -c rdfkeep -n __rdfkeep_does -a run -d 'Run a script of commands on a dataset'
complete -c rdfkeep -n __rdfkeep_does -a convert -d 'Write each statement of a document as a line of N-Quads'
complete -c rdfkeep -n __rdfkeep_does -a query -d 'Answer one query of data'
complete -c rdfkeep -n __rdfkeep_does -a update -d 'Apply one request to data, and write the dataset behind it'
complete -c rdfkeep -n __rdfkeep_does -a check -d 'Say how many statements documents have'
complete -c rdfkeep -n __rdfkeep_does -a help -d 'Print a help text'
complete -c rdfkeep -n '__rdfkeep_does help' -a "$commands"
complete -c rdfkeep -n 'not __rdfkeep_does help' -s h -l help -d 'Print a help text'
complete -c rdfkeep -n 'not __rdfkeep_does help' -s V -l version -d 'Print the version'

complete -c rdfkeep -n "__rdfkeep_does $commands" -F
complete -c rdfkeep -n "__rdfkeep_does $commands" -l base -x -d 'What relative references are resolved against'
complete -c rdfkeep -n "__rdfkeep_does $commands" -l progress -d 'Show how many bytes of a document are read'
complete -c rdfkeep -n '__rdfkeep_does run query update' -l data -r -F -d 'A file that is loaded, or restored, first'
complete -c rdfkeep -n '__rdfkeep_does run query update' -l format -x -a "$formats state" -d 'The format of the start data'
complete -c rdfkeep -n '__rdfkeep_does run' -l depth -x -d 'Keep the last loads and updates to take back'
complete -c rdfkeep -n '__rdfkeep_does run' -l stop -d 'End after the first refusal'
complete -c rdfkeep -n '__rdfkeep_does query' -l results -x -a 'tsv csv json' -d 'The format of the results'
complete -c rdfkeep -n '__rdfkeep_does update' -l to -x -a 'nquads state' -d 'The form of the dataset'
complete -c rdfkeep -n '__rdfkeep_does update' -l changes -d 'Write what was changed'
complete -c rdfkeep -n '__rdfkeep_does convert check' -l from -x -a "$formats" -d 'The format of the document'
