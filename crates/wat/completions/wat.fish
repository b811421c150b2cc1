# fish completion of the command `wat`, written by tools/pages.

complete -c wat -s o -l output -r -F -d 'write to FILE, whole or not at all (`-` is standard output)'
complete -c wat -l out-dir -x -a '(__fish_complete_directories)' -d 'write FOLDER/NAME.wasm for each NAME.wat'
complete -c wat -l hex -d 'write the bytes as one line of hexadecimal digits'
complete -c wat -l names -d 'write the index of each id instead of the bytes, one line each'
complete -c wat -l no-names -d 'leave the name section out'
complete -c wat -l check -d 'check the function bodies, and write nothing'
complete -c wat -l json -d 'write each diagnostic as a line of JSON to standard error'
complete -c wat -l color -x -a 'auto always never' -d 'print diagnostics in colours (`auto`, `always` or `never`)'
complete -c wat -l explain -x -a 'E1 E2 E3 E4 E5 E6 E7 E8 E9 E10 E11 E12 E13' -d 'print what an error means and what to do (`E4`, or a message)'
complete -c wat -s h -l help -d 'print this help'
complete -c wat -s V -l version -d 'print the version'
complete -c wat -k -a '(__fish_complete_suffix .wat)'
