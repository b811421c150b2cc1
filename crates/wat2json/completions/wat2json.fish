# fish completion of the command `wat2json`, written by tools/pages.

complete -c wat2json -s o -l output -r -F -d 'write the JSON to FILE, the modules beside it (`-` is standard output)'
complete -c wat2json -l out-dir -x -a '(__fish_complete_directories)' -d 'write the modules into FOLDER, and `NAME.json` unless with `-o -`'
complete -c wat2json -l skip -d 'skip modules with unsupported constructs, and end with status 4'
complete -c wat2json -s h -l help -d 'print this help'
complete -c wat2json -s V -l version -d 'print the version'
complete -c wat2json -k -a '(__fish_complete_suffix .wast)'
