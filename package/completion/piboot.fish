# fish completion of piboot.
complete -c piboot -n "test (count (commandline -opc)) -eq 1" -f -a "boot audit generate"
complete -c piboot -n "test (count (commandline -opc)) -eq 1" -l help -l version
complete -c piboot -s C -r -d "work in this folder"
