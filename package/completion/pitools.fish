# fish completion of pitools.
complete -c pitools -n "test (count (commandline -opc)) -eq 1" -f -a "check follow passes hobs explain gcd mp volume text asm dis name json"
complete -c pitools -n "test (count (commandline -opc)) -eq 1" -l help -l version
complete -c pitools -s C -r -d "work in this folder"
complete -c pitools -n "__fish_seen_subcommand_from asm; and test (count (commandline -opc)) -eq 2" -f -a "depex script"
complete -c pitools -n "__fish_seen_subcommand_from dis; and test (count (commandline -opc)) -eq 2" -f -a "pei dxe script"
complete -c pitools -n "__fish_seen_subcommand_from hobs explain json; and test (count (commandline -opc)) -eq 3" -a "passes"
