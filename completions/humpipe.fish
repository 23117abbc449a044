# fish completion for humpipe: --link, --order and the plan's file
complete -c humpipe -f
complete -c humpipe -l link -x -a '1 16 256 4096' -d 'How many records may wait between two stages'
complete -c humpipe -l order -x -a 'left right' -d 'Which of the stages that are ready goes on'
complete -c humpipe -k -a '(__fish_complete_suffix .hpl)'
