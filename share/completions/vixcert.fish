# Completes the command words and file names of vixcert, in fish.
complete -c vixcert -f
complete -c vixcert -n __fish_is_first_token -a check -d 'test certificates over a feed'
complete -c vixcert -n __fish_is_first_token -a replay -d 'answer each tick of a feed'
complete -c vixcert -n __fish_is_first_token -a settle -d 'settle positions at the opening figure'
complete -c vixcert -n __fish_is_first_token -a make -d 'write a sample feed'
complete -c vixcert -n __fish_is_first_token -a drill -d 'count the answers of a sample feed'
complete -c vixcert -n '__fish_seen_subcommand_from check replay settle' -F
