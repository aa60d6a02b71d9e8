# Completion of bt-ctf-session for fish.
complete -c bt-ctf-session -w bt-ctf
