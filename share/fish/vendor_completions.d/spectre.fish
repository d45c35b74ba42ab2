# Completes the words of spectre in fish. Made of the manual page by tools/from_manual.py.

# Whether the word at the cursor is one of this command, at this place among those that are no flags; or,
# where a flag is named, whether that one doesn't stand yet.
function __spectre_at --argument-names name place
    set -l words (commandline -opc)
    test (count $words) -gt 1; and test "$words[2]" = "$name"; or return
    switch "$place"
        case ''
            return 0
        case '-*'
            not contains -- $place $words
        case '*'
            test (count (string match --invert -- '-*' $words[3..-1])) -eq $place
    end
end

function __spectre_first
    test (count (commandline -opc)) -eq 1
end

# Files stand where this says so, and nowhere else.
complete -c spectre -f
complete -c spectre -n __spectre_first -a play -d 'reads a scenario, and writes the answers to it'
complete -c spectre -n __spectre_first -a build -d 'reads a scenario, and writes its feed'
complete -c spectre -n __spectre_first -a make -d 'writes a scenario that is made of three numbers'
complete -c spectre -n __spectre_first -a drill -d 'plays a scenario of three numbers, and writes a summary'
complete -c spectre -n __spectre_first -a replay -d 'reads a feed, and writes the answers to it'
complete -c spectre -n __spectre_first -a node -d 'answers a feed, and keeps its blocks in a journal'
complete -c spectre -n __spectre_first -a show -d 'writes what the journal in FILE holds'
complete -c spectre -n __spectre_first -a export -d 'writes the feed of a journal'\''s blocks'
complete -c spectre -n __spectre_first -a certify -d 'reads a feed, and writes a certificate of two blocks'
complete -c spectre -n __spectre_first -a check -d 'reads a certificate, and writes what it shows'
complete -c spectre -n __spectre_first -a gossip -d 'plays nodes that send each other blocks'
complete -c spectre -n __spectre_first -a spend -d 'reads a feed, and writes a transaction that pays'
complete -c spectre -n __spectre_first -a watch -d 'answers a feed, and tells what each block changes'
complete -c spectre -n __spectre_first -a snapshot -d 'copies a journal that may be in use'
complete -c spectre -n __spectre_first -a help -d 'tells a command'\''s words, and what it reads and writes'
complete -c spectre -n __spectre_first -l help -d 'writes a line for each command, and ends with 0'
complete -c spectre -n __spectre_first -l version -d 'writes the version, and of which sources the program is'
complete -c spectre -n '__spectre_at node --fresh' -l fresh -d 'makes a new journal where FILE holds other bytes, over these'
complete -c spectre -n '__spectre_at node 0' -F
complete -c spectre -n '__spectre_at show 0' -F
complete -c spectre -n '__spectre_at export 0' -F
complete -c spectre -n '__spectre_at snapshot 0' -F
complete -c spectre -n '__spectre_at snapshot 1' -F
complete -c spectre -n '__spectre_at export 1' -a '1 2'
complete -c spectre -n '__spectre_at spend 1' -a 'to'
complete -c spectre -n '__spectre_at spend 3' -a 'from'
complete -c spectre -n '__spectre_at watch' -a 'tx: lock: pair:'
complete -c spectre -n '__spectre_at help 0' -a play -d 'reads a scenario, and writes the answers to it'
complete -c spectre -n '__spectre_at help 0' -a build -d 'reads a scenario, and writes its feed'
complete -c spectre -n '__spectre_at help 0' -a make -d 'writes a scenario that is made of three numbers'
complete -c spectre -n '__spectre_at help 0' -a drill -d 'plays a scenario of three numbers, and writes a summary'
complete -c spectre -n '__spectre_at help 0' -a replay -d 'reads a feed, and writes the answers to it'
complete -c spectre -n '__spectre_at help 0' -a node -d 'answers a feed, and keeps its blocks in a journal'
complete -c spectre -n '__spectre_at help 0' -a show -d 'writes what the journal in FILE holds'
complete -c spectre -n '__spectre_at help 0' -a export -d 'writes the feed of a journal'\''s blocks'
complete -c spectre -n '__spectre_at help 0' -a certify -d 'reads a feed, and writes a certificate of two blocks'
complete -c spectre -n '__spectre_at help 0' -a check -d 'reads a certificate, and writes what it shows'
complete -c spectre -n '__spectre_at help 0' -a gossip -d 'plays nodes that send each other blocks'
complete -c spectre -n '__spectre_at help 0' -a spend -d 'reads a feed, and writes a transaction that pays'
complete -c spectre -n '__spectre_at help 0' -a watch -d 'answers a feed, and tells what each block changes'
complete -c spectre -n '__spectre_at help 0' -a snapshot -d 'copies a journal that may be in use'
complete -c spectre -n '__spectre_at help 0' -a help -d 'tells a command'\''s words, and what it reads and writes'
