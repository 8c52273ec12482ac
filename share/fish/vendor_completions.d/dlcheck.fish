# Completion for dlcheck in fish. Made by command/made.py from the table of commands, command/words.py: change that, and make it again.

set -g __dlcheck_forms \
  'check RULE SCRIPT' \
  'show SCRIPT' \
  'table SCRIPT INDEX' \
  'trial FAMILY N' \
  'run SCRIPT SEED STEPS' \
  'livelock SCRIPT SET' \
  'conform SCRIPT SPEC' \
  'check RULE SCRIPT SCRIPT ..' \
  '--any SCRIPT' \
  '--prove-by SPEC RULE SCRIPT' \
  '--explain RULE SCRIPT' \
  '--explain check RULE SCRIPT' \
  '--explain show SCRIPT' \
  '--explain table SCRIPT INDEX' \
  '--explain trial FAMILY N' \
  '--explain run SCRIPT SEED STEPS' \
  '--explain livelock SCRIPT SET' \
  '--explain conform SCRIPT SPEC' \
  '--explain SCRIPT' \
  '--draw SCRIPT' \
  '--draw SCRIPT INDEX' \
  '--page RULE SCRIPT FILE.html' \
  '--annotate roles SCRIPT' \
  '--annotate resource SCRIPT' \
  '--annotate --fresh roles SCRIPT' \
  '--annotate --fresh resource SCRIPT' \
  '--proposals SCRIPT' \
  '--alphabets SCRIPT' \
  '--port SCRIPT' \
  '--json check RULE SCRIPT' \
  '--json show SCRIPT' \
  '--json table SCRIPT INDEX' \
  '--json trial FAMILY N' \
  '--json run SCRIPT SEED STEPS' \
  '--json livelock SCRIPT SET' \
  '--json conform SCRIPT SPEC' \
  '--json check RULE SCRIPT ..' \
  '--json --any SCRIPT ..' \
  '--json --explain RULE SCRIPT' \
  '--lines check RULE SCRIPT' \
  '--lines show SCRIPT' \
  '--lines table SCRIPT INDEX' \
  '--lines trial FAMILY N' \
  '--lines run SCRIPT SEED STEPS' \
  '--lines livelock SCRIPT SET' \
  '--lines conform SCRIPT SPEC' \
  '--lines check RULE SCRIPT ..' \
  '--lines --any SCRIPT ..' \
  '--lines --explain RULE SCRIPT' \
  '--version' \
  '--help' \
  '--uninstall DIR'
# of the repository alone
set -g __dlcheck_local \
  '--prove' \
  '--install DIR' \
  '--test'

# Whether a word of this kind may follow those before the cursor.
function __dlcheck_wants
    set -l before (commandline -opc)
    set -l forms $__dlcheck_forms
    if string match -q '*/*' -- $before[1]; and test -f (dirname -- $before[1])/crates.txt
        set -a forms $__dlcheck_local
    end
    set -e before[1]
    for form in $forms
        set -l kinds (string split ' ' -- $form)
        if test "$kinds[-1]" = ..
            set -e kinds[-1]
            while test (count $kinds) -le (count $before)
                set -a kinds $kinds[-1]
            end
        end
        set -l at 0
        set -l fits yes
        for word in $before
            set at (math $at + 1)
            if not set -q kinds[$at]
                set fits
            else if test "$kinds[$at]" = RULE
                contains -- $word cyclic client-server resource; or set fits
            else if not string match -qr '^[A-Z]' -- $kinds[$at]; and test "$word" != "$kinds[$at]"
                set fits
            end
        end
        set at (math $at + 1)
        if test -n "$fits"; and set -q kinds[$at]; and test "$kinds[$at]" = "$argv[1]"
            return 0
        end
    end
    return 1
end

complete -c dlcheck -f
complete -c dlcheck -n '__dlcheck_wants RULE' -a 'cyclic client-server resource'
complete -c dlcheck -n '__dlcheck_wants FAMILY' -a 'forks chain mesh'
complete -c dlcheck -n '__dlcheck_wants SCRIPT' -a '(__fish_complete_suffix .csp)'
complete -c dlcheck -n '__dlcheck_wants SPEC' -a '(__fish_complete_suffix .csp)'
complete -c dlcheck -n '__dlcheck_wants FILE.html' -a '(__fish_complete_suffix .html)'
complete -c dlcheck -n '__dlcheck_wants DIR' -a '(__fish_complete_directories)'
complete -c dlcheck -n '__dlcheck_wants --alphabets' -a '--alphabets' -d 'prints for each component the events that its text does, beside its alphabet'
complete -c dlcheck -n '__dlcheck_wants --annotate' -a '--annotate' -d 'prints the script with annotations that are found from its components\' tables'
complete -c dlcheck -n '__dlcheck_wants --any' -a '--any' -d 'checks by each of the three rules, with a line for each, and says where annotations that --annotate proposes would do'
complete -c dlcheck -n '__dlcheck_wants --draw' -a '--draw' -d 'prints the components and links, or a component\'s table, for Graphviz'
complete -c dlcheck -n '__dlcheck_wants --explain' -a '--explain' -d 'the report of check, or of another command of the program with its words, then what breaks the rule in this script and by what, and what docs/ANSWERS.md says of it'
complete -c dlcheck -n '__dlcheck_wants --fresh' -a '--fresh'
complete -c dlcheck -n '__dlcheck_wants --help' -a '--help' -d 'prints all commands'
complete -c dlcheck -n '__dlcheck_wants --install' -a '--install' -d 'the same, and puts the command into DIR, and what belongs to it under DIR/../lib and DIR/../share'
complete -c dlcheck -n '__dlcheck_wants --json' -a '--json' -d 'an object for each script'
complete -c dlcheck -n '__dlcheck_wants --lines' -a '--lines' -d 'a line for each finding, FILE'
complete -c dlcheck -n '__dlcheck_wants --page' -a '--page' -d 'writes the report, a picture of the network and a way to step through it as one page for a browser'
complete -c dlcheck -n '__dlcheck_wants --port' -a '--port' -d 'prints a script in dlcheck\'s language for one in CSPm as FDR reads it'
complete -c dlcheck -n '__dlcheck_wants --proposals' -a '--proposals' -d 'prints a line for each rule that proves the script with the annotations that are proposed for it'
complete -c dlcheck -n '__dlcheck_wants --prove' -a '--prove' -d 'proves and builds the program'
complete -c dlcheck -n '__dlcheck_wants --prove-by' -a '--prove-by' -d 'check RULE SPEC and conform SCRIPT SPEC over one copy of both'
complete -c dlcheck -n '__dlcheck_wants --test' -a '--test' -d 'runs the tests over the program that is there'
complete -c dlcheck -n '__dlcheck_wants --uninstall' -a '--uninstall' -d 'takes away what was installed with the command in DIR'
complete -c dlcheck -n '__dlcheck_wants --version' -a '--version' -d 'the sum of the sources, and the kit that proved them'
complete -c dlcheck -n '__dlcheck_wants check' -a 'check' -d 'judges the network of the script\'s first deadlock assertion by a rule'
complete -c dlcheck -n '__dlcheck_wants conform' -a 'conform' -d 'compares each component of a script with the one in its place in another script, its specification'
complete -c dlcheck -n '__dlcheck_wants livelock' -a 'livelock' -d 'bounds the steps in a row that are silent or by an event of SET, a set that the script defines'
complete -c dlcheck -n '__dlcheck_wants resource' -a 'resource'
complete -c dlcheck -n '__dlcheck_wants roles' -a 'roles'
complete -c dlcheck -n '__dlcheck_wants run' -a 'run' -d 'prints one run of the network, which shows what can happen and proves nothing'
complete -c dlcheck -n '__dlcheck_wants show' -a 'show' -d 'prints the script again, one declaration a line, without comments, and with parentheses round each operand that is no atom'
complete -c dlcheck -n '__dlcheck_wants table' -a 'table' -d 'prints the normal form of one component'
complete -c dlcheck -n '__dlcheck_wants trial' -a 'trial' -d 'judges a network of any size by the family\'s rule'
