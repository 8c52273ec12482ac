@HEAD@

set -g __dlcheck_forms \
@FORMS@
# of the repository alone
set -g __dlcheck_local \
@LOCAL@

# Whether a word of this kind may follow those before the cursor.
function __dlcheck_wants
    set -l before (commandline -opc)
    set -l forms $__dlcheck_forms
    if string match -q '*/*' -- $before[1]; and test -f (dirname -- $before[1])/crates.txt
        set -a forms $__dlcheck_local
    end
    set -e before[1]
    for form in $forms
        set -l kinds (string split ' ' -- $form)
        if test "$kinds[-1]" = ..
            set -e kinds[-1]
            while test (count $kinds) -le (count $before)
                set -a kinds $kinds[-1]
            end
        end
        set -l at 0
        set -l fits yes
        for word in $before
            set at (math $at + 1)
            if not set -q kinds[$at]
                set fits
            else if test "$kinds[$at]" = RULE
                contains -- $word @RULES@; or set fits
            else if not string match -qr '^[A-Z]' -- $kinds[$at]; and test "$word" != "$kinds[$at]"
                set fits
            end
        end
        set at (math $at + 1)
        if test -n "$fits"; and set -q kinds[$at]; and test "$kinds[$at]" = "$argv[1]"
            return 0
        end
    end
    return 1
end

complete -c dlcheck -f
@COMPLETIONS@
