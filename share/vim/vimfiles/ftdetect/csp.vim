" Scripts of dlcheck
autocmd BufNewFile,BufRead *.csp setfiletype csp
