" Rulesets of basin by their ending, which Vim takes for another language, and code by its first line.
autocmd BufRead,BufNewFile *.rpl set filetype=basinrules
autocmd BufRead * if getline(1) ==# 'CODE 1' | set filetype=basincode | endif
