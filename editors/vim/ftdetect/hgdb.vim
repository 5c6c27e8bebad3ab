autocmd BufRead,BufNewFile *.hg setfiletype hgdb
