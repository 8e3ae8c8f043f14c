autocmd BufRead,BufNewFile *.via setfiletype viaduct
