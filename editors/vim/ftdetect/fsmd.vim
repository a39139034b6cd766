autocmd BufRead,BufNewFile *.fsmd setfiletype fsmd
autocmd BufRead,BufNewFile *.prog setfiletype fsmd_program
