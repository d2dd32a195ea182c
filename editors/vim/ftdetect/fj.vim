" Projects of coloured Featherweight Java.
autocmd BufNewFile,BufRead *.fj setfiletype fj
