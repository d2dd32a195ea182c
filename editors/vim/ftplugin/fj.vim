" Comments, and what is a word: `$` is part of names.
if exists("b:did_ftplugin")
  finish
endif
let b:did_ftplugin = 1

setlocal commentstring=//\ %s comments=s1:/*,mb:*,ex:*/,:// iskeyword+=$ suffixesadd=.fj
let b:undo_ftplugin = "setlocal commentstring< comments< iskeyword< suffixesadd<"
