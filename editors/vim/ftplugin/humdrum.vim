" Vim filetype plugin
" Language: Humdrum scores
if exists('b:did_ftplugin')
  finish
endif
let b:did_ftplugin = 1

" columns are separated by tabs, and no line is broken
setlocal comments=:!! commentstring=!!\ %s noexpandtab tabstop=12 nowrap formatoptions-=tc

let b:undo_ftplugin = 'setlocal comments< commentstring< expandtab< tabstop< wrap< formatoptions<'
