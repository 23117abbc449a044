" Vim filetype plugin
" Language: plans and bundles of humpipe
if exists('b:did_ftplugin')
  finish
endif
let b:did_ftplugin = 1

" a comment has a line of its own, and tabs are tabs in the scores of a bundle
setlocal comments=:# commentstring=#\ %s noexpandtab formatoptions-=t
compiler humpipe

let b:undo_ftplugin = 'setlocal comments< commentstring< expandtab< formatoptions< makeprg< errorformat<'
