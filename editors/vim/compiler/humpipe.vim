" Vim compiler file
" :make runs the open plan, over the score b:humpipe_score or g:humpipe_score if there is one, and goes to the line that breaks a rule
if exists('current_compiler')
  finish
endif
let current_compiler = 'humpipe'

function! s:score() abort
  return shellescape(get(b:, 'humpipe_score', get(g:, 'humpipe_score', '/dev/null')))
endfunction

" what the plan gives isn't wanted here; the name of the plan goes before what is told of it
let &l:makeprg = '(humpipe %:S <' . escape(s:score(), '%#') . ' 2>&1 >/dev/null) \| while read -r told; do echo %:S": $told"; done'
CompilerSet errorformat=%f:\ humpipe:\ plan\ line\ %l\\,\ word\ %c:\ %m,%f:\ humpipe:\ %m
