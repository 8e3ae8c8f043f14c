" A session of Vim with ALE: a fault comes, is mended and goes. Status 0 if all came.
" Call: vim -N -u NONE -i NONE -n -es -S vim.vim FILE, with ALE_FOLDER, LSP_PROGRAM, LSP_FAULT and LSP_MENDED set.
set nocompatible
execute 'set runtimepath+=' . $ALE_FOLDER
let g:ale_linters_explicit = 1
let g:ale_linters = {'viaduct': ['viaduct']}
runtime plugin/ale.vim
call ale#linter#Define('viaduct', {'name': 'viaduct', 'lsp': 'stdio', 'executable': $LSP_PROGRAM, 'command': '%e lsp', 'project_root': getcwd()})
function! Count() abort
  return ale#engine#IsCheckingBuffer(bufnr('')) ? -1 : len(ale#engine#GetLoclist(bufnr('')))
endfunction
function! Await(count) abort
  let l:left = 200
  while l:left > 0 && Count() != a:count
    sleep 50m
    let l:left -= 1
  endwhile
  if Count() != a:count
    cquit!
  endif
endfunction
setfiletype viaduct
ALELint
call Await(1)
execute '%s/' . $LSP_FAULT . '/' . $LSP_MENDED . '/'
ALELint
call Await(0)
qall!
