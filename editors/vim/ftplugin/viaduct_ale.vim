" The language server for Vim with ALE. Without ALE this file does nothing.
if !exists('g:loaded_ale_dont_use_this_in_other_plugins_please') || exists('g:loaded_viaduct_ale')
  finish
endif
let g:loaded_viaduct_ale = 1
call ale#linter#Define('viaduct', {'name': 'viaduct', 'lsp': 'stdio', 'executable': 'viaduct', 'command': '%e lsp', 'project_root': getcwd()})
