-- The language server for Neovim 0.7 and later. Put this file into ~/.config/nvim/plugin.
vim.api.nvim_create_autocmd({ 'BufRead', 'BufNewFile' }, {
  pattern = '*.via',
  callback = function() vim.bo.filetype = 'viaduct' end,
})

local client = nil
vim.api.nvim_create_autocmd('FileType', {
  pattern = 'viaduct',
  callback = function(event)
    if client == nil or vim.lsp.get_client_by_id(client) == nil then
      client = vim.lsp.start_client({ name = 'viaduct', cmd = { 'viaduct', 'lsp' }, root_dir = vim.fn.getcwd() })
    end
    if client then vim.lsp.buf_attach_client(event.buf, client) end
    for key, act in pairs({
      K = vim.lsp.buf.hover, gd = vim.lsp.buf.definition, gr = vim.lsp.buf.references, ['<leader>rn'] = vim.lsp.buf.rename,
    }) do
      vim.keymap.set('n', key, act, { buffer = event.buf })
    end
    vim.bo[event.buf].omnifunc = 'v:lua.vim.lsp.omnifunc'
  end,
})
