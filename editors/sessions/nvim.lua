-- A session of headless Neovim: a fault comes, is mended and goes; a hover and a definition are answered. Status 0 if all came, and else 1.
-- Call: nvim --clean --headless -n -i NONE +'luafile nvim.lua' FILE, where LSP_COMMAND names the server, and the file has the name
-- LSP_FAULT, which is unknown, in the place of LSP_MENDED.
local buffer = vim.api.nvim_get_current_buf()
local function fail(what)
  io.stderr:write('nvim: not seen: ' .. what .. '\n')
  vim.cmd('cquit 1')
end
local function await(what, test)
  if not vim.wait(10000, test, 10) then fail(what) end
end
local function count() return #vim.diagnostic.get(buffer) end

local exit_code = nil
local client = vim.lsp.start_client({
  name = 'viaduct', cmd = vim.split(vim.env.LSP_COMMAND, ' '), root_dir = vim.fn.getcwd(),
  on_exit = function(code) exit_code = code end,
})
if not client then fail('that the server starts') end
vim.lsp.buf_attach_client(buffer, client)
await('that the server is initialized', function()
  local known = vim.lsp.get_client_by_id(client)
  return known ~= nil and known.initialized
end)
await('a fault', function() return count() == 1 end)
local found = vim.diagnostic.get(buffer)[1]

local function ask(method, line, column)
  local replies = vim.lsp.buf_request_sync(buffer, 'textDocument/' .. method, {
    textDocument = vim.lsp.util.make_text_document_params(buffer),
    position = { line = line, character = vim.lsp.util.character_offset(buffer, line, column, 'utf-16') },
  }, 10000)
  local _, reply = next(replies or {})
  return reply and reply.result
end

local line = vim.api.nvim_buf_get_lines(buffer, found.lnum, found.lnum + 1, true)[1]
vim.api.nvim_buf_set_lines(buffer, found.lnum, found.lnum + 1, true, { (line:gsub(vim.env.LSP_FAULT, vim.env.LSP_MENDED)) })
await('that the fault is gone', function() return count() == 0 end)
local hover = ask('hover', found.lnum, found.col)
if not (hover and hover.contents.value:find(vim.env.LSP_MENDED, 1, true)) then fail('a hover') end
local places = ask('definition', found.lnum, found.col)
if not (places and #places == 1) then fail('a definition') end

vim.lsp.stop_client(client)
await('that the server ends', function() return exit_code ~= nil end)
if exit_code ~= 0 then fail('that the server ends with 0') end
vim.cmd('qall!')
