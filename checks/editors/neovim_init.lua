-- What docs/editors.md has for init.lua: the page's own lines, then a text is opened, and a hover asked for at the second rose.
local function started(id)
  vim.wait(20000, function()
    local client = vim.lsp.get_client_by_id(id)
    return client and client.initialized
  end, 10)
  return id
end
local start_client = vim.lsp.start_client
vim.lsp.start_client = function(config)
  return started(start_client(config))
end
if not vim.lsp.start then
  -- (before version 0.8)
  vim.lsp.start = function(config)
    vim.lsp.buf_attach_client(0, vim.lsp.start_client(config))
  end
end
vim.cmd('filetype on')
dofile('start.lua')
vim.cmd('edit notes.txt')
vim.api.nvim_win_set_cursor(0, { 2, 3 })
local answers = vim.lsp.buf_request_sync(0, 'textDocument/hover', vim.lsp.util.make_position_params(0, 'utf-16'), 20000)
for _, it in pairs(answers or {}) do
  io.stdout:write(it.result.contents .. '\n')
end
vim.cmd('qall!')
