-- What docs/language_servers.md says to do in Neovim: the page's own lines, and then a hover at the second rose.
if not vim.lsp.start then
  -- (before version 0.8)
  vim.lsp.start = function(config)
    local id = vim.lsp.start_client(config)
    vim.wait(20000, function()
      local client = vim.lsp.get_client_by_id(id)
      return client and client.initialized
    end, 10)
    vim.lsp.buf_attach_client(0, id)
  end
end
vim.cmd('edit notes.txt')
dofile('start.lua')
vim.api.nvim_win_set_cursor(0, { 2, 3 })
local answers = vim.lsp.buf_request_sync(0, 'textDocument/hover', vim.lsp.util.make_position_params(0, 'utf-16'), 20000)
for _, it in pairs(answers or {}) do
  io.stdout:write(it.result.contents .. '\n')
end
vim.cmd('qall!')
