-- Neovim's own client on the language server in C: a whole session in a buffer, up to the server's status.
local function fail(text)
  io.stderr:write('FAILED: ' .. text .. '\n')
  vim.cmd('cquit 1')
end

local function wait(what, is_there)
  if not vim.wait(20000, is_there, 10) then
    fail('waited in vain for ' .. what)
  end
end

local function is_equal(what, got, wanted)
  if not vim.deep_equal(got, wanted) then fail(what .. ': ' .. vim.inspect(got)) end
end

vim.api.nvim_buf_set_lines(0, 0, -1, false, { 'short', ('long '):rep(20) })
vim.api.nvim_buf_set_name(0, vim.env.ROOM .. '/notes.txt')
local status
local id = vim.lsp.start_client({
  name = 'greeter',
  cmd = { vim.env.SERVER },
  root_dir = vim.env.ROOM,
  settings = { example = { greeting = 'hello from Neovim' } },
  on_exit = function(code, signal) status = { code, signal } end,
})
wait('initialize', function()
  local client = vim.lsp.get_client_by_id(id)
  return client and client.initialized
end)
local client = vim.lsp.get_client_by_id(id)
vim.lsp.buf_attach_client(0, id)

-- A diagnostic, which goes as the line does, and comes again.
wait('a diagnostic', function() return #vim.diagnostic.get(0) == 1 end)
local found = vim.diagnostic.get(0)[1]
is_equal('the diagnostic', { found.lnum, found.col, found.severity, found.message }, { 1, 0, 2, 'this line has more than 80 bytes' })
vim.api.nvim_buf_set_lines(0, 1, 2, false, { 'short too' })
wait('no diagnostic', function() return #vim.diagnostic.get(0) == 0 end)
vim.api.nvim_buf_set_lines(0, 0, 1, false, { ('ü'):rep(41) })
wait('another diagnostic', function() return #vim.diagnostic.get(0) == 1 end)

-- What is shown: a window with the setting.
local function shown()
  for _, window in ipairs(vim.api.nvim_list_wins()) do
    if vim.api.nvim_win_get_config(window).relative ~= '' then
      return table.concat(vim.api.nvim_buf_get_lines(vim.api.nvim_win_get_buf(window), 0, -1, false), '\n')
    end
  end
end
vim.lsp.buf.hover()
wait('the hover', shown)
is_equal('the hover', vim.trim(shown()), 'hello from Neovim')

local function ask(method, params, answers)
  local sent, number = client.request(method, params, function(err, result) table.insert(answers, { err = err, result = result }) end, 0)
  if not sent then fail(method .. ' was not sent') end
  return number
end
local place = { textDocument = { uri = vim.uri_from_bufnr(0) }, position = { line = 0, character = 0 } }

-- (the client shows nobody that a request was cancelled: what the server wrote is looked at afterwards)
local cancelled = {}
client.cancel_request(ask('textDocument/hover', place, cancelled))

local many = {}
for _ = 1, 500 do ask('textDocument/hover', place, many) end
wait('500 hovers', function() return #many == 500 end)
for _, it in ipairs(many) do
  is_equal('one of many', it, { result = { contents = { kind = 'plaintext', value = 'hello from Neovim' } } })
end
is_equal('what was cancelled', cancelled, {})

local unknown = {}
ask('textDocument/nothing', place, unknown)
wait('the unknown method', function() return unknown[1] end)
is_equal('an unknown method', (unknown[1].err or {}).code, -32601)

client.stop()
wait('the end', function() return status end)
is_equal('the status', status, { 0, 0 })
local version = vim.version()
io.stdout:write(('NVIM %d.%d.%d: a whole session\n'):format(version.major, version.minor, version.patch))
vim.cmd('qall!')
