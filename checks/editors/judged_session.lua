-- Neovim's own client on any server: a whole session in a buffer, with edits, questions, a cancel, and the server's end.
-- FILE is the file, SERVER the command as JSON, LANGUAGE its language, and LINE and COLUMN the place that it asks about.
-- Where KNOWS is "no", the server lacks what it needs to know anything of the file, and has to answer all the same.
local function fail(text)
  io.stderr:write('FAILED: ' .. text .. '\n')
  vim.cmd('cquit 1')
end

local function wait(what, is_there)
  if not vim.wait(60000, is_there, 10) then
    fail('waited in vain for ' .. what)
  end
end

vim.cmd('edit ' .. vim.env.FILE)
local ended, diagnosed = nil, 0
local id = vim.lsp.start_client({
  name = 'judged',
  cmd = vim.json.decode(vim.env.SERVER),
  root_dir = vim.fn.getcwd(),
  get_language_id = function() return vim.env.LANGUAGE end,
  on_exit = function(code, signal) ended = { code, signal } end,
  handlers = { ['textDocument/publishDiagnostics'] = function() diagnosed = diagnosed + 1 end },
})
wait('initialize', function()
  local client = vim.lsp.get_client_by_id(id)
  return client and client.initialized
end)
local client = vim.lsp.get_client_by_id(id)
vim.lsp.buf_attach_client(0, id)
local knows = vim.env.KNOWS ~= 'no'
if knows then wait('diagnostics', function() return diagnosed > 0 end) end

local function ask(method, params, answers)
  local sent, number = client.request(method, params, function(err, result) table.insert(answers, { err = err, result = result }) end, 0)
  if not sent then fail(method .. ' was not sent') end
  return number
end
local place = {
  textDocument = { uri = vim.uri_from_bufnr(0) },
  position = { line = tonumber(vim.env.LINE), character = tonumber(vim.env.COLUMN) },
}

local function asked(method, more)
  local answers = {}
  ask(method, vim.tbl_extend('force', place, more or {}), answers)
  wait(method, function() return #answers == 1 end)
  return answers[1]
end
if not asked('textDocument/hover').result and knows then fail('no hover') end
asked('textDocument/definition')
asked('textDocument/documentSymbol')
asked('textDocument/references', { context = { includeDeclaration = true } })
asked('textDocument/completion')

-- Edits, and what comes of them.
for edit = 1, 5 do
  local last = vim.api.nvim_buf_line_count(0)
  vim.api.nvim_buf_set_lines(0, last, last, false, { vim.env.ADDED .. edit })
  asked('textDocument/hover')
end
vim.cmd('silent write')

-- Many at once, of which some are cancelled.
local answers, cancelled = {}, {}
for it = 1, 20 do
  local number = ask('textDocument/completion', place, it % 4 == 0 and cancelled or answers)
  if it % 4 == 0 then client.cancel_request(number) end
end
wait('completions', function() return #answers == 15 end)
asked('textDocument/nothing')

client.stop()
wait('the end', function() return ended end)
io.stdout:write('a whole session\n')
vim.cmd('qall!')
