-- Neovim's own client on examples/python/spelling_server.py: a whole session in a buffer, up to the server's status.
local function fail(text)
  io.stderr:write('FAILED: ' .. text .. '\n')
  vim.cmd('cquit 1')
end

local function wait(what, is_there)
  if not vim.wait(20000, is_there, 10) then
    fail('waited in vain for ' .. what)
  end
end

local function same(what, one, other)
  if not vim.deep_equal(one, other) then fail(what .. ': ' .. vim.inspect(one)) end
end

local room = vim.env.ROOM
vim.cmd('edit ' .. room .. '/notes.txt')
local status, progress, tokens, registered = nil, {}, {}, {}
local id = vim.lsp.start_client({
  name = 'spelling',
  cmd = vim.json.decode(vim.env.SERVER),
  capabilities = vim.tbl_deep_extend('force', vim.lsp.protocol.make_client_capabilities(), { workspace = { configuration = true } }),
  root_dir = room,
  settings = { words = { label = 'times' } }, flags = { debounce_text_changes = 0 },
  on_exit = function(code, signal) status = { code, signal } end,
  handlers = {
    ['workspace/configuration'] = function(_, params)
      return vim.tbl_map(function(item) return 'times (' .. item.section .. ')' end, params.items)
    end,
    ['$/progress'] = function(_, params)
      table.insert(progress, params.value.kind)
      tokens[params.value.kind] = params.token
    end,
  },
})
wait('initialize', function()
  local client = vim.lsp.get_client_by_id(id)
  return client and client.initialized
end)
local client = vim.lsp.get_client_by_id(id)
same('the sync', client.server_capabilities.textDocumentSync.change, 2)
vim.lsp.buf_attach_client(0, id)
wait('the end of the reading', function() return vim.tbl_contains(progress, 'end') end)
wait('diagnostics', function() return #vim.diagnostic.get(0) == 2 end)
local found = vim.diagnostic.get(0)
table.sort(found, function(one, other) return one.col < other.col end)
same('the misspelt word', { found[1].lnum, found[1].col, found[1].message }, { 1, 0, "'Voilets' looks like 'violets'" })
same('the word that stands twice', { found[2].lnum, found[2].col, found[2].message }, { 1, 8, "'are' stands twice" })

local uri = vim.uri_from_bufnr(0)
local function ask(method, params, answer)
  answer = answer or {}
  local sent, number = client.request(method, params, function(err, result) table.insert(answer, { err = err, result = result }) end, 0)
  if not sent then fail(method .. ' was not sent') end
  return answer, number
end
local place = { textDocument = { uri = uri }, position = { line = 0, character = 7 } }
local hover = ask('textDocument/hover', place)
wait('the hover', function() return hover[1] end)
same('the hover', (hover[1].result or {}).contents, 'are: 4 times (words.label)')

-- completion, as an editor's own keys ask for it
vim.api.nvim_buf_set_lines(0, 2, 2, false, { 'vio' })
local items = ask('textDocument/completion', { textDocument = { uri = uri }, position = { line = 2, character = 3 } })
wait('the completion', function() return items[1] end)
wait('the word in the texts', function()
  items = ask('textDocument/completion', { textDocument = { uri = uri }, position = { line = 2, character = 2 } })
  wait('the completion', function() return items[1] end)
  return #items[1].result == 1
end)
same('what is completed', items[1].result[1].label, 'vio')
vim.api.nvim_buf_set_lines(0, 2, 3, false, {})

-- the code action, and no diagnostics behind it
local at = { start = { line = 1, character = 0 }, ['end'] = { line = 1, character = 0 } }
local action = ask('textDocument/codeAction', { textDocument = { uri = uri }, range = at, context = { diagnostics = {} } })
wait('the code action', function() return action[1] end)
for _, it in ipairs(action[1].result) do
  vim.lsp.util.apply_workspace_edit(it.edit, client.offset_encoding)
end
same('the edited line', vim.api.nvim_buf_get_lines(0, 1, 2, false)[1], 'violets are blue.')
wait('no diagnostics', function() return #vim.diagnostic.get(0) == 0 end)

-- progress, which the user cancels, and a request that is cancelled
progress = {}
local counted = ask('workspace/executeCommand', { command = 'count', arguments = { 60 } })
wait('the progress', function() return vim.tbl_contains(progress, 'report') end)
client.notify('window/workDoneProgress/cancel', { token = tokens.report })
wait('the cancelled count', function() return counted[1] end)
if counted[1].err or counted[1].result then fail('counted: ' .. vim.inspect(counted)) end
progress = {}
local cancelled, number = ask('workspace/executeCommand', { command = 'count', arguments = { 60 } })
wait('the progress', function() return vim.tbl_contains(progress, 'report') end)
client.cancel_request(number)
wait('the end of the progress', function() return vim.tbl_contains(progress, 'end') end)
local unknown = ask('textDocument/nothing', place)
wait('the unknown method', function() return unknown[1] end)
if (unknown[1].err or {}).code ~= -32601 then fail('unknown: ' .. vim.inspect(unknown)) end
if cancelled[1] and not cancelled[1].err then fail('answered though cancelled: ' .. vim.inspect(cancelled)) end

client.stop()
wait('the end', function() return status end)
same('the status', status, { 0, 0 })
io.stdout:write('a whole session\n')
vim.cmd('qall!')
