-- Neovim's own client on the language server of examples/python: a whole session in a buffer, up to the server's status.
local function fail(text)
  io.stderr:write('FAILED: ' .. text .. '\n')
  vim.cmd('cquit 1')
end

local function wait(what, is_there)
  if not vim.wait(20000, is_there, 10) then
    fail('waited in vain for ' .. what)
  end
end

vim.api.nvim_buf_set_lines(0, 0, -1, false, { 'Roses are red.', 'Violets are are blue.' })
vim.api.nvim_buf_set_name(0, '/tmp/notes.txt')
local status, progress = nil, {}
local id = vim.lsp.start_client({
  name = 'words',
  cmd = vim.json.decode(vim.env.SERVER),
  capabilities = vim.tbl_deep_extend('force', vim.lsp.protocol.make_client_capabilities(), { workspace = { configuration = true } }),
  root_dir = vim.fn.getcwd(),
  on_exit = function(code, signal) status = { code, signal } end,
  handlers = {
    ['workspace/configuration'] = function(_, params)
      return vim.tbl_map(function(item) return 'times (' .. item.section .. ')' end, params.items)
    end,
    ['$/progress'] = function(_, params) table.insert(progress, params.value.kind) end,
  },
})
wait('initialize', function()
  local client = vim.lsp.get_client_by_id(id)
  return client and client.initialized
end)
local client = vim.lsp.get_client_by_id(id)
vim.lsp.buf_attach_client(0, id)
wait('diagnostics', function() return #vim.diagnostic.get(0) == 1 end)
local found = vim.diagnostic.get(0)[1]
if found.lnum ~= 1 or found.col ~= 8 or found.message ~= "'are' stands twice" then fail(vim.inspect(found)) end

local uri = vim.uri_from_bufnr(0)
local function ask(method, params, answer)
  answer = answer or {}
  local sent, number = client.request(method, params, function(err, result) table.insert(answer, { err = err, result = result }) end, 0)
  if not sent then fail(method .. ' was not sent') end
  return answer, number
end
local place = { textDocument = { uri = uri }, position = { line = 0, character = 7 } }

local hover = ask('textDocument/hover', place)
wait('the hover', function() return hover[1] end)
if (hover[1].result or {}).contents ~= 'times (words.label): 3' then fail('hover: ' .. vim.inspect(hover)) end

local many = {}
for _ = 1, 500 do ask('textDocument/hover', place, many) end
wait('500 hovers', function() return #many == 500 end)
for _, it in ipairs(many) do
  if (it.result or {}).contents ~= 'times (words.label): 3' then fail('one of many: ' .. vim.inspect(it)) end
end

local at = { start = { line = 1, character = 0 }, ['end'] = { line = 1, character = 0 } }
local action = ask('textDocument/codeAction', { textDocument = { uri = uri }, range = at, context = { diagnostics = {} } })
wait('the code action', function() return action[1] end)
vim.lsp.util.apply_workspace_edit(action[1].result[1].edit, client.offset_encoding)
if vim.api.nvim_buf_get_lines(0, 1, 2, false)[1] ~= 'Violets are blue.' then fail('the edit') end
wait('no diagnostics', function() return #vim.diagnostic.get(0) == 0 end)

local cancelled, number = ask('workspace/executeCommand', { command = 'count', arguments = { 60 } })
wait('the progress', function() return vim.tbl_contains(progress, 'report') end)
client.cancel_request(number)
wait('the end of the progress', function() return vim.tbl_contains(progress, 'end') end)
local unknown = ask('textDocument/nothing', place)
wait('the unknown method', function() return unknown[1] end)
if (unknown[1].err or {}).code ~= -32601 then fail('unknown: ' .. vim.inspect(unknown)) end
if cancelled[1] and not cancelled[1].err then fail('answered though cancelled: ' .. vim.inspect(cancelled)) end

client.stop()
wait('the end', function() return status end)
if status[1] ~= 0 or status[2] ~= 0 then fail('status ' .. vim.inspect(status)) end
io.stdout:write('a whole session\n')
vim.cmd('qall!')
