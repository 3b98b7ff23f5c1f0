-- Neovim's own client on the language server of examples/language_server: it starts, hovers, cancels, meets an unknown method, and ends.
local function fail(text)
  io.stderr:write('FAILED: ' .. text .. '\n')
  vim.cmd('cquit 1')
end

local function wait(what, is_there)
  if not vim.wait(10000, is_there, 10) then
    fail('waited in vain for ' .. what)
  end
end

local told = {}
local id = vim.lsp.start_client({
  name = 'greeter',
  cmd = { vim.env.RPC_TOOL, 'serve', '--table', vim.env.METHODS },
  root_dir = vim.fn.getcwd(),
  handlers = {
    ['workspace/configuration'] = function(_, params)
      return vim.tbl_map(function(item) return 'the setting ' .. item.section end, params.items)
    end,
    ['window/logMessage'] = function(_, params) table.insert(told, params.message) end,
  },
})
wait('initialize', function()
  local client = vim.lsp.get_client_by_id(id)
  return client and client.initialized
end)
local client = vim.lsp.get_client_by_id(id)
if not client.server_capabilities.hoverProvider then fail('no hover among the capabilities') end
wait('the log message', function() return told[1] == 'greeter is ready' end)

local place = { textDocument = { uri = 'file:///nowhere' }, position = { line = 0, character = 0 } }
local function ask(method)
  local answer = {}
  local sent, number = client.request(method, place, function(err, result) answer[1] = { err = err, result = result } end, 0)
  if not sent then fail(method .. ' was not sent') end
  return answer, number
end

local hover = ask('textDocument/hover')
wait('the hover', function() return hover[1] end)
if (hover[1].result or {}).contents ~= 'the setting greeter.text' then fail('hover: ' .. vim.inspect(hover)) end

-- (the client shows nobody that a request was cancelled: it forgets the request)
local cancelled, number = ask('textDocument/hover')
client.cancel_request(number)
local unknown = ask('textDocument/nothing')
wait('the unknown method', function() return unknown[1] end)
if (unknown[1].err or {}).code ~= -32601 then fail('unknown: ' .. vim.inspect(unknown)) end
if cancelled[1] then fail('answered though cancelled: ' .. vim.inspect(cancelled)) end

local stopped = ask('shutdown')
wait('the shutdown', function() return stopped[1] end)
if stopped[1].err then fail('shutdown: ' .. vim.inspect(stopped)) end
local version = vim.version()
io.stdout:write(('NVIM %d.%d.%d: initialize, hover, cancel, unknown method and shutdown\n'):format(version.major, version.minor, version.patch))
vim.cmd('qall!')
