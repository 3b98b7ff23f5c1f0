-- Neovim's own edits of a buffer, and what the server has of it: its text is the buffer's after each few of them.
local function fail(text)
  io.stderr:write('FAILED: ' .. text .. '\n')
  vim.cmd('cquit 1')
end

local function wait(what, is_there)
  if not vim.wait(20000, is_there, 5) then
    fail('waited in vain for ' .. what)
  end
end

local name = vim.env.ROOM .. '/edits.txt'
local first = io.open(name, 'wb')
local ending = vim.env.ENDINGS == 'dos' and '\r\n' or '\n'
first:write(table.concat({ 'Roses are red.', 'Violets \240\159\152\128 are bl\195\188e.', '', '\226\130\172', '' }, ending))
first:close()
vim.cmd('edit ++ff=' .. vim.env.ENDINGS .. ' ' .. name)
local status = nil
local id = vim.lsp.start_client({
  name = 'texts', cmd = vim.json.decode(vim.env.SERVER), root_dir = vim.env.ROOM, flags = { debounce_text_changes = 0 },
  on_exit = function(code, signal) status = { code, signal } end,
})
wait('initialize', function()
  local client = vim.lsp.get_client_by_id(id)
  return client and client.initialized
end)
local client = vim.lsp.get_client_by_id(id)
vim.lsp.buf_attach_client(0, id)
local uri = vim.uri_from_bufnr(0)

local function told()
  local answer = nil
  client.request('test/text', { textDocument = { uri = uri } }, function(err, result) answer = { err, result } end, 0)
  wait('the text', function() return answer end)
  if answer[1] then fail(vim.inspect(answer)) end
  return answer[2]
end

local function text_of_buffer()
  return table.concat(vim.api.nvim_buf_get_lines(0, 0, -1, true), ending) .. (vim.bo.eol and ending or '')
end

local seed = 7
local function random(count)
  seed = (seed * 1103515245 + 12345) % 2147483648
  return math.floor(seed / 65536) % count
end

local pieces = { 'a', 'word', '\195\188', '\226\130\172', '\240\159\152\128', '', ' ', 'x\240\159\152\128y' }
local function line_of_pieces()
  local line = ''
  for _ = 1, random(4) do line = line .. pieces[random(#pieces) + 1] end
  return line
end

-- the bytes of a line at which characters begin, and its end
local function a_column(line)
  local starts = vim.str_utf_pos(line)
  table.insert(starts, #line + 1)
  return starts[random(#starts) + 1] - 1
end

if not vim.str_utf_pos then
  vim.str_utf_pos = function(line)
    local starts = {}
    for at = 1, #line do
      local byte = line:byte(at)
      if byte < 128 or byte >= 192 then table.insert(starts, at) end
    end
    return starts
  end
end

local edits = {
  function(count)  -- lines in the place of others
    local from = random(count + 1)
    local to = math.min(count, from + random(3))
    local lines = {}
    for _ = 1, random(3) do table.insert(lines, line_of_pieces()) end
    vim.api.nvim_buf_set_lines(0, from, to, true, lines)
  end,
  function(count)  -- text in the place of other text
    local row = random(count)
    local to = math.min(count - 1, row + random(2))
    local lines = vim.api.nvim_buf_get_lines(0, row, to + 1, true)
    local from_column, to_column = a_column(lines[1]), a_column(lines[#lines])
    if row == to and from_column > to_column then from_column, to_column = to_column, from_column end
    local new = { line_of_pieces() }
    if random(3) == 0 then table.insert(new, line_of_pieces()) end
    vim.api.nvim_buf_set_text(0, row, from_column, to, to_column, new)
  end,
  function(count)  -- what a user's keys do
    vim.api.nvim_win_set_cursor(0, { random(count) + 1, 0 })
    vim.cmd('silent! normal! ' .. ({ 'x', 'dd', 'J', 'yyp', 'Onew', 'Anew', '>>', '~', 'D', 'u' })[random(10) + 1])
  end,
}

vim.bo.endofline = true
local times = tonumber(vim.env.EDITS)
for step = 1, times do
  edits[random(#edits) + 1](vim.api.nvim_buf_line_count(0))
  if step % 5 == 0 or step == times then
    local there, here = told(), text_of_buffer()
    if there.text ~= here then fail('after ' .. step .. ' edits: ' .. vim.inspect(there.text) .. ' is not ' .. vim.inspect(here)) end
  end
end
client.stop()
wait('the end', function() return status end)
if status[1] ~= 0 or status[2] ~= 0 then fail('status ' .. vim.inspect(status)) end
io.stdout:write('a whole session of ' .. times .. ' edits\n')
vim.cmd('qall!')
