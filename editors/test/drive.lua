-- What the tests have Neovim do: settings in, a rename, and what came of it out.
local folder = vim.env.JREF_TEST_FOLDER

local function wait(what, done)
  if not vim.wait(60000, done, 20) then
    io.stderr:write('waited in vain for ' .. what .. '\n')
    vim.cmd('cquit')
  end
end

local function ready()
  for _, client in pairs(vim.lsp.buf_get_clients(0)) do
    return client.initialized
  end
end

local function edit(name)
  vim.cmd('edit ' .. vim.fn.fnameescape(folder .. '/' .. name))
  wait('the server', ready)
end

local function has(name, word)
  local buffer = vim.fn.bufnr(folder .. '/' .. name)
  if buffer < 0 then
    return false
  end
  local lines = vim.api.nvim_buf_get_lines(buffer, 0, -1, false)
  return string.find(table.concat(lines, '\n'), word, 1, true) ~= nil
end

local function put(name, lines)
  vim.fn.writefile(lines, folder .. '/' .. name)
end

return { edit = edit, has = has, put = put, wait = wait, folder = folder }
