-- Neovim 0.7 and later: jref for Java files. In init.lua:
--   dofile('PATH/editors/recipes/nvim.lua').setup()
-- or, to name the files that are the program, with paths from the folder that has .git:
--   dofile('PATH/editors/recipes/nvim.lua').setup({ files = { 'src/*.java' } })
-- Then F2 renames what is under the cursor, gd goes to where it is declared, gr lists its uses.

local here = debug.getinfo(1, 'S').source:sub(2)
local server = vim.fn.fnamemodify(here, ':p:h:h') .. '/jref-lsp'
local clients = {}

-- The folder that has .git, at or above the file's own; else the file's own.
local function root_of(path)
  local folder = vim.fn.fnamemodify(path, ':p:h')
  local above = folder
  while vim.fn.isdirectory(above .. '/.git') == 0 and vim.fn.filereadable(above .. '/.git') == 0 do
    local parent = vim.fn.fnamemodify(above, ':h')
    if parent == above then
      return folder
    end
    above = parent
  end
  return above
end

local function attach(buffer, options)
  local root = root_of(vim.api.nvim_buf_get_name(buffer))
  local config = { name = 'jref', cmd = { server }, root_dir = root, init_options = options }
  if vim.lsp.start then
    return vim.lsp.start(config, { bufnr = buffer })
  end
  if not (clients[root] and vim.lsp.get_client_by_id(clients[root])) then
    clients[root] = vim.lsp.start_client(config)
  end
  return vim.lsp.buf_attach_client(buffer, clients[root])
end

local function keys(buffer)
  local wanted = { ['<F2>'] = vim.lsp.buf.rename, gd = vim.lsp.buf.definition, gr = vim.lsp.buf.references }
  for key, action in pairs(wanted) do
    vim.keymap.set('n', key, function() action() end, { buffer = buffer })
  end
end

local function setup(options)
  options = next(options or {}) and options or nil
  vim.api.nvim_create_autocmd('FileType', {
    pattern = 'java',
    callback = function(event)
      attach(event.buf, options)
      keys(event.buf)
    end,
  })
end

return { setup = setup }
