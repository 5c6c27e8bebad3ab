-- Designs of hgdb in Neovim: their file type, and sessions over them by nvim-dap through `hgdb-dap`. In init.lua:
--
--   vim.opt.runtimepath:append("PREFIX/share/vim/vimfiles")
--   require("hgdb").setup()            -- with options: { adapter = "hgdb-dap", log = "/tmp/hgdb.log" }
--
-- `:lua require("dap").continue()` starts a session over the design that is looked at; step_back() and reverse_continue() go back in time.
local M = {}

-- The module that stands last in a source: mostly the top.
function M.top(source)
  local last
  for line in io.lines(source) do
    for name in line:gmatch("%f[%w]module%s+(%a[%w_]*)") do
      last = name
    end
  end
  return last
end

function M.setup(options)
  options = options or {}
  if vim.filetype then
    vim.filetype.add({ extension = { hg = "hgdb" } })
  end
  local found, dap = pcall(require, "dap")
  if not found then
    return false
  end
  dap.adapters.hgdb = {
    type = "executable",
    command = options.adapter or "hgdb-dap",
    args = options.log and { "--log", options.log } or {},
  }
  dap.configurations.hgdb = {
    {
      type = "hgdb",
      request = "launch",
      name = "hgdb: this design",
      mode = "keep",
      source = "${file}",
      stimulus = function()
        return vim.fn.expand("%:p:r") .. ".stim"
      end,
      top = function()
        return M.top(vim.fn.expand("%:p"))
      end,
    },
  }
  return true
end

return M
