-- for nvim-dap: lies in the folder `lua` of the configuration; require('gbkeep')
local dap = require('dap')
dap.adapters.gbkeep = { type = 'executable', command = 'gbkeep-dap' }
local launch = {
  type = 'gbkeep', request = 'launch', name = 'gbkeep', stopOnEntry = true,
  program = function() return vim.fn.input('ROM: ', vim.fn.getcwd() .. '/game.gb', 'file') end,
}
for _, language in ipairs({ 'c', 'asm', 'rgbasm', 'gbz80' }) do
  dap.configurations[language] = { launch }
end
