-- Lua's own interpreter, with calls, tables, strings and a sort. To be measured by bench/run.
local function fib(n) if n < 2 then return n end return fib(n - 1) + fib(n - 2) end
for turn = 1, 5 do
  local words = {}
  for i = 1, 2000 do words[i] = string.format("%05d", (i * 7919) % 10007) end
  table.sort(words)
  local count = 0
  for i, w in ipairs(words) do if w:find("7") then count = count + #w end end
  if turn == 5 then print(fib(20), count, words[1], words[2000]) else fib(20) end
end
