-- A walk through the library: what it prints is the same wherever Lua 5.4 runs.
print(_VERSION, math.maxinteger, math.mininteger // -3, 7 // -2, 7 % -2, -7 // 2.0, 2^53, 10 / 3)
print(1e15, 1e16, 0.1, 1 / 3, -0.0, 1 / 0, 123456789012, 3 | 8, 1 << 62, "10" + 5, 0x1p-4)
print(string.format("%5d|%-5d|%05.1f|%x|%q|%s", 42, 42, 3.14159, 255, "a\nb", nil))
print(string.format("%10.4s|%g|%e|%i", "abcdefgh", 1e100, 12345.678, -7))
print(math.sqrt(2), math.sin(1), math.exp(1), math.log(10), math.pi)
print(math.floor(-3.5), math.tointeger(8.0), math.type(1), math.ult(1, -1))

local words = {}
for word in ("the quick brown fox jumps over the lazy dog"):gmatch("%a+") do
  words[#words + 1] = word
end
table.sort(words, function(left, right)
  return #left < #right or #left == #right and left < right
end)
print(table.concat(words, ","), #words, select("#", table.unpack(words, 1, 4)))
print(("hello world"):gsub("o", "0"), ("abc"):byte(1, -1))
print(("key = value"):match("^(%w+)%s*=%s*(%w+)$"))
print(utf8.char(228, 8364, 128512), utf8.len("äöü"), #"äöü", ("x"):rep(3, "-"), ("%d"):format(3.0))
print(string.pack("<i4", 100):byte(1, -1), string.unpack("<d", string.pack("<d", 0.15625)))

local Account = {}
Account.__index = Account
local function account(balance) return setmetatable({ balance = balance }, Account) end
Account.__add = function(left, right) return account(left.balance + right.balance) end
Account.__tostring = function(self) return "account of " .. self.balance end
Account.__close = function() print("closed") end
do
  local both <close> = account(10) + account(32)
  print(tostring(both))
end

local function numbers(last)
  return coroutine.wrap(function()
    for number = 1, last do coroutine.yield(number, number * number) end
    return "end"
  end)
end
local next_number = numbers(3)
print(next_number(), next_number(), next_number())
print(next_number(), pcall(next_number))
print(pcall(error, { code = 7 }) == false, select(2, pcall(error, "plain", 0)))
print(pcall(function() local x; x.y = 1 end))
print(load("return ...")(1, 2), load("syntax error here"))

local total = 0
for turn = 1, 200 do
  if turn % 3 == 0 then goto continue end
  total = total + turn
  ::continue::
end
print(total, collectgarbage("count") > 0, next({}), #arg, io.read("l"))
