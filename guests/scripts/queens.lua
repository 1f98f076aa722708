-- Places six queens on a board of six by six so that none attacks another, and draws each way.
local size = 6
local columns, rising, falling, place = {}, {}, {}, {}

local function draw()
  local rows = {}
  for row = 1, size do
    rows[row] = string.rep(".", place[row] - 1) .. "Q" .. string.rep(".", size - place[row])
  end
  print(table.concat(rows, " "))
end

local function put(row)
  if row > size then
    draw()
    return 1
  end
  local found = 0
  for column = 1, size do
    if not (columns[column] or rising[row + column] or falling[row - column]) then
      place[row] = column
      columns[column], rising[row + column], falling[row - column] = true, true, true
      found = found + put(row + 1)
      columns[column], rising[row + column], falling[row - column] = nil, nil, nil
    end
  end
  return found
end

print(put(1) .. " ways")
