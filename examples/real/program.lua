-- The ways to place queens on a board so that none can take another, and how often a text has its words.
local function ways(size)
  local columns, rising, falling, count = {}, {}, {}, 0
  local function place(row)
    if row > size then
      count = count + 1
      return
    end
    for column = 1, size do
      local r, f = row + column, row - column
      if not (columns[column] or rising[r] or falling[f]) then
        columns[column], rising[r], falling[f] = true, true, true
        place(row + 1)
        columns[column], rising[r], falling[f] = nil, nil, nil
      end
    end
  end
  place(1)
  return count
end

for size = 4, 6 do
  print(("%d queens: %d ways"):format(size, ways(size)))
end

local text = "a guest is a guest is a guest"
local counts, words = {}, {}
for word in text:gmatch("%a+") do
  if not counts[word] then
    words[#words + 1] = word
  end
  counts[word] = (counts[word] or 0) + 1
end
table.sort(words)
for _, word in ipairs(words) do
  print(word, counts[word])
end
print(("2^0.5 is about %.10f"):format(2 ^ 0.5))
print(_VERSION, collectgarbage("count") < 1000)
