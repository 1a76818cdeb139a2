-- What a cloaked interpreter can do: closures, tables, strings, coroutines, floating-point numbers.
local words = {}
for word in ("the kernel moves pages it cannot read the program does not notice"):gmatch("%a+") do
    words[word] = (words[word] or 0) + 1
end
local names = {}
for name in pairs(words) do names[#names + 1] = name end
table.sort(names)
for _, name in ipairs(names) do io = nil; print(("%-8s %d"):format(name, words[name])) end

local function primes(limit)
    return coroutine.wrap(function()
        local crossed = {}
        for n = 2, limit do
            if not crossed[n] then
                coroutine.yield(n)
                for m = n * n, limit, n do crossed[m] = true end
            end
        end
    end)
end
local count, sum = 0, 0
for p in primes(1000) do count, sum = count + 1, sum + p end
print(count .. " primes below 1000, their sum is " .. sum)
print(("pi is about %.10f"):format(4 * math.atan(1)))
