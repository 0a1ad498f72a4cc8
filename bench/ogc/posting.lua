-- Adds points by HTTP as fast as they are answered, for wrk:
--   wrk -t1 -c1 -d4 --latency -s posting.lua http://127.0.0.1:8080
-- Whoever asks has to be permitted to add masts; the map has to be empty, as ids count from 1 on (a second thread's from 100,000,001 on).
-- Coordinates have seven decimals, from 7 and 46 on. What is not answered by 201 is told, the first three of a thread.
local threads = 0
function setup(thread)
    thread:set("base", threads * 100000000)
    threads = threads + 1
end

local id
local told = 0
function init()
    id = base
end

function request()
    id = id + 1
    local body = string.format('{"type":"Feature","id":%d,"geometry":{"type":"Point","coordinates":[7.%07d,46.%07d]},'
        .. '"properties":{"class":"mast"}}', id, (id * 7919) % 9999999, (id * 104729) % 9999999)
    return wrk.format("POST", "/collections/features/items", {["Content-Type"] = "application/geo+json", ["Host"] = "127.0.0.1"}, body)
end

function response(status)
    if status ~= 201 and told < 3 then
        told = told + 1
        print("status", status)
    end
end
