-- wrk's script: posts of one point, as fast as they are answered.
--
--     wrk -t N -c N -d SECONDS -s load.lua URL -- NAME FILE
--
-- A connection a thread, so the posts of one are in order; each has a series and a sender of its own, NAME.0 and so on. What
-- is answered 503 is posted again, after as many seconds as the answer says. FILE gets a line for each thread: its
-- series, how many posts were taken, how many answers were 503, and how many were another; and then what wrk itself has:
-- its completed requests, and its errors.
local threads = {}
local file

function setup(thread)
   thread:set("number", #threads)
   table.insert(threads, thread)
end

function init(arguments)
   name = arguments[1] .. "." .. number
   path = arguments[2]
   taken, repeats, others = 0, 0, 0
   wait = 0
   headers = { ["Content-Type"] = "application/json", ["x-sender"] = name }
end

local BODY = '{"resourceMetrics":[{"scopeMetrics":[{"metrics":[{"name":"%s","sum":{"aggregationTemporality":1,"isMonotonic":true,'
   .. '"dataPoints":[{"startTimeUnixNano":"%d","timeUnixNano":"%d","asInt":"1"}]}}]}]}]}'

function request()
   local start = 1000 + taken * 10
   return wrk.format("POST", "/v1/metrics", headers, string.format(BODY, name, start, start + 10))
end

function delay()
   return wait
end

function response(status, answered, body)
   wait = 0
   if status == 200 and body == "{}" then
      taken = taken + 1
   elseif status == 503 and tonumber(answered["retry-after"]) then
      repeats = repeats + 1
      wait = tonumber(answered["retry-after"]) * 1000
   else
      others = others + 1
   end
end

function done(summary, latency, requests)
   local out = assert(io.open(threads[1]:get("path"), "w"))
   for _, thread in ipairs(threads) do
      out:write(string.format("%s %d %d %d\n", thread:get("name"), thread:get("taken"), thread:get("repeats"),
         thread:get("others")))
   end
   local errors = summary.errors
   out:write(string.format("wrk %d %d\n", summary.requests,
      errors.connect + errors.read + errors.write + errors.timeout))
   out:close()
end
