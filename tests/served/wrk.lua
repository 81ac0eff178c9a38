-- What wrk asks a broker on one connection: reads of a secret and then a write of it, of one secret after the other.
--
--     wrk -t1 -c1 -d600 -s wrk.lua http://127.0.0.1:PORT -- TOKEN SECRETS
--
-- The secrets `secret/data/wrk0`, .. have to be there with the value 0. Each reply has to be a 200, and each read the
-- value that was written last. The last line is what was found. Broken are connections.

local ROUND = 10  -- requests to a secret, of which one is a write

function setup(thread)
   threads = threads or {}
   table.insert(threads, thread)
end

function init(words)
   fields = {["X-Vault-Token"] = words[1], ["Content-Type"] = "application/json"}
   secrets = tonumber(words[2])
   number, reads, writes, wrong = 0, 0, 0, 0
   values = {}
end

function request()
   number = number + 1
   place = math.floor(number / ROUND) % secrets
   value = nil
   local path = "/v1/secret/data/wrk" .. place
   if number % ROUND > 0 then
      return wrk.format("GET", path, fields)
   end
   value = string.format("%012d", number)
   return wrk.format("POST", path, fields, '{"data":{"value":"' .. value .. '"}}')
end

function response(status, _, body)
   if status ~= 200 then
      wrong = wrong + 1
   elseif value then
      writes = writes + 1
      values[place] = value
   else
      reads = reads + 1
      local text = '"data":{"value":"' .. (values[place] or string.format("%012d", 0)) .. '"}'
      if not body:find(text, 1, true) then
         wrong = wrong + 1
      end
   end
end

function done(summary)
   local errors, thread = summary.errors, threads[1]
   print(string.format("%d reads, %d writes, %d wrong, %d broken", thread:get("reads"), thread:get("writes"),
      thread:get("wrong"), errors.connect + errors.read + errors.write + errors.timeout))
end
