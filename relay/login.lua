-- The login of each client of the relay: nobody else uses up a connection of murmur, and its name is in the log.
--
-- A client begins with a few frames of the Mumble protocol (two bytes of type, four of length, the payload), of which
-- the one of type Authenticate has its name. They are looked at and passed on as they are.

local AUTHENTICATE = 2
local HEADER_BYTES = 6
-- The field of Authenticate that has the name.
local NAME_FIELD = 1

-- How many frames a client may send until its login is whole: stock clients send two.
local FRAMES = 8
-- How many bytes they may have: haproxy looks at no more than tune.bufsize without tune.maxrewrite, which is 15,360.
local LOGIN_BYTES = 15000
-- How long they may take, in seconds.
local PATIENCE = 10
-- How much of a name is in the log: murmur takes none that is longer.
local NAME_BYTES = 128

-- Waits until a client has sent this many bytes. False where it is silent, closes or takes too long.
local function has_sent(channel, length, deadline)
    while channel:input() < length do
        -- what comes next, nothing or none of it where the client has closed
        local more = channel:data(channel:input(), 1)
        if not more or #more == 0 or core.now().sec > deadline then return false end
    end
    return true
end

-- The payload of the Authenticate, once all of it has come, or nothing.
local function authenticate(channel)
    local deadline, at = core.now().sec + PATIENCE, 0
    for _ = 1, FRAMES do
        if not has_sent(channel, at + HEADER_BYTES, deadline) then return end
        local kind, length = string.unpack(">I2I4", channel:data(at, HEADER_BYTES))
        at = at + HEADER_BYTES
        if at + length > LOGIN_BYTES or not has_sent(channel, at + length, deadline) then return end
        if kind == AUTHENTICATE then return length > 0 and channel:data(at, length) or "" end
        at = at + length
    end
end

-- A number of a message and where it ends, or nothing where the message ends before.
local function varint(message, at)
    local number = 0
    for shift = 0, 63, 7 do
        local byte = message:byte(at)
        if not byte then return end
        number, at = number | (byte & 127) << shift, at + 1
        if byte < 128 then return number, at end
    end
end

-- Where a value of a message begins and where the next field does, by its wire type; nothing where it is cut off.
local function extent(message, at, wire_type)
    if wire_type == 1 then return at, at + 8 end
    if wire_type == 5 then return at, at + 4 end
    local number, behind = varint(message, at)
    if not number then return end
    if wire_type == 0 then return at, behind end
    if wire_type == 2 and number >= 0 and number <= #message then return behind, behind + number end
end

-- The name in the payload of an Authenticate; as always, the last of several counts.
local function name_of(message)
    local name, at = "", 1
    while at <= #message do
        local key, value, first, behind
        key, value = varint(message, at)
        if not key then break end
        first, behind = extent(message, value, key & 7)
        if not first or behind > #message + 1 then break end
        if key == NAME_FIELD << 3 | 2 then name = message:sub(first, behind - 1) end
        at = behind
    end
    return name
end

-- A name as it may be in a line between quotation marks: nobody writes a line of his own into the log.
local function quoted(name)
    return (name:sub(1, NAME_BYTES):gsub("[%c\"\127]", "?"))
end

-- Waits for the login. The variable txn.name is there afterwards where it is whole.
local function login(txn)
    local message = authenticate(txn.req)
    if message then txn:set_var("txn.name", quoted(name_of(message))) end
end

core.register_action("login", { "tcp-req" }, login, 0)
