-- The message CryptSetup (type 15 of the Mumble protocol) for each client of the relay.
--
-- A stock client sends no voice, not even over TCP, before it has got the keys with which it would encrypt voice
-- over UDP. murmur has no UDP, so nobody ever uses these keys. They differ for each connection, and nobody can
-- guess them: whoever knew them could answer the client's UDP pings, and the client would send its voice there.

local SEED_BYTES = 32
local CRYPT_SETUP = 15

-- Read once, when haproxy loads this file: afterwards it can open no file.
local source = assert(io.open("/dev/urandom", "rb"))
local seed = assert(source:read(SEED_BYTES))
source:close()
assert(#seed == SEED_BYTES, "/dev/urandom gave too few bytes")

-- How many connections got their keys since then. haproxy runs this file in one thread.
local connections = 0

-- A frame: two bytes of type, four of length, the payload. The payload: fields 1 (key), 2 (client nonce) and
-- 3 (server nonce), each of 16 bytes (wire type 2).
local function crypt_setup_frame(random)
    local payload = ""
    for field = 1, 3 do
        payload = payload .. string.pack(">Bs1", field << 3 | 2, random:sub(16 * field - 15, 16 * field))
    end
    return string.pack(">I2s4", CRYPT_SETUP, payload)
end

-- Puts the frame in front of the first bytes that the server sends to a client.
local function crypt_setup(txn)
    connections = connections + 1
    -- 48 bytes: SHA-384 of the seed and the count
    local random = txn.c:sha2(seed .. string.pack(">I8", connections), 384)
    if txn.res:prepend(crypt_setup_frame(random)) < 0 then
        txn:Warning("no room for CryptSetup: a client will send no voice")
    end
end

core.register_action("crypt_setup", { "tcp-res" }, crypt_setup, 0)
