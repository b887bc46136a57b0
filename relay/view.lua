-- The channels and users of the server over HTTP: /view.json is the document that it shows, /metrics counts it for
-- Prometheus.
--
-- murmur shows them to whoever connects to the address behind its word `view`: one JSON document that ends with a line
-- feed, and the end. haproxy's sockets for Lua get stuck on more than they hold at once, which is 16 kB; so the one
-- below only opens a stream to the server, through `listen view-documents`, and a filter there keeps what comes.

-- However many ask: at most one view in so many seconds reaches the server. Until the next one the answer is the same.
local INTERVAL = 5
-- How long a document may take to come, in seconds, which is less than the interval, and how many bytes it may have:
-- the longest of 2,048 channels and 512 users has some 2,500,000.
local PATIENCE = 3
local DOCUMENT_BYTES = 8000000
-- Where view-documents listens.
local STREAM = "abns@murmur-view"

-- What came last, if it was whole, and its metrics, once somebody asked for them.
local document, metrics
-- When the server was last asked, whether it still is, and whether the stream for it is still to come.
local asked_at, is_asking, is_awaited = -INTERVAL, false, false

local function seconds()
    local now = core.now()
    return now.sec + now.usec / 1000000
end

-- Nobody else who connects there reaches the server.
core.register_fetches("view_is_awaited", function()
    local was_awaited = is_awaited
    is_awaited = false
    return was_awaited
end)

-- Keeps what the server sends, and passes on none of it.
local Documents = { id = "murmur's documents" }
Documents.__index = Documents

function Documents:new()
    return setmetatable({ pieces = {}, length = 0 }, Documents)
end

function Documents:start_analyze(_, channel)
    if channel:is_resp() then filter.register_data_filter(self, channel) end
end

function Documents:tcp_payload(_, channel)
    local length = channel:input()
    self.length = self.length + length
    if self.length <= DOCUMENT_BYTES then table.insert(self.pieces, channel:data(0, length)) end
    channel:remove(0, length)
end

-- Only the last byte of a whole document is a line feed.
function Documents:end_analyze(_, channel)
    if not channel:is_resp() or self.length > DOCUMENT_BYTES then return end
    local text = table.concat(self.pieces)
    if text:sub(-1) == "\n" then document = text end
end

core.register_filter("documents", Documents, function(documents) return documents end)

-- Asks the server. It is a task of its own: a client that hangs up ends what runs for it.
local function ask()
    local socket = core.tcp()
    socket:settimeout(PATIENCE)
    -- nothing comes here but the end
    if socket:connect(STREAM) then socket:receive("*a") end
    socket:close()
    is_asking, is_awaited = false, false
end

-- What the server shows, or nothing where it is away or sends nothing whole.
local function shown()
    if seconds() - asked_at >= INTERVAL then
        asked_at, is_asking, is_awaited, document, metrics = seconds(), true, true, nil, nil
        core.register_task(ask)
    end
    while is_asking and seconds() - asked_at < INTERVAL do core.msleep(10) end
    return document
end

-- How often a key is in the document. A name cannot have `"session":` in it, since its quotation marks are escaped.
local function count(key)
    return select(2, document:gsub('"' .. key .. '":', ""))
end

-- A metric in the text format of Prometheus.
local function metric(name, kind, help, value)
    name = "murmur_" .. name
    return string.format("# HELP %s %s\n# TYPE %s %s\n%s %s\n", name, help, name, kind, name, value)
end

local function metrics_text()
    local up = metric("up", "gauge", "Whether the server shows its channels and users.", shown() and 1 or 0)
    if not document then return up end
    metrics = metrics or metric("users", "gauge", "Users who are there.", count("session"))
        .. metric("channels", "gauge", "Channels, the root and temporary ones among them.", count("temporary"))
        .. metric("revision", "counter", "Changes that were accepted since the server started.",
            document:match('"revision":(%d+)'))
    return up .. metrics
end

-- What each path answers: a type and a text, or nothing.
local PATHS = {
    ["/view.json"] = function() return "application/json", shown() end,
    ["/metrics"] = function() return "text/plain; version=0.0.4; charset=utf-8", metrics_text() end,
}

local function reply(applet, status, kind, text)
    applet:set_status(status)
    applet:add_header("content-type", kind)
    applet:add_header("content-length", tostring(#text))
    applet:add_header("cache-control", "no-store")
    applet:add_header("x-content-type-options", "nosniff")
    if status == 405 then applet:add_header("allow", "GET, HEAD") end
    if status == 503 then applet:add_header("retry-after", tostring(INTERVAL)) end
    applet:start_response()
    if applet.method ~= "HEAD" then applet:send(text) end
end

local function view(applet)
    if applet.method ~= "GET" and applet.method ~= "HEAD" then
        return reply(applet, 405, "text/plain", "It can only be read.\n")
    end
    local answer = PATHS[applet.path]
    if not answer then return reply(applet, 404, "text/plain", "There are /view.json and /metrics.\n") end
    local kind, text = answer()
    if text then return reply(applet, 200, kind, text) end
    reply(applet, 503, "text/plain", "The server does not show its channels and users.\n")
end

core.register_service("murmur_view", "http", view)
