-- Prints all matches of some words in standard input, by LuaJIT: luajit find.lua WORD... < TEXT
local ffi = require "ffi"

ffi.cdef [[
typedef struct { size_t pattern, start, end_; } literal_match;
void *literal_new_of_words(uint32_t kind, uint32_t ignore_case, const char *const *words, size_t words_len,
                           int32_t *status);
void literal_free(void *search);
int literal_next(const void *search, const void *haystack, size_t haystack_len, size_t from, literal_match *found);
const char *literal_status_text(int32_t status);
]]

local literal = ffi.load "libliteral_search.so.0"
local words, status, found = ffi.new("const char *[?]", #arg), ffi.new "int32_t[1]", ffi.new "literal_match"
for i, word in ipairs(arg) do words[i - 1] = word end
local search = ffi.gc(literal.literal_new_of_words(0, 0, words, #arg, status), literal.literal_free)
if search == nil then
  io.stderr:write("find: ", ffi.string(literal.literal_status_text(status[0])), "\n")
  os.exit(2)
end
local text = io.read "*a"
while literal.literal_next(search, text, #text, found.end_, found) ~= 0 do
  print(("%d %d %d"):format(tonumber(found.pattern), tonumber(found.start), tonumber(found.end_)))
end
