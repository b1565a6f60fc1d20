# Prints all matches of some words in standard input: ruby find.rb WORD... < TEXT
require "fiddle/import"

module Literal
  extend Fiddle::Importer
  dlload "libliteral_search.so.0"
  Match = struct ["size_t pattern", "size_t start", "size_t end_"]
  extern "void *literal_new_of_words(unsigned int, unsigned int, void *, size_t, void *)"
  extern "void literal_free(void *)"
  extern "int literal_next(void *, void *, size_t, size_t, void *)"
  extern "char *literal_status_text(int)"
end

status = "\0" * 4
search = Literal.literal_new_of_words(0, 0, ARGV.pack("p*"), ARGV.size, status)
if search.null?
  warn "find: #{Literal.literal_status_text(status.unpack1("l"))}"
  exit 2
end
text, found = STDIN.binmode.read, Literal::Match.malloc(Fiddle::RUBY_FREE)
found.end_ = 0
while Literal.literal_next(search, text, text.bytesize, found.end_, found) != 0
  puts "#{found.pattern} #{found.start} #{found.end_}"
end
Literal.literal_free(search)
