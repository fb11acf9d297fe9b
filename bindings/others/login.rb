require 'ffi'
module Pwcheck
  extend FFI::Library
  ffi_lib 'libpwcheck.so.1'
  attach_function :pwcheck_make, %i[pointer size_t pointer size_t pointer], :int32
  attach_function :pwcheck_check_login, %i[pointer size_t pointer size_t], :int32
end
password, out, len = 'correct horse', FFI::MemoryPointer.new(:uint8, 123), FFI::MemoryPointer.new(:size_t)
exit 1 unless Pwcheck.pwcheck_make(password, password.bytesize, out, 123, len).zero?
stored = out.read_bytes(len.read(:size_t))
puts Pwcheck.pwcheck_check_login(password, password.bytesize, stored, stored.bytesize).zero? ? 'match' : 'no match'
