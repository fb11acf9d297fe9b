<?php
$lib = FFI::cdef('
    int32_t pwcheck_make(const uint8_t *password, size_t password_len, uint8_t *out, size_t out_len, size_t *len);
    int32_t pwcheck_check_login(const uint8_t *password, size_t password_len, const uint8_t *stored, size_t stored_len);
', 'libpwcheck.so.1');
function bytes(string $text): FFI\CData {
    $bytes = FFI::new('uint8_t[' . max(strlen($text), 1) . ']');
    FFI::memcpy($bytes, $text, strlen($text));
    return $bytes;
}
$out = FFI::new('uint8_t[123]');
$len = FFI::new('size_t');
$password = 'correct horse';
if ($lib->pwcheck_make(bytes($password), strlen($password), $out, 123, FFI::addr($len)) !== 0) exit(1);
$stored = FFI::string($out, $len->cdata);
echo $lib->pwcheck_check_login(bytes($password), strlen($password), bytes($stored), strlen($stored)) === 0 ? "match\n" : "no match\n";
