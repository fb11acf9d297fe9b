"""libargon2 (Debian's libargon2-1) through ctypes, for the scripts on Argon2. It runs with one thread."""
import ctypes

from building import need


class Context(ctypes.Structure):
    _fields_ = [("out", ctypes.c_void_p), ("outlen", ctypes.c_uint32), ("pwd", ctypes.c_char_p),
                ("pwdlen", ctypes.c_uint32), ("salt", ctypes.c_char_p), ("saltlen", ctypes.c_uint32),
                ("secret", ctypes.c_char_p), ("secretlen", ctypes.c_uint32), ("ad", ctypes.c_char_p),
                ("adlen", ctypes.c_uint32), ("t_cost", ctypes.c_uint32), ("m_cost", ctypes.c_uint32),
                ("lanes", ctypes.c_uint32), ("threads", ctypes.c_uint32), ("version", ctypes.c_uint32),
                ("allocate", ctypes.c_void_p), ("free", ctypes.c_void_p), ("flags", ctypes.c_uint32)]


def library():
    try:
        return ctypes.CDLL("libargon2.so.1")
    except OSError:
        return None


def tag(argon2, variant, password, salt, secret, associated, passes, memory, lanes, length):
    """The tag of version 0x13; the variant is 0, 1 or 2 for d, i and id."""
    out = ctypes.create_string_buffer(length)
    context = Context(ctypes.addressof(out), length, password, len(password), salt, len(salt), secret, len(secret),
                      associated, len(associated), passes, memory, lanes, 1, 0x13, None, None, 0)
    need(argon2.argon2_ctx(ctypes.byref(context), variant) == 0, "libargon2 failed")
    return out.raw
