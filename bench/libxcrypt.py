"""libxcrypt's crypt(3), by libcrypt.so.1 through ctypes: what the scripts that compare texts and times share."""
import ctypes

# crypt(3)'s characters, by their values (crypt(5))
CHARACTERS = "./0123456789ABCDEFGHIJKLMNOPQRSTUVWXYZabcdefghijklmnopqrstuvwxyz"


def crypt_r():
    """The call `crypt_r` as a function of a phrase and a setting, both bytes, that gives the text or None."""
    call = ctypes.CDLL("libcrypt.so.1").crypt_r
    call.argtypes = [ctypes.c_char_p, ctypes.c_char_p, ctypes.c_void_p]
    call.restype = ctypes.c_char_p
    data = ctypes.create_string_buffer(32768)
    return lambda phrase, setting: call(phrase, setting, data)


def edited(rnd, text, place, letters):
    """A text with one to three characters changed, put in or left out, each at the `place` of the text as it then is."""
    text = bytearray(text)
    for _ in range(rnd.choice([1, 1, 1, 2, 3])):
        at, letter, kind = place(text), ord(rnd.choice(letters)), rnd.randrange(4)
        if kind == 0:
            text.insert(min(at, len(text)), letter)
        elif at < len(text):
            text[at:at + 1] = b"" if kind == 1 else bytes([letter])
    return bytes(text)


def crypt_field(data):
    """Bytes as crypt(3) writes them: three as four characters, the lowest bits first."""
    text = ""
    for i in range(0, len(data), 3):
        piece = data[i:i + 3]
        value = int.from_bytes(piece, "little")
        text += "".join(CHARACTERS[value >> 6 * k & 63] for k in range((len(piece) * 8 + 5) // 6))
    return text
