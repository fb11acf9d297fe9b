#!/usr/bin/env python3
"""Compares each number of include/pwcheck.h and of the bindings with the definitions under crates/*/specs, and the
version where it stands.

    bindings/numbers.py [HEADER]
    bindings/numbers.py swaps        swaps each two numbers of the header in turn, and finds each such header refused

An enumerator's number is the place of its answer in the table `answers` of pwcheck_c/specs/Answers, its status in
specs/Statuses, or the place of its alphabet in specs/Coder; a #define is a length that the definitions give, or a cost that
any_make recommends. Each name
of the header has to be known here, and each answer, status and alphabet there has to have a name. The parameters of each proved call
are compared with the face in C, the header and pwcheck(3), by type and name in order. It ends with 1 where two differ.
"""
import os
import re
import sys

HERE = os.path.dirname(os.path.abspath(__file__))
TOP = os.path.dirname(HERE)
HEADER = os.path.join(TOP, "include", "pwcheck.h")

# The names of the header for the answers of the definitions that aren't named as there, and for the alphabets.
ANSWERS = {
    "Checked (Ok true)": "MATCH",
    "Checked (Ok false)": "MISMATCH",
    "NotText": "NOT_UTF8",
    "Checked (Err of_stored.OutOfMemory)": "OUT_OF_MEMORY",
    "Checked (Err of_stored.PasswordTooLong)": "PASSWORD_TOO_LONG",
    "Checked (Err (of_stored.Mcf of_mcf.DelimiterInvalid))": "MCF_DELIMITER",
    "Checked (Err (of_stored.Mcf of_mcf.IdentifierInvalid))": "MCF_IDENTIFIER",
    "Checked (Err (of_stored.Mcf of_mcf.FieldInvalid))": "MCF_FIELD",
    "Checked (Err (of_stored.Mcf of_mcf.EncodingInvalid))": "MCF_ENCODING",
    "OtherIdentifier": "SHA_IDENTIFIER",
    "Checked (Err (of_stored.Sha (of_sha.InvalidFormat of_format.NoFields)))": "SHA_NO_FIELDS",
    "Checked (Err (of_stored.Sha (of_sha.InvalidFormat of_format.NoSalt)))": "SHA_NO_SALT",
    "Checked (Err (of_stored.Sha (of_sha.InvalidFormat of_format.RoundsNotNumber)))": "SHA_ROUNDS_NOT_NUMBER",
    "Checked (Err (of_stored.Sha (of_sha.InvalidFormat of_format.NoHash)))": "SHA_NO_HASH",
    "Checked (Err (of_stored.Sha (of_sha.InvalidFormat of_format.Trailing)))": "SHA_TRAILING",
    "Checked (Err (of_stored.Sha of_sha.RoundsError))": "SHA_ROUNDS",
    "Checked (Err (of_stored.Sha (of_sha.InvalidFormat of_format.SaltTooLong)))": "SHA_SALT_TOO_LONG",
    "Checked (Err (of_stored.Sha (of_sha.InvalidFormat of_format.Base64)))": "SHA_BASE64",
    "Checked (Err (of_stored.Phc of_phc.ParamNameInvalid))": "PHC_NAME",
    "Checked (Err (of_stored.Phc of_phc.ParamValueTooLong))": "PHC_VALUE_LONG",
    "Checked (Err (of_stored.Phc of_phc.ParamValueInvalid))": "PHC_VALUE",
    "Checked (Err (of_stored.Phc of_phc.ParamsMaxExceeded))": "PHC_PARAMS_LONG",
    "Checked (Err (of_stored.Phc of_phc.SaltTooShort))": "PHC_SALT_SHORT",
    "Checked (Err (of_stored.Phc of_phc.SaltTooLong))": "PHC_SALT_LONG",
    "Checked (Err (of_stored.Phc (of_phc.Base64 of_base64.InvalidEncoding)))": "PHC_B64",
    "Checked (Err (of_stored.Phc (of_phc.Base64 of_base64.InvalidLength)))": "PHC_HASH_LONG",
    "Checked (Err (of_stored.Phc of_phc.OutputSize))": "PHC_HASH_SHORT",
    "Checked (Err (of_stored.Phc of_phc.TrailingData))": "PHC_TRAILING",
    "Checked (Err of_stored.NoHash)": "NO_HASH",
    "Checked (Err of_stored.Kdf)": "KDF",
}
# What the face in C answers of itself.
FACE = {"NO_RANDOM": -8}
ALPHABETS = {name: name.upper() for name in (
    "base64", "base64_unpadded", "base64_url", "base64_url_unpadded", "base64_bcrypt", "base64_crypt", "base64_pbkdf2",
    "base64_sha_crypt")}


def need(condition, text):
    if not condition:
        sys.exit("numbers.py: " + text)


def read(*path):
    with open(os.path.join(TOP, *path), encoding="utf-8") as source:
        return source.read()


def specs(crate, name):
    """A file of definitions without its comments."""
    return re.sub(r"--.*", "", read("crates", crate, "specs", name + ".antt"))


def entries(text, name):
    """The entries of a list that is written as `a ∷ b ∷ []`."""
    body = re.search(rf"^{name} =\n(.*?)∷ \[\]$", text, re.M | re.S).group(1)
    return [" ".join(entry.split()) for entry in body.split("∷")]


def number(text, name):
    """A definition that is a number."""
    return int(re.search(rf"^{name} = ([0-9]+)$", text, re.M).group(1))


def upper(name):
    """The header's name for what code names `OverCost`."""
    return re.sub(r"(?<!^)(?=[A-Z])", "_", name).upper()


def places(names, found):
    """The number of each name, by its place."""
    need(sorted(found) == sorted(names), f"the definitions have {sorted(set(found) ^ set(names))} otherwise")
    return {names[entry]: place for place, entry in enumerate(found)}


def answers():
    """The number of each answer: one that is a word alone has the header's form of that word as its name."""
    found = entries(specs("pwcheck_c", "Answers"), "answers")
    return places({**ANSWERS, **{entry: upper(entry) for entry in found if entry.isalnum() and entry not in ANSWERS}}, found)


def statuses():
    text = specs("c_buffers", "Statuses") + "\n" + specs("pwcheck_c", "Statuses")
    found = re.findall(r"^status_([a-z0-9_]+) = (pos|negsuc) ([0-9]+)$", text, re.M)
    need(len(found) == len(re.findall(r"^abbrev pub status_", text, re.M)), "a status isn't read")
    return {name.upper(): int(n) if sign == "pos" else -1 - int(n) for name, sign, n in found}


def longest_word():
    """The bytes of the longest word of an answer, from the definitions that give the words."""
    words = re.findall(r'codes "([^"]*)"', specs("pwcheck_c", "Answers") + specs("stored_check", "Words"))
    return max(len(word) for word in words)


def encoded(n):
    """The characters that encode n bytes, without padding."""
    return (8 * n + 5) // 6


def digits_in_bounds():
    """The most digits that ln, r and p have together, within the bounds of scrypt."""
    most = 0
    for ln in range(1, 25):
        for r in [10 ** k for k in range(6)] + [ln // 16 + 1]:
            if ln < 16 * r and 128 * r * 2 ** ln <= 2 ** 28:
                p = min(1024, 131072 // r)
                if p >= 1:
                    most = max(most, len(f"{ln}{r}{p}"))
    return most


# The names of the header for the costs that any_make recommends: the call that makes the text, and its number.
RECOMMENDED = {"Sha256Crypt": "SHA256_CRYPT_ROUNDS", "Sha512Crypt": "SHA512_CRYPT_ROUNDS", "Bcrypt": "BCRYPT_COST",
               "Pbkdf2Sha256": "PBKDF2_SHA256_ROUNDS", "Scrypt": "SCRYPT_", "Yescrypt": "YESCRYPT_", "Argon2id": "ARGON2ID_"}
# Those whose texts no call of C makes.
WITHOUT_CALL = {"Pbkdf2Sha512"}


def recommended():
    """What a new text should cost, number by number."""
    text, found = specs("any_make", "Costs"), {}
    rows = re.findall(r"^recommended (\w+) = Some \(cost\.(.*)\)$", text, re.M)
    need(sorted(scheme for scheme, _ in rows) == sorted({*RECOMMENDED, *WITHOUT_CALL}), "other schemes have a recommended cost")
    for scheme, cost in rows:
        if scheme in WITHOUT_CALL:
            continue
        name = "RECOMMENDED_" + RECOMMENDED[scheme]
        if name.endswith("_"):
            found.update((name + number.upper(), int(n)) for number, n in re.findall(r"(\w+) = ([0-9]+)", cost))
        else:
            found[name] = int(cost.split()[-1])
    return found


def longest_text(table):
    """The most characters of a text of any scheme, each number as long as its bound, if not as all bounds together."""
    salt, key = encoded(16), encoded(32)
    return max(table["SHA512_TEXT_MAX"], table["SCRYPT_TEXT_MAX"], len("$2b$04$") + encoded(16) + encoded(23),
               len("$y$j") + 4 * 6 + len("$$") + salt + key,
               len("$argon2id$v=19$m=,t=,p=$$") + len(f"{1 << 21}{1 << 21}{1 << 18}") + salt + key,
               len("$pbkdf2-sha256$i=10000000,l=32$$") + salt + key)


def lengths():
    sha, stored, table = specs("sha_crypt", "Limits"), specs("phc_kdf", "Limits"), {}
    salt, rounds = number(sha, "salt_max_len"), len(f"rounds={number(sha, 'rounds_max')}$")
    for bits, digest in ((256, 32), (512, 64)):
        field = number(sha, f"pw_size_sha{bits}")
        need(field == encoded(digest), "a hash field's length isn't that of the encoded digest")
        table[f"SHA{bits}_DIGEST_SIZE"] = digest
        table[f"SHA{bits}_FIELD_SIZE"] = field
        table[f"SHA{bits}_TEXT_MAX"] = len("$5$") + rounds + salt + len("$") + field
    inputs = specs("pwcheck_c", "Inputs")
    table["SCRYPT_SALT_SIZE"] = int(re.search(r"\(length salt == ([0-9]+)\)", inputs).group(1))
    table["SCRYPT_TEXT_MAX"] = (len("$scrypt$ln=,r=,p=$$") + digits_in_bounds() + encoded(table["SCRYPT_SALT_SIZE"])
                                + encoded(32))
    costs = specs("any_make", "Costs")
    sizes = set(re.findall(r"^salt_length (?!\(ShaCrypt)\w+ = ([0-9]+)$", costs, re.M))
    need(len(sizes) == 1, f"the salts have {sizes} bytes")
    table["SALT_SIZE"] = int(sizes.pop())
    table["TEXT_MAX"] = longest_text(table)
    table["BCRYPT_PASSWORD_MAX"] = number(costs, r"password_length \(cost\.Bcrypt n\)")
    table["PASSWORD_MAX"] = number(stored, "password_max")
    table["WORD_SIZE"] = longest_word() + 1
    return table


def versions():
    """The version, which the definitions have, is that of the other files too."""
    version = re.search(r'^version = codes "([0-9.]+)"$', specs("pwcheck_c", "Version"), re.M).group(1)
    need(f'#define PWCHECK_VERSION "{version}"\n' in read("include", "pwcheck.h"), f"PWCHECK_VERSION isn't {version}")
    need(f"PWCHECK_{version} {{" in read("bindings", "exports.map"), f"the version of symbols isn't {version}")
    need(f'version = "{version}.0"' in read("bindings", "rust", "Cargo.toml"), f"Cargo.toml isn't {version}.0")
    need(f"libpwcheck.so.{version}" in read("bindings", "library.py"), f"library.py doesn't tell of {version}")
    need(f'version = "{version}.0"' in read("bindings", "python", "pyproject.toml"), f"pyproject.toml isn't {version}.0")
    need(f'VERSION: &str = "{version}.0"' in read("crates", "store_run", "src", "help.rt"), f"the version of the programs isn't {version}.0")
    need(re.search(r"^## ([0-9.]+)", read("CHANGELOG.md"), re.M).group(1) == version + ".0", f"CHANGELOG.md doesn't begin with {version}.0")
    return {"VERSION_MAJOR": int(version.split(".")[0]), "VERSION_MINOR": int(version.split(".")[1])}


def header_numbers(header):
    """Each enumerator and each #define that is a number."""
    bare = re.sub(r"/\*.*?\*/", "", header, flags=re.S)
    pairs = re.findall(r"^#define PWCHECK_([A-Z0-9_]+) (-?[0-9]+)$", bare, re.M)
    pairs += re.findall(r"^ +PWCHECK_([A-Z0-9_]+) = (-?[0-9]+),?$", re.sub(r"[ \t]+$", "", bare, flags=re.M), re.M)
    need(len(pairs) == len({name for name, _ in pairs}), "a name stands twice in the header")
    need(len(re.findall(r"PWCHECK_[A-Z0-9_]+ = ", bare)) == bare.count(" = "), "an enumerator isn't read")
    return {name: int(n) for name, n in pairs}


def limits_agree(header):
    """The limits stand in the header and in the bindings in the order of the proved call, after the size of the struct."""
    struct = re.search(r"pub struct Limits \{(.*?)^\}", read("crates", "pwcheck_c", "src", "any.rt"), re.M | re.S).group(1)
    wanted = ["size", *re.findall(r"^ +pub (\w+):", struct, re.M)]
    texts = {
        "the header": re.search(r"^struct pwcheck_limits \{(.*?)^\};", header, re.M | re.S),
        "Python": re.search(r"_fields_ = \[(.*?)\]", read("bindings", "python", "pwcheck", "__init__.py"), re.S),
        "Rust": re.search(r"(pub size: u32,.*?)\Z", "".join(
            re.search(rf"pub struct {name} \{{(.*?)^\}}", read("bindings", "rust", "src", file), re.M | re.S).group(1)
            for name, file in (("SizedLimits", "c.rs"), ("Limits", "lib.rs"))), re.S),
    }
    for name, found in texts.items():
        fields = re.findall("|".join(wanted), re.sub(r"/\*.*?\*/|//[^\n]*", "", found.group(1), flags=re.S))
        need(fields == wanted, f"{name} has the limits {' '.join(fields)}")
    none = re.search(r"^#define PWCHECK_LIMITS_NONE(.*?)\}$", header, re.M | re.S).group(1)
    need(none.count("UINT32_MAX") == len(wanted) - 1, "PWCHECK_LIMITS_NONE has another number of limits")
    login_limits_agree(header, wanted)
    print(f"numbers.py: {len(wanted) - 1} limits stand everywhere in the order of the proved call")


def login_limits_agree(header, wanted):
    """The limits of a login are the same numbers in the header and in the bindings."""
    row = re.search(r"^#define PWCHECK_LIMITS_LOGIN.*?, ([0-9, ]+)\}$", header, re.M | re.S).group(1)
    of_header = dict(zip(wanted[1:], map(int, row.split(", "))))
    need(len(of_header) == len(wanted) - 1, "PWCHECK_LIMITS_LOGIN has another number of limits")
    python = re.search(r"^LIMITS_LOGIN = Limits\((.*?)\)$", read("bindings", "python", "pwcheck", "__init__.py"), re.M | re.S).group(1)
    rust = re.search(r"pub const LOGIN: Limits = Limits \{(.*?)^    \};", read("bindings", "rust", "src", "lib.rs"), re.M | re.S).group(1)
    for name, text, sign in (("Python", python, "="), ("Rust", rust, ": ")):
        found = {limit: int(n.replace("_", "")) for limit, n in re.findall(rf"(\w+){sign}([0-9_]+)", text)}
        need(found == of_header, f"{name} has other limits of a login: {found}")


C_TYPES = {"u32": "uint32_t", "u64": "uint64_t", "i32": "int32_t", "usize": "size_t"}


def c_parameters(name, kind):
    """The parameters in C of one of a proved call."""
    if kind in ("&[u8]", "&mut [u8]"):
        return [f"{'const ' if kind == '&[u8]' else ''}uint8_t *{name}", f"size_t {name}_len"]
    if kind == "&mut usize":
        return [f"size_t *{name}"]
    if kind == "&Limits":
        return [f"const struct pwcheck_limits *{name}"]
    return [] if kind == "Global" else [f"{C_TYPES[kind]} {name}"]


def proved_parameters():
    """The parameters in C of each proved call."""
    folder, found = os.path.join("crates", "pwcheck_c", "src"), {}
    for file in sorted(os.listdir(os.path.join(TOP, folder))):
        for name, listed in re.findall(r'^pub extern "C" fn (\w+)\(([^)]*)\)', read(folder, file), re.M):
            pairs = [map(str.strip, one.split(":")) for one in listed.split(",") if one.strip()]
            found[name] = [text for pair in pairs for text in c_parameters(*pair)]
    return found


def listed_in(text):
    return [" ".join(one.split()) for one in text.split(",")]


def face_parameters():
    """The parameters and the arguments of each call that the face in C hands on."""
    text = read("face", "pwcheck.c")
    short = dict(re.findall(r"^#define ([A-Z]+) (.*)$", text, re.M))
    for name, *lists in re.findall(r"^WIPED\((\w+), \((.*)\), \((.*)\)\)$", text, re.M):
        yield name, *([one.replace("bytes_in ", "const uint8_t *") for part in listed_in(row) for one in listed_in(short.get(part, part))]
                      for row in lists)


def parameters_agree(header):
    """Each call has the same parameters, by type and name in order, where it is proved, in the face, the header and the manual page."""
    proved = proved_parameters()
    header = re.sub(r"/\*.*?\*/", "", header, flags=re.S)
    declared = {name: listed_in(text) for name, text in re.findall(r"^\w+ (pwcheck_\w+)\(([^)]*)\);", header, re.M)}
    need(not set(proved) - set(declared), f"the header lacks {' '.join(set(proved) - set(declared))}")
    for name, listed in proved.items():
        need(declared[name] == listed, f"the header has {name}({', '.join(declared[name])}), and proved is ({', '.join(listed)})")
    for name, parameters, arguments in face_parameters():
        need(parameters == declared["pwcheck_" + name], f"the face has {name}({', '.join(parameters)})")
        need(arguments == [re.search(r"\w+$", one).group() for one in parameters], f"the face hands on {name}({', '.join(arguments)})")
    synopsis = read("man", "pwcheck.3").partition(".Sh SYNOPSIS\n")[2].partition(".Sh DESCRIPTION\n")[0]
    page = {name: re.findall(r'"([^"]*)"', text) for name, text in re.findall(r"^\.Fo (\w+)\n(.*?)^\.Fc$", synopsis, re.M | re.S)}
    page.update((name, re.findall(r'"([^"]*)"', text)) for name, text in re.findall(r"^\.Fn (\w+) (.*)$", synopsis, re.M))
    left = {name for name in declared if name not in page and name.replace("sha512", "sha256") not in page}
    need(page and not left, f"pwcheck(3) lacks {' '.join(sorted(left))}")
    for name, listed in page.items():
        need(listed == declared.get(name), f"pwcheck(3) has {name}({', '.join(listed)})")
    print(f"numbers.py: the parameters of {len(proved)} proved calls are those of the face, the header and pwcheck(3)")


def try_parameters(header):
    """Two parameters of one call exchanged in the header are found, whichever they are."""
    tried, proved = 0, proved_parameters()
    for name, text in re.findall(r"^\w+ (pwcheck_\w+)\(([^)]*)\);", re.sub(r"/\*.*?\*/", "", header, flags=re.S), re.M):
        listed = listed_in(text)
        for k in range(len(listed)):
            for i in range(k):
                other = listed[:]
                other[i], other[k] = other[k], other[i]
                need(name not in proved or other != proved[name], f"two parameters of {name} can be exchanged")
                tried += 1
    print(f"numbers.py: two parameters exchanged in the header are found, {tried} of {tried} times")


def wanted_numbers():
    return {**answers(), **statuses(), **FACE, **lengths(), **recommended(),
            **places(ALPHABETS, entries(specs("pwcheck_c", "Coder"), "alphabets")), **versions()}


def python_numbers():
    """The numbers of the Python binding, under the names of the header."""
    text, found = read("bindings", "python", "pwcheck", "__init__.py"), {}
    for names, values in re.findall(r"^([A-Z][A-Z0-9_, ]*) = ([0-9, ]+)$", text, re.M):
        found.update(zip(names.split(", "), (int(value) for value in values.split(", "))))
    found.update((name, int(n)) for name, n in re.findall(r"^    ([A-Z0-9_]+) = (-?[0-9]+)$", text, re.M))
    return found


def rust_numbers():
    """The numbers of the Rust binding, by the same names: answers by their places, alphabets and lengths as written."""
    text = read("bindings", "rust", "src", "lib.rs") + read("bindings", "rust", "src", "texts.rs")
    table = re.search(r"^pub const ANSWERS: .* = \[\n(.*?)^\];$", text, re.M | re.S).group(1)

    found = {upper(name): place for place, name in enumerate(re.findall(r"Answer::([A-Za-z0-9]+),", table))}
    found.update((upper(name), int(n)) for name, n in re.findall(r"^    (Base64\w*) = ([0-9]+),$", text, re.M))
    found.update((upper(name), int(n)) for n, name in re.findall(r"^ +(-[0-9]) => Err\(Error::(\w+)\),$", text, re.M))
    found.update((name, int(n)) for name, n in re.findall(r"^(?:pub )?const ([A-Z0-9_]+): usize = ([0-9]+);$", text, re.M))
    for name, numbers in re.findall(r"^    pub const ([A-Z0-9_]+): Scheme = Scheme::.*\{ (.*?) \}\)?;$", text, re.M):
        found.update((f"RECOMMENDED_{name}_{number.upper()}", int(n.replace("_", "")))
                     for number, n in re.findall(r"(\w+): ([0-9_]+)", numbers))
    return found


def bindings_agree(wanted):
    """Each number of the bindings is that of the definitions; Python has all of them, Rust each answer and status."""
    for name, found, own in [("Python", python_numbers(), set(wanted)),
                             ("Rust", rust_numbers(), {n for n in wanted if not n.endswith(("_SIZE", "_MAX", "OR"))})]:
        need(own - {"DONE"} <= set(found), f"{name} lacks {' '.join(sorted(own - {'DONE'} - set(found)))}")
        other = sorted(n for n in found if found[n] != wanted.get(n))
        need(not other, f"{name} has other numbers than the definitions: {' '.join(other)}")
    print("numbers.py: the numbers of the Python and Rust bindings are those of the definitions")


def differences(wanted, header):
    """The names that the header has otherwise than the definitions."""
    found = header_numbers(header)
    return sorted(name for name in {*found, *wanted} if found.get(name) != wanted.get(name))


def swapped(header, a, b):
    """The header with the numbers of two names swapped."""
    line = r"(PWCHECK_{}(?: =)? )(-?[0-9]+)\b"
    first, second = (re.search(line.format(name), header).group(2) for name in (a, b))
    header = re.sub(line.format(a), lambda m: m.group(1) + second, header, count=1)
    return re.sub(line.format(b), lambda m: m.group(1) + first, header, count=1)


def try_swaps(wanted, header):
    names, tried = sorted(wanted), 0
    for i, a in enumerate(names):
        for b in names[:i]:
            if wanted[a] != wanted[b]:
                need(differences(wanted, swapped(header, a, b)) == sorted((a, b)), f"{a} and {b} can be swapped")
                tried += 1
    print(f"numbers.py: two numbers swapped in the header are found, {tried} of {tried} times")


def main():
    swaps = sys.argv[1:] == ["swaps"]
    with open(HEADER if swaps or len(sys.argv) == 1 else sys.argv[1], encoding="utf-8") as source:
        header = source.read()
    wanted = wanted_numbers()
    other = differences(wanted, header)
    need(not other, f"the header has other numbers than the definitions: {' '.join(other)}")
    print(f"numbers.py: {len(wanted)} numbers of the header are those of the definitions")
    bindings_agree(wanted)
    limits_agree(header)
    parameters_agree(header)
    if swaps:
        try_parameters(header)
        try_swaps(wanted, header)


main()
