#!/usr/bin/env python3
"""Spells this repository's own names as the kit spells its own, once, after the kit's script for older repositories.

usage: python3 tools/respell.py        at the top of the checkout

Words are in snake case, types and modules in camel case. A dash stands in a lemma's name only between two words that it
is about; elsewhere words are joined by an underscore. Functions of src/, exported names, strings, inputs and outputs keep
their names. The crate `bytes` is `octets`, since the kit has a library of that name. It stops, before it writes anything,
where two names with a dash would fall together; a definition in camel case that meets a lemma's name stands in MET. It has
run: the repository has this spelling, and the script stays to show how it came to it.
"""

import os
import re
import sys

# Words of definitions, here and in the library, between which a dash stands.
WORDS = set(
    """
    ⊕ add_round_key affine append at back block checksum column columns crc32 cipher dec_block digit digits drop enc_block every
    get_or hex inv_cipher inv_mix_columns inv_rounds inv_s_box inv_shift_rows inv_sub_bytes inv_sub_word inverse key_expansion
    length lines mix_columns mixed next padded permit_text plain power product rcon register replicate rot_word round_key rounds
    rows s_box set shift_rows shifted shifts square state straight sub_bytes sub_word take times_x turned unhex unpadded value
    verdict xor expanded byte_in big_endian
    """.split()
)

# The names of the standard, which are functions here, and the single letters of a cipher's two maps.
FIPS = {
    "SubBytes": "sub_bytes",
    "InvSubBytes": "inv_sub_bytes",
    "SubWord": "sub_word",
    "InvSubWord": "inv_sub_word",
    "RotWord": "rot_word",
    "Rcon": "rcon",
    "KeyExpansion": "key_expansion",
    "ShiftRows": "shift_rows",
    "InvShiftRows": "inv_shift_rows",
    "MixColumns": "mix_columns",
    "InvMixColumns": "inv_mix_columns",
    "AddRoundKey": "add_round_key",
    "InvCipher": "inv_cipher",
    "Cipher": "cipher",
    "InvS": "inv_s_box",
    "S": "s_box",
    "E": "enc_block",
    "D": "dec_block",
}

# Names that the general rule would spell badly.
OWN = {
    "E-block": "enc_block_sixteen",
    "D-block": "dec_block_sixteen",
    "E-byte": "enc_byte",
    "D-byte": "dec_byte",
    "before-T": "before_damage",
    "block-T": "block_damaged",
    "good-T": "good_damaged",
    "here-T": "here_damaged",
    "last-T": "last_damaged",
    "long-T": "length_damaged",
    "long-P": "length_plain",
    "opened-T": "opened_damaged",
    "same-T": "same_damaged",
    "getD": "get_or",
    "times-x": "times_x",
    "times-x-add": "times_x_add",
    "times-x-small": "times_x_small",
    "byte-in": "byte_in",
    "byte-in-fit": "byte_in_fits",
    "big-endian-small": "big_endian_small",
    "big-endian-one-to-one": "big_endian_one_to_one",
    "length-permit": "length-permit_text",
    "length-checksum": "length-checksum_of",
    "Four-bytes": "IsFourBytes",
    "checksum-digits": "checksum_digits",
    "shifted-xor": "shifted_xor",
    "shifts-xor": "shifts_xor",
    "small-⊕": "Small-⊕",
    "bytes-⊕": "Bytes-⊕",
}

# A lemma that the kit's script leaves with a name which a definition takes here.
MET = {("crates/bytes/proofs/Digits.antt", "is_digit"): "is_digit-digit"}

TOKEN = re.compile(r"[^\s(){}\[\]⟨⟩;,.:\"|&<>=+*/!?#@]+")
CAMEL = re.compile(r"(?<![A-Za-z0-9_])[a-z][a-z0-9]*[A-Z][A-Za-z0-9]*(?![A-Za-z0-9_])")
PARTS = re.compile(r"(\"(?:\\.|[^\"\\])*\"|--[^\n]*|//[^\n]*)")
LETTERS = {"E", "D", "S"}
DECLARED = re.compile(
    r"^\s*(?:abbrev |unfoldable |pub |record )*([^\s:({]+)\s*(?:\([^)]*\)\s*|\{[^}]*\}\s*)*:\s"
)


def snake(name):
    return re.sub(r"(?<=[a-z0-9])([A-Z])", lambda m: "_" + m.group(1).lower(), name)


def files():
    for folder, dirs, names in os.walk("crates"):
        dirs[:] = sorted(d for d in dirs if d != "out")
        for name in sorted(names):
            if name.endswith((".rt", ".antt", ".edit")):
                yield os.path.join(folder, name)


def has_letters(path):
    """Where E, D and S are definitions, and no parameters."""
    return path.startswith(("crates/aes/", "crates/sealing_c/src/", "crates/sealing_c/proofs/")) or any(
        path.startswith("crates/cipher/" + p)
        for p in ("specs/Demonstration", "specs/Shift", "src/demonstration", "proofs/demonstration", "proofs/Shift", "must-fail/")
    )


def declared(texts):
    """The names with a dash that lemmas, definitions and fields of this repository have, but for the generated ones."""
    found = set()
    for path, text in texts.items():
        if not path.endswith(".antt"):
            continue
        for line in text.splitlines():
            it = DECLARED.match(line)
            if it and "-" in it.group(1) and "goal." not in line:
                found.add(it.group(1))
    return found


def dashed(name):
    if name in OWN:
        return OWN[name]
    parts = [FIPS.get(p, OWN.get(p, snake(p))) for p in name.split("-")]
    text = parts[0]
    for a, b in zip(parts, parts[1:]):
        text += ("-" if (a in WORDS and b in WORDS) or "⊕" in (a, b) and b in WORDS else "_") + b
    return text


def respelled(text, path, names):
    letters = has_letters(path)
    fips = path.startswith("crates/aes/") or path.startswith("crates/sealing_c/")

    def token(m):
        word = m.group(0)
        if (path, word) in MET:
            return MET[path, word]
        after_dot = m.start() > 0 and m.string[m.start() - 1] == "."
        if word in names and (not after_dot or word in ("enc-sixteen", "dec-sixteen")):
            return names[word]
        if word in FIPS and fips and word not in LETTERS:
            # a module's name keeps its capital
            here = m.string[m.end():]
            return word if here.startswith(".{") or here.startswith("\n") and "pub mod " in m.string else FIPS[word]
        if word in LETTERS and letters:
            return FIPS[word]
        return CAMEL.sub(lambda c: OWN.get(c.group(0), snake(c.group(0))), word)

    out = []
    for part in PARTS.split(text):
        if part.startswith(("--", "//", '"')):
            out.append(part)
        else:
            part = re.sub(r"\bRattle\.bytes\.", "Rattle.octets.", part)
            part = re.sub(r"(?<![\w:.])bytes::", "octets::", part)
            out.append(TOKEN.sub(token, part))
    return "".join(out)


def main():
    if not os.path.isdir("crates/bytes"):
        sys.exit("respell: there is no crates/bytes; it has run already, or this is not the top of the checkout")
    texts = {}
    for path in files():
        with open(path, encoding="utf-8") as f:
            texts[path] = f.read()
    names = {n: dashed(n) for n in declared(texts)}
    names = {old: new for old, new in names.items() if old != new}

    # no two old names may become one, and no new name may stand already
    standing = set()
    for path, text in texts.items():
        if path.endswith(".antt"):
            for part in PARTS.split(text)[::2]:
                standing |= set(TOKEN.findall(part))
    by_new = {}
    for old, new in names.items():
        by_new.setdefault(new, set()).add(old)
    together = {new: olds for new, olds in by_new.items() if len(olds) > 1 or new in standing}
    if together:
        for new, olds in sorted(together.items()):
            print(f"respell: {' and '.join(sorted(olds))} would be {new}" + (", which stands already" if new in standing else ""))
        sys.exit(1)

    for path, text in texts.items():
        new = respelled(text, path, names)
        if new != text:
            with open(path, "w", encoding="utf-8") as f:
                f.write(new)
    with open("crates.txt", encoding="utf-8") as f:
        listed = f.read()
    with open("crates.txt", "w", encoding="utf-8") as f:
        f.write(re.sub(r"(?m)^([^#\n].*|)$", lambda m: re.sub(r"\bbytes\b", "octets", m.group(0)), listed))
    os.rename("crates/bytes", "crates/octets")
    for old, new in sorted(names.items()):
        print(f"{old} -> {new}")


if __name__ == "__main__":
    main()
