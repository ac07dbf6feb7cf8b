"""Texts made safe for links and names, attributes in texts, and words that are joined."""
from tables.kinds.answered import answered

# a text with what paths may have and with what becomes `_`; written with its escapes, and with `$$` for a dollar
PATH = 'by-id/a.b_c:d=e@f#g+h \\t!$$\\\\x2F\\\\y'

# a first byte alone, an overlong sequence, a surrogate, and the rest of a sequence, with bars between them
NOT_UTF_8 = b"\xC3|\xC0\xAF|\xED\xA0\x80|\xA4"

UTF_8 = "\u00E4\u20AC\U0001F600"

ROWS = [
    # spaces separate links, so the two bytes after the space and the tab begin a link
    answered(
        "a link keeps the characters of paths",
        [f'SYMLINK+=e"{PATH}"'],
        ([], ["link by-id/a.b_c:d=e@f#g+h", "link __\\x5Cx2F_y"]),
    ),
    answered(
        "a name keeps the characters of paths, and has no spaces",
        [f'NAME=e"{PATH}"'],
        (["U: net"], ["name by-id/a.b_c:d=e@f#g+h____\\x5Cx2F_y", "env SUBSYSTEM=net"]),
    ),
    answered(
        "string_escape=replace also replaces the spaces of links",
        [f'SYMLINK+=e"{PATH}", OPTIONS="string_escape=replace"'],
        ([], ["link by-id/a.b_c:d=e@f#g+h____\\x5Cx2F_y"]),
    ),
    answered(
        "string_escape=none only splits links at spaces",
        [f'OPTIONS="string_escape=none", SYMLINK+=e"{PATH}"'],
        ([], ["link by-id/a.b_c:d=e@f#g+h", "link \\x09!$\\x5Cx2F\\x5Cy"]),
    ),
    answered(
        "each whitespace character separates links",
        ['SYMLINK+=e"a\\tb\\nc\\vd\\fe\\rf g"'],
        ([], [f"link {name}" for name in "abcdefg"]),
    ),
    answered("a link keeps UTF-8", [f'SYMLINK+="{UTF_8}"'], ([], [f"link {UTF_8}"])),
    answered("a name keeps UTF-8", [f'NAME="{UTF_8}"'], (["U: net"], [f"name {UTF_8}", "env SUBSYSTEM=net"])),
    answered("a link keeps a character of several bytes", [b'SYMLINK+="\xC3\xA4"'], ([], [b"link \xC3\xA4"])),
    answered("only the first byte of a character", [b'SYMLINK+="\xC3"'], ([], ["link _"])),
    answered("an overlong sequence", [b'SYMLINK+="\xC0\xAF"'], ([], ["link __"])),
    answered("a link keeps no bytes over 0x7F that are not UTF-8", [b'SYMLINK+="' + NOT_UTF_8 + b'"'], ([], ["link __________"])),
    answered(
        "the greatest and the least character of each length",
        [b'SYMLINK+="\xC2\x80|\xE0\xA0\x80|\xEF\xBF\xBF|\xF0\x90\x80\x80|\xF4\x8F\xBF\xBF"'],
        ([], [b"link \xC2\x80_\xE0\xA0\x80_\xEF\xBF\xBF_\xF0\x90\x80\x80_\xF4\x8F\xBF\xBF"]),
    ),
    answered(
        "characters beyond the least and the greatest of each length",
        [b'SYMLINK+="\xC1\xBF|\xE0\x9F\xBF|\xF0\x8F\xBF\xBF|\xF4\x90\x80\x80|\xF5\x80"'],
        ([], ["link " + "_" * 19]),
    ),
    # an attribute keeps four bytes more, and a substitution is not split at its spaces, except for a link
    answered(
        "an attribute in a text keeps more characters",
        ['ENV{X}="$attr{a}"'],
        (["A: a=x;y?,$%\tz"], ["env X=x_y?,$% z"]),
        ([b"A: a=a\vb\fc\rd e \t"], ["env X=a b c d e"]),
        (["A: a=by-id/a.b_c:d=e@f#g+h !\\x2F\\y"], ["env X=by-id/a.b_c:d=e@f#g+h _\\x5Cx2F_y"]),
        ([b"A: a=" + NOT_UTF_8], ["env X=__________"]),
        (["A: a=" + UTF_8], [f"env X={UTF_8}"]),
    ),
    # in a link each run of whitespace in a substitution becomes one `_`, and none is left at its ends
    answered(
        "words of a substitution are joined in a link",
        ['ENV{L}=e" \\t a  b c\\n"', 'SYMLINK+="$env{L} x$env{L}y"'],
        ([], ["link a_b_c", "link xa_b_cy", "env L= \\x09 a  b c\\x0A"]),
    ),
    answered("a substitution of only blanks adds nothing to a link", ['ENV{L}="  "', 'SYMLINK+="x$env{L}y"'], ([], ["link xy", "env L=  "])),
]
