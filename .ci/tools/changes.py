"""Changes of files at random: signs that come, go or are others, and lines that stand twice, are lost or change places."""
import re

SIGNS = [b'"', b"'", b"[", b"]", b"{", b"}", b",", b"=", b"\n", b"\r", b"\r\n", b"#", b" ", b"\t", b"\\", b".", b"0", b"1", b"x", b"K",
         b"\xff", b"\xc3\xa9", b"\x00", b"\x7f", b'"""', b"'''", b"[[", b"]]", b"_", b"-", b";", b"\xef\xbb\xbf", b'""']


def put_sign(pick, data):
    at = pick.randint(0, len(data))
    return data[:at] + pick.choice(SIGNS) + data[at:]


def change_sign(pick, data):
    at = pick.randint(0, len(data))
    return data[:at] + pick.choice(SIGNS) + data[at + 1:]


def lose_signs(pick, data):
    at = pick.randint(0, len(data))
    return data[:at] + data[at + pick.choice((1, 1, 1, 2, 5)):]


def lose_line(pick, data):
    lines = data.split(b"\n")
    del lines[pick.randrange(len(lines))]
    return b"\n".join(lines)


def put_line_twice(pick, data):
    lines = data.split(b"\n")
    lines.insert(pick.randint(0, len(lines)), pick.choice(lines))
    return b"\n".join(lines)


def change_lines(pick, data):
    lines = data.split(b"\n")
    one, other = pick.randrange(len(lines)), pick.randrange(len(lines))
    lines[one], lines[other] = lines[other], lines[one]
    return b"\n".join(lines)


def change_word(pick, data):
    words = re.findall(rb"\w+", data)
    return data.replace(pick.choice(words), pick.choice(words), pick.choice((1, -1))) if words else data


def cut(pick, data):
    return data[:pick.randint(0, len(data))]


KINDS = (put_sign, put_sign, put_sign, lose_signs, lose_signs, change_sign, lose_line, put_line_twice, change_lines, change_word, cut)


def changed(pick, data):
    """Bytes with one to five changes."""
    for _ in range(pick.choice((1, 1, 1, 2, 3, 5))):
        data = pick.choice(KINDS)(pick, data)
    return data
