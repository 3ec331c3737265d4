"""Random URLs: many texts of few keys, and texts at each edge of docs/RULES.md, "Keys"."""

from random import Random

KEYS = [b"http://o/a", b"http://o/b", b"http://o/", b"http://p:8080/x?y", b"http://o/?", b"http://o/%41", b"http://[::1]/q", b"http://[::1]:81/",
        b"http://o/A", b"http://a.b-c_d~e!f/~"]
SCHEMES = [b"http"] * 12 + b"HTTP hTtP https ftp 1http ht~tp http+x h_tp ht%74p urn - ~".split() + [b"", b"a" * 64, b"a" * 65, b"http\x80", b" http"]
MARKS = [b"://"] * 16 + [b":/", b":", b"", b"//", b":///", b"://://", b";//"]
HOSTS = b"""o O oO.Example a.b [::1] [FE80::1] [ b] [] [::1]x x[a] x[a]y x[a:b] [[a]] [a][b] u@o u:p@o @o o@ u%41@o %41 [%25a] o% * + a,b a'(b) a"b a<b
    a`b a{b a|b a\\b a^b a:b:c 1:2:3:4:5:6:7:8:9 u:1:2:3:4:5:6:7@o u:1:2:3:4:5:6:7:8@o u:1:2:3:4:5:6:7:8:9@o [1:2:3:4:5:6:7:8] [1:2:3:4:5:6:7:8:9]
    o;x o=x - _ ~ . .. [a]@o o@[a] u@[a]:80 [a@b] @ [@] %@o [%] %[a] a]b[""".split() + [b"", b"", b"a\x7fb", b"a\x80b"]
PORTS = [b""] * 4 + b""": :80 :080 :0080 :00080 :000080 :0 :00000 :1 :00001 :65535 :65536 :99999 :100000 :8080 :08080 :+80 :-1 :8x :x :80:80 :: :%38 :81
    :4294967376""".split()
PATHS = [b""] * 2 + b"""/ /a /a/b // /? ? ?a ?a?b /a? /a?b /%41 /% /%zz /" /` /< /> /^ /| /{} /\\ /[] /?" /?` /?< /?> /?{|} /?^ /?\\ /?[] /# # #a /a#b?c
    /* * /:80 /@ ?@ /?# /.. /./a /a;b=c /~ /! ?/ ?/?a""".split() + [b"/\xc3\xa9", b"/\x7f", b"/\0", b"/a b"]
WHOLE = b"""* / /a /?x ? # o o:80 o/ o:80/ urn:x //o/ http http: http:/ http:// http:/// http://? http://# http://: http://:80 http://@/ http:o :// ://o
    : a [ @ % ** /* *a http://* mailto:a@b a://b // http://http://o/ http://o/http://o/ https:// https://u@o ftp://:0/ a:b:c""".split() + [b""]
LENGTHS = [1018, 1020, 1022, 1023, 1024, 1025, 1026, 1028, 1030, 2000]


def mixed_case(random: Random, text: bytes) -> bytes:
    return bytes(octet ^ 32 if bytes([octet]).isalpha() and random.random() < 0.5 else octet for octet in text)


def variant(random: Random, key: bytes) -> bytes:
    """Another text of a key: case of scheme and host, the port with zeros or in full, an empty path."""
    authority, slash, tail = key.removeprefix(b"http://").partition(b"/")
    host, port = authority, b"80"
    if authority.rfind(b":") > authority.rfind(b"]"):
        host, _, port = authority.rpartition(b":")
    text = mixed_case(random, b"http") + b"://" + mixed_case(random, host)
    if port != b"80" or random.random() < 0.4:
        text += b":" + port.rjust(random.randrange(len(port), 7), b"0")
    is_short = tail.startswith(b"?") or not tail
    return text + (tail if is_short and random.random() < 0.5 else slash + tail)


def long_url(random: Random) -> bytes:
    """Around 1,024 octets, as a text or as a key."""
    front = random.choice([b"http://o/", b"HTTP://O:80/", b"http://o:00080/", b"http://o:/", b"http://", b"http://o?", b"http://o:08080?", b"https://o/"])
    text = (front + random.choice([b"a", b"A", b"a."]) * 2000)[:random.choice(LENGTHS)]
    end = random.choice([b"", b"", b":80", b":", b":00080", b" ", b"#"])
    return text[:len(text) - len(end)] + end


def damaged(random: Random, text: bytes) -> bytes:
    place = random.randrange(len(text))
    octet = bytes([random.choice([random.randrange(256), *b"/?#:@[]%.0a8 ~\"<>`"])])
    return text[:place] + random.choice([b"", octet]) + text[place + random.randrange(2):]


def made_url(random: Random, known: float = 0.6) -> bytes:
    """With this probability a text of one of the few keys."""
    if random.random() < known:
        return variant(random, random.choice(KEYS)) if random.random() < 0.5 else random.choice(KEYS)
    match random.randrange(10):
        case 0 | 1:
            return random.choice(WHOLE)
        case 2:
            return long_url(random)
        case 3 | 4:
            return damaged(random, variant(random, random.choice(KEYS)))
        case 5:
            return bytes(random.choices(b"htp:/?#[]@%o08a.*~", k=random.randrange(14)))
    return b"".join(map(random.choice, (SCHEMES, MARKS, HOSTS, PORTS, PATHS)))
