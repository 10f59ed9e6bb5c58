#!/usr/bin/env python3
"""What crates/json_vectors must print: `python3 tests/json_vectors.py > crates/json_vectors/stdout`.

Its texts, parted by byte 0x1E: `python3 tests/json_vectors.py texts > crates/json_vectors/stdin`. The answers are written by hand from the
rules: 0 done, 1 too long, 2 too deep, 3 no JSON, 4 member names."""
import sys

V = []


def put(answer, *texts):
    V.extend((t if isinstance(t, bytes) else t.encode(), answer) for t in texts)


def deep(n, inner=b''):
    return b'[' * n + inner + b']' * n


# JSON-text = ws value ws; the literal names
put(0, 'true', 'false', 'null', ' \t\n\rtrue \t\n\r', '0', '""', '[]', '{}')
put(3, ' ', 'tru', 'truee', 'True', 'nul', 'fals', 'nulll', 'true false', '\ufefftrue', '\x0btrue', '\x0ctrue', '\xa0true', 'true\x00')
# number = [ minus ] int [ frac ] [ exp ]
put(0, '-0', '10', '-19', '0.5', '1.250', '1e5', '1E+5', '1e-05', '0e0', '-0.0e-0', '123456789012345678901234567890')
put(3, '-', '+1', '01', '00', '-01', '.5', '1.', '1.e5', '1e', '1e+', '1e+-5', '0x10', '1 2', '--1', 'Infinity', 'NaN', '1.5.2', '1e5.2')
# string = quotation-mark *char quotation-mark
put(0, '"a"', '"\\"\\\\\\/\\b\\f\\n\\r\\t"', '"\\u0041\\u00e9\\u20AC\\uffff"', '"\x7f /"', '"{[,:]}"')
put(3, '"', '"a', '"\\', '"\\"', '"\\a"', '"\\x41"', '"\\u"', '"\\u004"', '"\\u004g"', '"\\U0041"', "'a'", '"a""b"', '"\\u00 41"')
put(3, *('"a' + chr(c) + 'b"' for c in range(32) if c != 0x1E))
# array and object
put(0, '[1]', '[1,2]', '[ 1 , 2 ]', '[[],{}]', '{"a":1}', '{ "a" : 1 , "b" : 2 }', '{"":0}', '{"a":{"b":[{"c":null}]}}', '[\n]', '{\t}')
put(3, '[', ']', '[1', '[1,', '[1,]', '[,1]', '[1 2]', '[1}', '{', '}', '{"a"', '{"a":', '{"a":1', '{"a":1,', '{"a":1,}', '{,"a":1}',
    '{a:1}', '{1:1}', '{"a" 1}', '{"a":1 "b":2}', '{"a":1]', '{"a",1}', '{"a":}', '{:1}', '[1]]', '{}}', '[]{}', '{"a":1,1}', '[1;2]', '/**/1', '[1] // c')
# UTF-8, each boundary of RFC 3629's table, right and wrong
for good in ('c280', 'dfbf', 'e0a080', 'e0bfbf', 'e18080', 'ecbfbf', 'ed8080', 'ed9fbf', 'ee8080', 'efbfbf', 'f0908080', 'f0bfbfbf', 'f1808080',
             'f3bfbfbf', 'f4808080', 'f48fbfbf'):
    put(0, b'"' + bytes.fromhex(good) + b'"')
for wrong in ('80', 'bf', 'c080', 'c1bf', 'c27f', 'c2c0', 'c2', 'df', 'e09fbf', 'e080bf', 'e0a07f', 'e0a0c0', 'e0a0', 'e17fbf', 'e1c080', 'e18080c0',
              'eda080', 'edbfbf', 'ed7fbf', 'ee7f80', 'efbfc0', 'f08fbfbf', 'f0808080', 'f09080', 'f0907f80', 'f090807f', 'f0908', 'f17fbfbf', 'f1c08080',
              'f4908080', 'f47fbfbf', 'f5808080', 'f8888080', 'fc', 'fe', 'ff'):
    put(3, b'"' + bytes.fromhex(wrong + '0' * (len(wrong) % 2)) + b'"')
put(3, b'\xc3\xa9', b'[\xe2\x80\x83]', b'{"a":\x80}', b'\xff', b'"a"\xc2\xa0')
# levels: 16 pass, a 17th answers 2
put(0, deep(16), deep(16, b'1'), b'{"a":' * 16 + b'{}'[:0] + b'1' + b'}' * 16, b'{"a":[' * 8 + b']}' * 8, b'[' + deep(15) + b',' + deep(15) + b']')
put(2, deep(17), deep(17, b'1'), b'{"a":' * 17 + b'1' + b'}' * 17, b'{"a":[' * 8 + b'{' + b'}' + b']}' * 8, b'[' * 17, b'[' * 16 + b'{', b'[' * 1000)
put(2, b'[' * 16 + b'[x', b'[' * 17 + b'\xff', b'[1,"a",' + b'[' * 16, b'[' * 17 + b'}', b'[' * 17 + b'"\\ud800"')
put(3, b'[' * 16 + b'x[', b'[' * 16 + b'"\xff"[', b'[x' + b'[' * 17, b'[1 ' + b'[' * 16, b'[' * 16, b'{"a" ' + b'[' * 17, b'\xef\xbb\xbf' + b'[' * 17,
    b'"a"' + b'[' * 17, b'[' * 16 + b'}', b'[01,' + b'[' * 17)
# escaped surrogates
put(0, '"\\uD834\\uDD1E"', '"\\ud800\\udc00"', '"\\uDBFF\\uDFFF"', '"\\uD7FF\\uE000"', '"\\ud83d\\ude00\\ud83d\\ude00"', '"\\\\ud800"')
put(3, '"\\ud800"', '"\\udc00"', '"\\uDBFF"', '"\\uDFFF"', '"\\ud800a"', '"\\ud800\\n"', '"\\ud800\\u0041"', '"\\ud800\\ud800\\udc00"', '"\\udc00\\ud800"',
    '"\\ud800\\\\udc00"', '"\\ud800 \\udc00"', '["\\ud800","\\udc00"]', '{"a":"\\ud800"}', '{"\\ud800":1}', '{"a":1,"a":"\\ud800"}', '"\\ud800\\udc00\\udc00"')
put(2, b'["\\ud800",' + b'[' * 16, b'{"\\ud800":' + b'[' * 16, b'["\\udc00"' + b',' + b'[' * 16)
put(3, b'["\\ud800"' + b'[' * 17)
# member names: equal ones, and a backslash, read or not, nested or not
put(4, '{"a":1,"a":2}', '{"a":1,"b":2,"a":3}', '{"":1,"":2}', '{"x":{"a":1,"a":1}}', '[[{"a":1,"b":1,"a":1}]]', '{"\\n":1}', '{"\\u0061":1}', '{"a":{"\\\\":1}}',
    '[1,{"b":[{"c":{"d":1,"d":2}}]}]', '{"é":1,"é":2}', '{"\\ud83d\\ude00":1}', '{"a":[{"q":1},{"q":1,"q":2}]}', '{"a":1,"b":{"c":1,"c":1},"d":2}')
put(0, '{"a":1,"b":2}', '{"a":{"a":{"a":1}}}', '[{"a":1},{"a":1}]', '{"a":1,"A":2}', '{"a":1,"aa":2,"aaa":3}', '{"a":"\\n"}', '{"b":1,"a":1,"c":1}', '{"é":1,"e":2}')
put(4, b'{"a":' * 15 + b'{"b":1,"b":1}' + b'}' * 15)
put(2, b'{"a":1,"a":' + b'[' * 16)
put(3, '{"a":1,"a":2', '{"\\n":1')
# length: 65,536 bytes are read, 65,537 answer 1 whatever they hold
put(0, b'"' + b'a' * 65534 + b'"')
put(1, b'"' + b'a' * 65535 + b'"')


# many names: as many as a text has room for; long ones that differ at their end; few and middle numbers of them
def named(names):
    return b'{' + b','.join(b'"' + n + b'":1' for n in names) + b'}'


def numbered(count, front=b'', width=2):
    letters = bytes(c for c in range(0x23, 0x7F) if c != 0x5C)
    out = []
    for k in range(count):
        name = b''
        for _ in range(width):
            name, k = bytes([letters[k % len(letters)]]) + name, k // len(letters)
        out.append(front + name)
    return out


many = numbered(8000)
put(0, named(many))
put(4, named(many + many[:1]), named(many[:7000] + many[6999:]))
long_names = numbered(490, b'x' * 125)
put(0, named(long_names))
put(4, named(long_names[1:] + long_names[-1:]))
for count in (7, 8, 9, 10, 127, 128, 129, 130):
    few = numbered(count)
    put(0, named(few), named(few[::-1]), named(few[::2] + few[1::2]))
    put(4, named(few + few[:1]), named(few[:1] + few[::-1]), named(few[:count // 2] + few[count // 2 - 1:]))
put(0, b'[' + b','.join(named(numbered(9)) for _ in range(60)) + b']')
put(4, b'[' + b','.join(named(numbered(9)) for _ in range(60)) + b',' + named(numbered(9) + [b'##']) + b']')


def blocks():
    """The texts in blocks of 262,144 bytes, each filled up with a text of spaces, which is no JSON or too long."""
    out, answers, block = b'', [], b''
    for text, answer in V:
        if 262144 < len(block) + len(text) + 1:
            spaces = 262144 - len(block) - 1
            out, block = out + block + b' ' * spaces + b'\x1e', b''
            answers.append(1 if 65536 < spaces else 3)
        block += text + b'\x1e'
        answers.append(answer)
    return out + block, answers


data, answers = blocks()
if sys.argv[1:] == ['texts']:
    sys.stdout.buffer.write(data)
else:
    print(''.join(f'{a}\n' for a in answers), end='')
