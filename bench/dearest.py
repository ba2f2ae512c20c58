#!/usr/bin/env python3
"""Prints in hex the dearest request that anybody can send, of 131,072 bytes: a TGS-REQ to realm R, whose krbtgt key has type 18 and version
255 (the directory of the request for S4U2proxy in requests.txt), with a ticket that is decrypted whole before it is known not to open (G4)."""


def der(tag, *parts):
    content = b"".join(parts)
    length = len(content)
    if length < 128:
        return bytes([tag, length]) + content
    octets = length.to_bytes((length.bit_length() + 7) // 8, "big")
    return bytes([tag, 0x80 | len(octets)]) + octets + content


def request(length):
    number = lambda value: der(2, value.to_bytes(value.bit_length() // 8 + 1, "big"))
    name = der(0x30, der(0xa0, number(2)), der(0xa1, der(0x30, der(0x1b, b"krbtgt"), der(0x1b, b"R"))))
    sealed = lambda octets: der(0x30, der(0xa0, number(18)), der(0xa1, number(255)), der(0xa2, der(4, octets)))
    ticket = der(0x61, der(0x30, der(0xa0, number(5)), der(0xa1, der(0x1b, b"R")), der(0xa2, name), der(0xa3, sealed(bytes(length)))))
    header = der(0x6e, der(0x30, der(0xa0, number(5)), der(0xa1, number(14)), der(0xa2, der(3, bytes(5))), der(0xa3, ticket),
                           der(0xa4, sealed(bytes(32)))))
    padata = der(0x30, der(0x30, der(0xa1, number(1)), der(0xa2, der(4, header))))
    body = der(0x30, der(0xa0, der(3, bytes(5))), der(0xa2, der(0x1b, b"R")), der(0xa3, name), der(0xa5, der(0x18, b"19700101000000Z")),
               der(0xa7, number(7)), der(0xa8, der(0x30, number(18))))
    return der(0x6c, der(0x30, der(0xa1, number(5)), der(0xa2, number(12)), der(0xa3, padata), der(0xa4, body)))


whole = request(131_072 - len(request(131_000)) + 131_000)
assert len(whole) == 131_072
print(whole.hex())
