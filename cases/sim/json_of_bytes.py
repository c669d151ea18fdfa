"""Bytes that no string of JSON may have as they are: each line is one object still, and text that is UTF-8 stays."""


def script():
    return "nodes 1 9\nset 0 p print(ä\u20ac)\nexpect set 2.0 \x7f\x1f\n".encode() + b"pass 0 svae\nexpect \xff\xe4 \\\n"


def output():
    return (
        '{"answer":"set","stamp":"1.0"}\n{"answer":"unset"}\n'
        '{"says":"line 3: expected set 2.0 \\u007f\\u001f, got set 1.0"}\n'
        '{"says":"line 5: expected \\u00ff\\u00e4 \\u005c, got unset"}\n'
    ).encode()
