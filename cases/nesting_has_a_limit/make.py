"""Messages with a skipped member that nests arrays, beside the envelope, which is one level
itself.
"""
from spelling import accepted, faulty, message, write


def nested(number: int, arrays: int) -> str:
    return (
        message(f"u{number}", "PartDefined", PartNumber=f"P{number}")[:-1]
        + f',"Extra":{"[" * arrays}{"]" * arrays}}}'
    )


not_json = faulty("NotJson")
write(
    [
        (nested(1, 100), accepted(1, "u1")),
        (nested(2, 200), not_json),
        (nested(2, 126), accepted(2, "u2")),  # with the envelope 127
        (nested(3, 127), not_json),
        (nested(3, 1), accepted(3, "u3")),
    ]
)
