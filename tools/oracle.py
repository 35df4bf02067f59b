"""What the makers of stored answers share: asking the original, and floats as their bits.

ORACLE is the program that `cargo build --release` makes of the original behind a line protocol.
"""
import struct
import subprocess


def bits(x):
    return struct.pack(">d", x).hex()


def float_of(word):
    return struct.unpack(">d", bytes.fromhex(word))[0]


def words(numbers):
    return " ".join(map(bits, numbers))


def ask(oracle, requests):
    """The lines that the oracle answers to the text of all requests."""
    return subprocess.run([oracle], input=requests, capture_output=True, text=True, check=True).stdout.splitlines()


def write_lists(oracle, command, lists, header, out):
    """Asks the command about each list, and writes a line a list: the bits of its values, `:`, the answer. Returns the answers."""
    answers = ask(oracle, "".join(f"{command} {len(numbers)}\n{words(numbers)}\n" for numbers in lists))
    assert len(answers) == len(lists), f"{len(answers)} answers to {len(lists)} requests"
    with open(out, "w", encoding="ascii") as file:
        print(header, file=file)
        for numbers, answer in zip(lists, answers):
            print(f"{words(numbers)} : {answer}".strip(), file=file)
    return answers
