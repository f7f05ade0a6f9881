"""What the scripts of tests/, examples/, bindings/ and crates/ share."""
import os

TOP = os.path.dirname(os.path.dirname(os.path.dirname(os.path.abspath(__file__))))


def built(program: str) -> list[str]:
    """The words that start a program that the gate, or `rt run`, has left in its crate's folder."""
    return [f'{TOP}/crates/{program}/out/{program}']
