#!/usr/bin/env python3
"""How long the product of two linear processes takes beside the size of its result.

Run it from the top of the repository, after a build: bench/products.py
It prints one line for each linear process, which is put beside itself: its kind, its summands, those of the product, the processor's
seconds, those for each summand of the product, and the peak memory. What the program takes for the one linear process is left out of
the seconds. The product is written, and that is measured too. The peak is never less than that of this script, which starts the program. It is no
part of the gate.
"""

from programs import done

KIB = 1 << 10


def plain(number):
    """A summand whose condition, label and call have data."""
    return f"(x == {number}) -> a({number}) . X({number})"


def ending(number):
    """A summand that ends."""
    return f"(x == {number}) -> a({number})"


def summing(number):
    """A summand with a sum variable of its own, which gives way in the product."""
    return f"(sum y{number}: Nat . (x == y{number}) -> a(y{number}) . X(y{number}))"


# A summand of a number, and how many summands the product has.
KINDS = {
    "going on": (plain, lambda count: count * count + 2 * count),
    "ending": (ending, lambda count: count * count + 4 * count),
    "own sums": (summing, lambda count: count * count + 2 * count),
}


def summands(said):
    """How many summands a written linear process has."""
    return 1 + said.count("\n  + ")


def main():
    for kind, (summand, size) in KINDS.items():
        for count in (100, 200, 400, 1_000):
            text = f"act a: Nat; proc X(x: Nat) = {' + '.join(map(summand, range(count)))}; init "
            _, alone, _, _ = done("linearise", text + "X(0);")
            _, seconds, memory, said = done("linearise", text + "X(0) || X(0);")
            assert summands(said) == size(count), said[:80]
            taken = max(seconds - alone, 0.0)
            print(f"{kind:9} {count:5} summands, {size(count):8} in the product: {taken:7.3f} s, "
                  f"{taken / size(count) * 1e6:5.2f} microseconds a summand, {memory // KIB:4} MiB")


if __name__ == "__main__":
    main()
